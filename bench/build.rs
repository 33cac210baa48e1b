//! Sets `linked` exactly when the package dialmoth found libdialmoth.a.

fn main() {
    println!("cargo:rustc-check-cfg=cfg(linked)");
    println!("cargo:rerun-if-env-changed=DEP_DIALMOTH_LINKED");
    if std::env::var_os("DEP_DIALMOTH_LINKED").is_some() {
        println!("cargo:rustc-cfg=linked");
    }
}
