//! Finds libdialmoth.a: in DIALMOTH_LIB_DIR, else where `./build-archive` puts it. A relative
//! path is taken from the project's folder: a build script cannot know where cargo was called.
//!
//! Packages that depend on this one see DEP_DIALMOTH_LINKED in their build script exactly when the
//! archive is there; the tests and the benchmark also build without it.

use std::{env, path::Path};

fn main() {
    let package = env::var_os("CARGO_MANIFEST_DIR").unwrap();
    let project = Path::new(&package).parent().unwrap();
    let named = env::var_os("DIALMOTH_LIB_DIR").filter(|named| !named.is_empty());
    let directory = project.join(named.unwrap_or_else(|| "target/staticlib".into()));
    let archive = directory.join("libdialmoth.a");
    println!("cargo:rerun-if-env-changed=DIALMOTH_LIB_DIR");
    println!("cargo:rerun-if-changed={}", archive.display());
    if archive.exists() {
        println!("cargo:rustc-link-search=native={}", directory.display());
        println!("cargo:rustc-link-lib=static=dialmoth");
        println!("cargo:linked=1");
    } else {
        let (directory, project) = (directory.display(), project.display());
        println!(
            "cargo:warning=no libdialmoth.a in {directory}: run `./build-archive` in {project}, \
             or name the folder that has it in DIALMOTH_LIB_DIR"
        );
    }
}
