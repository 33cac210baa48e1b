//! The plain Rust implementation against files of the real GSD library.

use differential::files::{self, Files};
use differential::library::Reference;

#[test]
fn reference_reads_every_file() {
    // Other files of the same kind may be tried: NAME.gsd, NAME.list, NAME.chunks.
    let other = std::env::var_os("GSD_FILES");
    let files = other.map_or_else(Files::stored, |folder| Files::of(folder.into()));
    let names = files.names().unwrap();
    assert!(!names.is_empty());
    for name in names {
        println!("{name}");
        files::hold(&Reference, &files, &name);
    }
}
