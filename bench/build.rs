//! Links the archive that `tests/build sheet_c` wrote.
use std::path::PathBuf;

fn main() {
    let here = PathBuf::from(std::env::var("CARGO_MANIFEST_DIR").unwrap());
    let archive = here.join("../target/staticlib/libsheet.a");
    println!("cargo:rerun-if-changed={}", archive.display());
    println!("cargo:rustc-link-arg={}", archive.display());
}
