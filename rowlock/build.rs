//! Links the static library that `tools/archive` proves and writes into this crate, and so into
//! every crate that depends on it.
use std::path::Path;

fn main() {
    let root = std::env::var("CARGO_MANIFEST_DIR").expect("cargo sets it");
    let folder = Path::new(&root).join("../target/staticlib");
    let library = folder.join("librowlock.a");
    assert!(
        library.exists(),
        "{} is missing: run `tools/archive` in the repository's folder",
        library.display()
    );
    println!("cargo:rustc-link-search=native={}", folder.display());
    println!("cargo:rustc-link-lib=static=rowlock");
    println!("cargo:rerun-if-changed={}", library.display());
}
