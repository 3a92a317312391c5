//! Links the archive of the proved library. tools/archive.sh makes it; nothing is proved from here.

use std::path::Path;

fn main() {
    let here = std::env::var("CARGO_MANIFEST_DIR").expect("cargo sets it");
    let folder = Path::new(&here).join("../../target/staticlib");
    println!("cargo:rustc-link-search=native={}", folder.display());
    let archive = folder.join("libexports.a");
    println!("cargo:rerun-if-changed={}", archive.display());
    assert!(
        archive.exists(),
        "{} is not there: run tools/archive.sh exports first",
        archive.display()
    );
    println!("cargo:rustc-link-lib=static=exports");
}
