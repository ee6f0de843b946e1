//! Links the archive that hosts/archive.sh makes. LOPRESNIK_ARCHIVE names another folder to find it in.

use std::env;
use std::path::PathBuf;

fn main() {
    let folder = match env::var_os("LOPRESNIK_ARCHIVE") {
        Some(folder) => PathBuf::from(folder),
        None => PathBuf::from(env::var_os("CARGO_MANIFEST_DIR").expect("cargo says where we are"))
            .join("../../target/staticlib"),
    };
    let archive = folder.join("liblopresnik.a");
    println!("cargo:rerun-if-env-changed=LOPRESNIK_ARCHIVE");
    println!("cargo:rerun-if-changed={}", archive.display());
    assert!(
        archive.is_file(),
        "{} is not there: run hosts/archive.sh lopresnik in the repository's root",
        archive.display()
    );
    println!("cargo:rustc-link-search=native={}", folder.display());
    println!("cargo:rustc-link-lib=static=lopresnik");
}
