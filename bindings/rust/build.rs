//! Links libplates.a, from the directory PLATES_LIB_DIR or from the repository's target/staticlib.

use std::env;
use std::path::{Path, PathBuf};
use std::process::exit;

fn library_dir() -> PathBuf {
    match env::var_os("PLATES_LIB_DIR") {
        Some(dir) => PathBuf::from(dir),
        None => {
            let package = env::var_os("CARGO_MANIFEST_DIR").expect("cargo sets it");
            Path::new(&package).join("../../target/staticlib")
        }
    }
}

fn main() {
    println!("cargo:rerun-if-env-changed=PLATES_LIB_DIR");
    let dir = library_dir();
    let library = dir.join("libplates.a");
    println!("cargo:rerun-if-changed={}", library.display());
    // The compiler may run in another directory, where a relative path would mean something else.
    if !library.is_file() || !dir.is_absolute() {
        eprintln!(
            "no libplates.a in {}: run `make lib`, or set PLATES_LIB_DIR to the absolute path \
             of the directory that has it",
            dir.display()
        );
        exit(1);
    }
    println!("cargo:rustc-link-search=native={}", dir.display());
    println!("cargo:rustc-link-lib=static=plates");
}
