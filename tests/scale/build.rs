//! Points the linker at the static library.

use std::env;
use std::path::PathBuf;

fn main() {
    let directory = env::var_os("PLATES_LIB_DIR").map_or_else(default_directory, PathBuf::from);
    println!("cargo:rerun-if-env-changed=PLATES_LIB_DIR");
    println!(
        "cargo:rerun-if-changed={}",
        directory.join("libplates.a").display()
    );
    println!("cargo:rustc-link-search=native={}", directory.display());
    println!("cargo:rustc-link-lib=static=plates");
}

fn default_directory() -> PathBuf {
    let package = env::var_os("CARGO_MANIFEST_DIR").expect("cargo sets CARGO_MANIFEST_DIR");
    PathBuf::from(package).join("../../target/staticlib")
}
