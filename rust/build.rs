//! Links the proved static library. It is not built here: proving it takes the toolchain `rt`.

use std::env;
use std::path::PathBuf;
use std::process::exit;

const OVERRIDE: &str = "PURLQUARTZ_LIB_DIR";
const ARCHIVE: &str = "libpurlquartz.a";

fn main() {
    println!("cargo:rerun-if-env-changed={OVERRIDE}");
    println!("cargo:rerun-if-changed=build.rs");
    let directory = library_directory();
    let archive = directory.join(ARCHIVE);
    println!("cargo:rerun-if-changed={}", archive.display());
    if !archive.is_file() {
        eprintln!("{ARCHIVE} is not in {}.", directory.display());
        eprintln!("Make it with `.ci/staticlib` in the repository's root,");
        eprintln!("or name the directory that holds it in {OVERRIDE}.");
        exit(1);
    }
    println!("cargo:rustc-link-search=native={}", directory.display());
    println!("cargo:rustc-link-lib=static=purlquartz");
}

fn library_directory() -> PathBuf {
    match env::var_os(OVERRIDE) {
        Some(directory) => PathBuf::from(directory),
        None => {
            let package = env::var_os("CARGO_MANIFEST_DIR").expect("cargo names the package");
            PathBuf::from(package).join("../target/staticlib")
        }
    }
}
