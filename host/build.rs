//! Links the proved library, `libsundewfrill.a`, into whatever is built with
//! the feature `proved`.
//!
//! The archive is looked for in `../target/staticlib`; the environment variable
//! `SUNDEWFRILL_LIB_DIR` names another folder. It is made for x86-64 only: for
//! any other processor nothing is linked unless that variable says so, which
//! leaves the independent implementation and its tests buildable everywhere.

use std::env;
use std::path::{Path, PathBuf};

const DIRECTORY_VARIABLE: &str = "SUNDEWFRILL_LIB_DIR";
const ARCHIVE: &str = "libsundewfrill.a";

fn main() {
    println!("cargo:rerun-if-changed=build.rs");
    println!("cargo:rerun-if-env-changed={DIRECTORY_VARIABLE}");
    if env::var_os("CARGO_FEATURE_PROVED").is_none() {
        return;
    }
    match env::var_os(DIRECTORY_VARIABLE) {
        Some(directory) => link(Path::new(&directory)),
        None if made_for_target() => link(&usual_directory()),
        None => println!(
            "cargo:warning=the proved library is for x86-64: here only the tests of the independent implementation link"
        ),
    }
}

/// Whether the archive is made for the processor that is built for.
fn made_for_target() -> bool {
    env::var("CARGO_CFG_TARGET_ARCH").as_deref() == Ok("x86_64")
}

/// Where the build of the proved library leaves its archive.
fn usual_directory() -> PathBuf {
    let package = env::var_os("CARGO_MANIFEST_DIR").expect("cargo sets the package's folder");
    Path::new(&package).join("../target/staticlib")
}

/// Tells the compiler to link the archive of this folder, if it is there. If it
/// is not, whatever needs it fails to link, and the rest builds.
fn link(directory: &Path) {
    let archive = directory.join(ARCHIVE);
    println!("cargo:rerun-if-changed={}", archive.display());
    if archive.exists() {
        println!("cargo:rustc-link-search=native={}", directory.display());
        println!("cargo:rustc-link-lib=static=sundewfrill");
    } else {
        println!(
            "cargo:warning={} is not there: build the proved library first, or set {DIRECTORY_VARIABLE}",
            archive.display()
        );
    }
}
