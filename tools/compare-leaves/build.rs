//! Links libreferee_c.a: from the folder REFEREE_LIB_DIR if that is set, else from the repository's crates/referee_c/out.
//! With the feature `mpfr` also libmpfr and libgmp, from where the linker finds them.

use std::env;
use std::path::{Path, PathBuf};

fn main() {
    println!("cargo:rerun-if-env-changed=REFEREE_LIB_DIR");
    let project = env::var_os("CARGO_MANIFEST_DIR").expect("cargo sets CARGO_MANIFEST_DIR");
    let folder = match env::var_os("REFEREE_LIB_DIR") {
        Some(given) => PathBuf::from(given),
        None => Path::new(&project).join("../../crates/referee_c/out"),
    };
    // A build script runs in the project's folder and not where cargo was called: a relative path would mislead.
    if !folder.is_absolute() {
        panic!("REFEREE_LIB_DIR must be an absolute path");
    }
    let archive = folder.join("libreferee_c.a");
    println!("cargo:rerun-if-changed={}", archive.display());
    if !archive.is_file() {
        panic!(
            "{} is missing: run `tools/make referee_c` in the repository's root, or set REFEREE_LIB_DIR",
            archive.display()
        );
    }
    println!("cargo:rustc-link-search=native={}", folder.display());
    println!("cargo:rustc-link-lib=static=referee_c");
    if env::var_os("CARGO_FEATURE_MPFR").is_some() {
        println!("cargo:rustc-link-lib=mpfr");
        println!("cargo:rustc-link-lib=gmp");
    }
}
