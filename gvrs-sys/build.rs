//! Links `libgvrs_c.a`, which `tools/library` writes in crates/gvrs_c/out.
//! GVRS_LIB_DIR names another folder that holds one.

use std::env;
use std::path::PathBuf;

fn main() {
    let here = PathBuf::from(env::var("CARGO_MANIFEST_DIR").expect("cargo names the package folder"));
    let folder = match env::var("GVRS_LIB_DIR") {
        Ok(folder) => PathBuf::from(folder),
        Err(_) => here.join("../crates/gvrs_c/out"),
    };
    println!("cargo:rerun-if-env-changed=GVRS_LIB_DIR");
    println!("cargo:rerun-if-changed={}", folder.join("libgvrs_c.a").display());
    println!("cargo:rustc-link-search=native={}", folder.display());
    println!("cargo:rustc-link-lib=static=gvrs_c");
}
