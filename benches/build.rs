//! Links `libbench_c.a`, which `rt lib` writes in the root's crates/bench_c.

use std::env;
use std::path::PathBuf;

fn main() {
    let here =
        PathBuf::from(env::var("CARGO_MANIFEST_DIR").expect("cargo names the package folder"));
    let folder = here.join("../crates/bench_c/out");
    println!("cargo:rerun-if-changed={}", folder.join("libbench_c.a").display());
    println!("cargo:rustc-link-search=native={}", folder.display());
    println!("cargo:rustc-link-lib=static=bench_c");
}
