//! Links libcct_c.a, in the folder that LITCHIHULL_LIB names, or where `rt lib` leaves it in this repository.

use std::env;

fn main() {
    let here = env::var("CARGO_MANIFEST_DIR").unwrap();
    let folder = env::var("LITCHIHULL_LIB").unwrap_or(format!("{here}/../../crates/cct_c/out"));
    println!("cargo:rerun-if-env-changed=LITCHIHULL_LIB");
    println!("cargo:rustc-link-search=native={folder}");
    println!("cargo:rustc-link-lib=static=cct_c");
}
