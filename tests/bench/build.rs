//! Links the proved calls: the static library that `rt lib` builds in crates/exports_c, which `compile_bench` (common) copies to target/library/libexports.a.

use std::path::Path;

fn main() {
    let library = Path::new(env!("CARGO_MANIFEST_DIR")).join("target/library");
    println!("cargo:rustc-link-search=native={}", library.display());
    println!("cargo:rustc-link-lib=static=exports");
    println!("cargo:rerun-if-changed={}", library.join("libexports.a").display());
}
