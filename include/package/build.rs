//! Where the library's archive stands, seen from the wrapper: both are below one prefix, wherever that was put.

fn main() {
    let here = std::env::var("CARGO_MANIFEST_DIR").expect("cargo says where the package is");
    println!("cargo:rerun-if-changed=build.rs");
    println!("cargo:rustc-link-search=native={here}/../../../lib");
    println!("cargo:rustc-link-lib=static=chess_scores");
}
