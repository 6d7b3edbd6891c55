//! Where the static library is: the one in the folder BOXASHEWU_LIBRARY, or else the one that `rt lib` wrote in crates/boxashewu.

use std::env;

fn main() {
    println!("cargo:rerun-if-env-changed=BOXASHEWU_LIBRARY");
    let beside = concat!(env!("CARGO_MANIFEST_DIR"), "/../crates/boxashewu/out");
    let folder = env::var("BOXASHEWU_LIBRARY").unwrap_or(beside.to_string());
    println!("cargo:rerun-if-changed={folder}/libboxashewu.a");
    println!("cargo:rustc-link-search=native={folder}");
}
