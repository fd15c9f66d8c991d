//! Finds the proved library, which `rt lib` makes in crates/trusted_block.

use std::env;
use std::path::Path;
use std::process::exit;

fn main() {
    let package = env::var("CARGO_MANIFEST_DIR").expect("cargo sets it");
    let folder = Path::new(&package).join("../crates/trusted_block/out");
    let library = folder.join("libtrusted_block.a");
    println!("cargo:rerun-if-changed={}", library.display());
    if !library.is_file() {
        eprintln!("crates/trusted_block/out/libtrusted_block.a is missing.");
        eprintln!("Run `rt lib` in crates/trusted_block first.");
        exit(1);
    }
    println!("cargo:rustc-link-search=native={}", folder.display());
    println!("cargo:rustc-link-lib=static=trusted_block");
}
