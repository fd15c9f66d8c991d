//! Compiles library.c and links both targets with libFuzzer; fuzz/run makes
//! clang the linker.

use std::env;
use std::process::Command;

fn main() {
    let object = env::var("OUT_DIR").expect("cargo sets it") + "/library.o";
    let status = Command::new("clang")
        .args(["-O2", "-Wall", "-Wextra", "-Werror", "-c", "src/library.c"])
        .args(["-o", &object])
        .status()
        .expect("clang runs");
    assert!(status.success(), "src/library.c was not compiled");
    println!("cargo:rerun-if-changed=src/library.c");
    println!("cargo:rustc-link-arg-bins={object}");
    println!("cargo:rustc-link-arg-bins=-fsanitize=fuzzer");
}
