//! The C header, used by a C program that is compiled, linked and run.

#![forbid(unsafe_code)]

use std::env;
use std::path::Path;
use std::process::Command;

#[test]
fn a_c_program_calls_every_function() {
    let package = Path::new(env!("CARGO_MANIFEST_DIR"));
    let root = package.parent().expect("a folder around the package");
    let program = Path::new(env!("CARGO_TARGET_TMPDIR")).join("header");
    let compiler = env::var("CC").unwrap_or_else(|_| "cc".to_string());
    let compiled = Command::new(&compiler)
        .args(["-std=c99", "-Wall", "-Wextra", "-Werror", "-pedantic", "-I"])
        .arg(package.join("include"))
        .arg(package.join("tests").join("header.c"))
        .arg(root.join("target/staticlib/libroomscript.a"))
        .arg("-o")
        .arg(&program)
        .status()
        .expect("a C compiler, which linking Rust needs too");
    assert!(compiled.success(), "{compiler} refuses the header");
    let ran = Command::new(&program).status().expect("the program runs");
    assert!(ran.success(), "the C program met another answer");
}
