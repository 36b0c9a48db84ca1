//! How much stack the library takes, measured by a C program on a painted
//! stack.

use crate::choices;
use crate::large;
use crate::operations::OPERATIONS;
use crate::scripts::{chain, full, mixed, with_sums, E1};
use crate::table::Table;
use roomscript::Limits;
use std::env;
use std::io::{Error, Result, Write};
use std::path::{Path, PathBuf};
use std::process::{Command, Stdio};

/// Builds the C program beside this one.
fn build() -> Result<PathBuf> {
    let package = Path::new(env!("CARGO_MANIFEST_DIR"));
    let root = package.parent().unwrap_or(package);
    let program = env::current_exe()?.with_file_name("roomscript-stack");
    let compiler = env::var("CC").unwrap_or_else(|_| "cc".to_string());
    let built = Command::new(compiler)
        .args(["-std=c99", "-O2", "-pthread", "-I"])
        .arg(root.join("bindings").join("include"))
        .arg(package.join("stack.c"))
        .arg(root.join("target/staticlib/libroomscript.a"))
        .arg("-o")
        .arg(&program)
        .status()?;
    match built.success() {
        true => Ok(program),
        false => Err(Error::other("the C program is not built")),
    }
}

/// The bytes of stack that an operation takes on a script under a set.
fn bytes(program: &Path, operation: &str, limits: Limits, script: &[u8]) -> Result<String> {
    let Limits {
        terms,
        variables,
        boxes,
        levels,
    } = limits;
    let mut child = Command::new(program)
        .arg(operation)
        .args([terms, variables, boxes, levels].map(|number| number.to_string()))
        .stdin(Stdio::piped())
        .stdout(Stdio::piped())
        .spawn()?;
    if let Some(mut to) = child.stdin.take() {
        to.write_all(script)?;
    }
    let output = child.wait_with_output()?;
    match output.status.success() {
        true => Ok(String::from_utf8_lossy(&output.stdout).trim().to_string()),
        false => Err(Error::other("the C program fails")),
    }
}

/// Every operation on each script, first under the language's own set and then
/// under the largest. Of each set one has as many choices in each other as there
/// can be, and the last is not accepted: its unchecked run drops the longest
/// chain of cells that there can be.
pub fn table() -> Result<Table> {
    let program = build()?;
    let scripts = [
        ("small", Limits::BASE, E1.to_vec()),
        ("middling", Limits::BASE, mixed(60)),
        ("full", Limits::BASE, full()),
        ("sums, full", Limits::BASE, with_sums(512)),
        (
            "7 choices in each other",
            Limits::BASE,
            choices::nested(Limits::BASE),
        ),
        ("64 cells in a chain", Limits::BASE, chain()),
        ("small, largest set", Limits::LARGEST, E1.to_vec()),
        ("full, largest set", Limits::LARGEST, large::full()),
        (
            "15 choices in each other",
            Limits::LARGEST,
            choices::nested(Limits::LARGEST),
        ),
        ("128 cells in a chain", Limits::LARGEST, large::chain()),
    ];
    let mut lines = Vec::new();
    for operation in &OPERATIONS {
        let mut line = vec![operation.name.to_string()];
        for (_, limits, script) in &scripts {
            line.push(bytes(&program, operation.name, *limits, script)?);
        }
        lines.push(line);
    }
    let names = scripts.iter().map(|(name, ..)| *name);
    Ok(Table {
        title: "Bytes of stack (ours)",
        head: ["operation"].into_iter().chain(names).collect(),
        lines,
    })
}
