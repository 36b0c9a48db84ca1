//! The program `roomcheck`, given an input and asked for its line.

use crate::common::case::hex_bytes;
use roomscript::MAX_BYTES;
use std::io::{ErrorKind, Write};
use std::path::{Path, PathBuf};
use std::process::{Command, Stdio};
use std::thread;
use std::time::Duration;

/// The folder around this package.
pub fn root() -> &'static Path {
    let package = Path::new(env!("CARGO_MANIFEST_DIR"));
    package.parent().expect("a folder around the package")
}

/// Without the program there is nothing to compare, which is a failure.
pub fn executable() -> PathBuf {
    let path = root().join("target").join("bin").join("roomcheck");
    assert!(
        path.is_file(),
        "target/bin/roomcheck is missing; make it at the repository root with: bash tools/build roomcheck"
    );
    path
}

/// An input in hex, as much of it as a script can be.
pub fn shown(input: &[u8]) -> String {
    hex_bytes(&input[..input.len().min(32 + MAX_BYTES)])
}

/// What the program prints for an input that comes in pieces of so many bytes,
/// with a pause after each.
pub fn printed_in_pieces(input: &[u8], size: usize, pause: Duration) -> String {
    let mut child = Command::new(executable())
        .stdin(Stdio::piped())
        .stdout(Stdio::piped())
        .stderr(Stdio::piped())
        .spawn()
        .expect("the program runs");
    let mut to = child.stdin.take().expect("a pipe to the program");
    for piece in input.chunks(size) {
        match to.write_all(piece) {
            // It may stop reading once it knows its answer.
            Err(error) if error.kind() == ErrorKind::BrokenPipe => break,
            written => written.expect("the program takes its input"),
        }
        if !pause.is_zero() {
            thread::sleep(pause);
        }
    }
    drop(to);
    let output = child.wait_with_output().expect("the program ends");
    let shown = shown(input);
    // The exit status says nothing (LANGUAGE 6.12), so only a crash counts.
    assert!(output.status.code().is_some(), "{}\n{shown}", output.status);
    assert_eq!(
        output.stderr, b"",
        "it prints one line and no more\n{shown}"
    );
    String::from_utf8(output.stdout).expect("the program prints text")
}

/// What the program prints for an input.
pub fn printed(input: &[u8]) -> String {
    printed_in_pieces(input, usize::MAX, Duration::ZERO)
}

#[track_caller]
pub fn prints(input: &[u8], line: &str) {
    assert_eq!(printed(input), format!("{line}\n"), "{}", shown(input));
}
