//! Errors in reading standard input and in writing the line (LANGUAGE 6.12): a
//! message on standard error says which of the two failed. What is written to
//! here takes the line whole or not at all, so there is no line.

use crate::common::inputs;
use crate::executable::executable;
use std::fs::{File, OpenOptions};
use std::io::{pipe, ErrorKind, Read, Write};
use std::os::fd::AsRawFd;
use std::os::unix::fs::OpenOptionsExt;
use std::process::{Command, Output, Stdio};

const READING: &str = "roomcheck: error while reading standard input\n";
const WRITING: &str = "roomcheck: error while writing standard output\n";

/// Linux's number. Without it a read of an empty pipe and a write to a full one wait.
const O_NONBLOCK: i32 = 0o4000;

fn run(command: &mut Command) -> Output {
    let output = command.output().expect("the program ends");
    // The exit status says nothing (LANGUAGE 6.12), so only a crash counts.
    assert!(output.status.code().is_some(), "{}", output.status);
    output
}

#[track_caller]
fn told(output: &Output, line: &str, message: &str) {
    assert_eq!(String::from_utf8_lossy(&output.stdout), line);
    assert_eq!(String::from_utf8_lossy(&output.stderr), message);
}

/// The program with its standard streams redirected by the shell.
fn redirected(redirection: &str) -> Command {
    let mut command = Command::new("sh");
    let script = format!("exec \"$1\" {redirection}");
    command.arg("-c").arg(script).arg("sh").arg(executable());
    command
}

/// The same end of a pipe, which never waits.
fn at_once(end: &impl AsRawFd, options: &mut OpenOptions) -> File {
    let path = format!("/proc/self/fd/{}", end.as_raw_fd());
    let options = options.custom_flags(O_NONBLOCK);
    options.open(path).expect("the pipe opens again")
}

#[test]
fn a_closed_standard_input() {
    told(&run(&mut redirected("<&-")), "", READING);
}

#[test]
fn a_folder_as_standard_input() {
    let folder = File::open("/").expect("the root folder");
    told(&run(Command::new(executable()).stdin(folder)), "", READING);
}

/// So many bytes come, and then an error, not the end: what came may not be the
/// whole input, even where it is a script.
#[test]
fn an_error_after_some_bytes() {
    let whole = &inputs::listed()[0].input;
    for length in 0..=whole.len() {
        let (from, mut to) = pipe().expect("a pipe");
        to.write_all(&whole[..length]).expect("room in the pipe");
        let from = at_once(&from, OpenOptions::new().read(true));
        told(&run(Command::new(executable()).stdin(from)), "", READING);
        drop(to);
    }
}

/// Once the buffer is full the program reads no more, so that no error comes.
#[test]
fn an_error_after_more_bytes_than_a_script_has() {
    let (from, mut to) = pipe().expect("a pipe");
    to.write_all(&[0; 32 + 32_769]).expect("room in the pipe");
    let from = at_once(&from, OpenOptions::new().read(true));
    let output = run(Command::new(executable()).stdin(from));
    told(&output, "refused 1 at 0\n", "");
    drop(to);
}

/// The first listed input, from a pipe that then ends.
fn first_input() -> Stdio {
    let (from, mut to) = pipe().expect("a pipe");
    to.write_all(&inputs::listed()[0].input)
        .expect("room in the pipe");
    from.into()
}

#[test]
fn a_closed_standard_output() {
    told(&run(redirected(">&-").stdin(first_input())), "", WRITING);
}

#[test]
fn a_full_device_as_standard_output() {
    let full = File::create("/dev/full").expect("the full device");
    let mut command = Command::new(executable());
    command.stdin(first_input()).stdout(full);
    // `output` would put a pipe in the place of the device.
    let child = command.stderr(Stdio::piped()).spawn();
    let output = child.expect("the program runs").wait_with_output();
    told(&output.expect("the program ends"), "", WRITING);
}

/// A pipe with room for so many bytes: the line is there whole, or no byte of it.
#[test]
fn a_pipe_with_little_room() {
    let line = format!("{}\n", inputs::listed()[0].line);
    let (mut from, to) = pipe().expect("a pipe");
    let mut to = at_once(&to, OpenOptions::new().write(true));
    let mut filled = 0;
    while let Ok(size) = to.write(&[b'-'; 4096]) {
        filled += size;
    }
    let mut taken = vec![0; filled];
    from.read_exact(&mut taken).expect("what was written");
    for room in 0..=line.len() + 1 {
        let mut left = filled - room;
        while left > 0 {
            left -= to.write(&vec![b'-'; left.min(4096)]).expect("room");
        }
        let mut command = Command::new(executable());
        let out = to.try_clone().expect("the same pipe");
        command.stdin(first_input()).stdout(out);
        let child = command.stderr(Stdio::piped()).spawn();
        let output = child.expect("the program runs").wait_with_output();
        let output = output.expect("the program ends");
        let mut rest = at_once(&from, OpenOptions::new().read(true));
        let mut found = Vec::new();
        match rest.read_to_end(&mut found) {
            Err(error) => assert_eq!(error.kind(), ErrorKind::WouldBlock),
            Ok(size) => panic!("the pipe ended after {size} bytes"),
        }
        let printed = String::from_utf8_lossy(&found[filled - room..]).into_owned();
        let message = String::from_utf8_lossy(&output.stderr).into_owned();
        let expected = if room < line.len() {
            ("", WRITING)
        } else {
            (&line[..], "")
        };
        assert_eq!((&printed[..], &message[..]), expected, "room for {room}");
    }
}
