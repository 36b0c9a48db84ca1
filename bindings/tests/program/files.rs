//! The files in `examples/`: an input, and beside it the line that the program
//! prints for it.
//!
//! `ROOMSCRIPT_WRITE_EXAMPLES=1 cargo test --offline --test program files_are`
//! writes them anew from the table in `common/inputs.rs`.

use crate::common::inputs;
use crate::executable::{printed, root};
use std::env;
use std::fs;
use std::path::PathBuf;

fn file(name: &str, ending: &str) -> PathBuf {
    root().join("examples").join(format!("{name}.{ending}"))
}

#[test]
fn files_are_as_the_table_has_them() {
    let writing = env::var_os("ROOMSCRIPT_WRITE_EXAMPLES").is_some();
    for example in inputs::all() {
        let name = &example.name;
        let line = format!("{}\n", example.line);
        if writing {
            fs::write(file(name, "input"), &example.input).expect("an input is written");
            fs::write(file(name, "line"), &line).expect("a line is written");
        }
        let input = fs::read(file(name, "input")).expect("an input in examples/");
        assert_eq!(input, example.input, "{name}");
        let kept = fs::read_to_string(file(name, "line")).expect("a line in examples/");
        assert_eq!(kept, line, "{name}");
    }
}

/// The names of all files with an ending.
fn names(ending: &str) -> Vec<String> {
    let folder = fs::read_dir(root().join("examples")).expect("the folder examples/");
    let mut names: Vec<String> = folder
        .map(|entry| entry.expect("a file in examples/").path())
        .filter(|path| path.extension().is_some_and(|found| found == ending))
        .filter_map(|path| Some(path.file_stem()?.to_str()?.to_string()))
        .collect();
    names.sort();
    names
}

/// Also of files that are not in the table.
#[test]
fn each_input_gives_its_line() {
    assert_eq!(names("input"), names("line"));
    assert!(names("input").len() >= inputs::all().len());
    for name in names("input") {
        let input = fs::read(file(&name, "input")).expect("an input in examples/");
        let line = fs::read_to_string(file(&name, "line")).expect("a line in examples/");
        assert_eq!(printed(&input), line, "{name}");
    }
}
