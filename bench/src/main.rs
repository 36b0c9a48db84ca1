//! Times the proved library beside the reference program, and measures the
//! stack that the library takes.
//!
//! `cargo run --release --offline` prints plain tables, and with
//! `-- --markdown` Markdown. It is no test: nothing fails because it is slow.

#![forbid(unsafe_code)]

mod choices;
mod large;
mod last_uses;
mod measure;
mod operations;
mod reborrows;
mod report;
mod scripts;
mod stack;
mod table;

use std::env;
use std::process::ExitCode;
use table::Form;

fn main() -> ExitCode {
    let arguments: Vec<String> = env::args().skip(1).collect();
    let words: Vec<&str> = arguments.iter().map(String::as_str).collect();
    let form = match words[..] {
        [] => Form::Plain,
        ["--markdown"] => Form::Markdown,
        _ => {
            eprintln!("usage: roomscript-bench [--markdown]");
            return ExitCode::from(2);
        }
    };
    println!("{}", report::conditions());
    println!("{}", report::sizes().shown(form));
    println!("{}", report::growth().shown(form));
    println!("{}", report::growth_of_largest().shown(form));
    match stack::table() {
        Ok(table) => println!("{}", table.shown(form)),
        Err(error) => println!("Stack use is not measured: {error}"),
    }
    ExitCode::SUCCESS
}
