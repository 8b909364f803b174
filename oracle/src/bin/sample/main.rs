//! Writes the cases of one file of testdata/ to standard output. The cases depend on nothing but the name.

use std::io::{self, BufWriter, Write};
use std::process::ExitCode;

mod dicts;
mod lists;
mod random;
mod strays;
mod strings;
mod trees;
mod words;

/// The cases of a file, one a line, without the newline.
type Cases = Vec<String>;

fn cases(name: &str) -> Option<Cases> {
    Some(match name {
        "fixnum8" => words::eight(),
        "fixnum64" => words::sixty_four(),
        "ops" => strings::scanned(),
        "bits" => strings::cases(),
        "dict" => dicts::cases(),
        "trees" => trees::cases(),
        "large" => trees::large(),
        "strays" => strays::cases(),
        _ => return None,
    })
}

fn main() -> ExitCode {
    let names: Vec<String> = std::env::args().skip(1).collect();
    let found = match &names[..] {
        [name] => cases(name),
        _ => None,
    };
    let Some(found) = found else {
        eprintln!("usage: sample fixnum8|fixnum64|ops|bits|dict|trees|large|strays");
        return ExitCode::from(2);
    };
    let mut out = BufWriter::new(io::stdout().lock());
    for case in found {
        if writeln!(out, "{case}").is_err() {
            return ExitCode::from(1);
        }
    }
    ExitCode::SUCCESS
}
