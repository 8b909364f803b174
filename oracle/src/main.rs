//! Puts cases from standard input to the original Rust, one a line, and writes one line for each (see README.md).

use std::io::{self, BufRead, BufWriter, Write};
use std::panic;
use std::process::ExitCode;

mod answers;
mod peek;
mod text;

// The original: `crate::bitwise` and `crate::tree`.
include!(concat!(env!("OUT_DIR"), "/succparen/mount.rs"));

fn main() -> ExitCode {
    let words: Vec<String> = std::env::args().skip(1).collect();
    let full = match words.iter().map(String::as_str).collect::<Vec<_>>()[..] {
        [] => false,
        ["--full"] => true,
        _ => {
            eprintln!("usage: oracle [--full] < cases");
            return ExitCode::from(2);
        }
    };
    panic::set_hook(Box::new(|_| {}));
    match run(full) {
        Ok(()) => ExitCode::SUCCESS,
        Err(why) => {
            eprintln!("oracle: {why}");
            ExitCode::from(2)
        }
    }
}

fn run(full: bool) -> Result<(), String> {
    let mut out = BufWriter::new(io::stdout().lock());
    for (at, case) in io::stdin().lock().lines().enumerate() {
        let case = case.map_err(|e| e.to_string())?;
        let line = answers::line(&case, full).map_err(|e| format!("line {}: {e}", at + 1))?;
        writeln!(out, "{line}").map_err(|e| e.to_string())?;
    }
    out.flush().map_err(|e| e.to_string())
}
