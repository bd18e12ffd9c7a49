//! `lint_calls [--utf16] [--fix] FILE..` checks Rust files, or rewrites their calls of `dbg!`.
//!
//! A file `-` is standard input, which `--fix` does not take. The status is 1 if there is a finding, and 2 if a file
//! cannot be read or does not parse.

use lint_calls::{fix, lint, Columns};
use std::ffi::OsStr;
use std::process::ExitCode;

/// Returns the text of a file, or of standard input for `-`.
fn read_text(file: &OsStr) -> std::io::Result<String> {
    if file == "-" {
        std::io::read_to_string(std::io::stdin())
    } else {
        std::fs::read_to_string(file)
    }
}

/// Prints what is found in a file, and returns whether anything is.
fn lint_file(file: &OsStr, columns: Columns) -> Result<bool, String> {
    let name = file.to_string_lossy();
    let text = read_text(file).map_err(|error| format!("{name}: error: {error}"))?;
    let lines = lint(&name, &text, columns)?;
    lines.iter().for_each(|line| println!("{line}"));
    Ok(!lines.is_empty())
}

/// Rewrites a file, and prints how many calls were rewritten. No finding is reported.
fn fix_file(file: &OsStr, columns: Columns) -> Result<bool, String> {
    let name = file.to_string_lossy();
    if file == "-" {
        return Err(format!("{name}: error: standard input cannot be rewritten"));
    }
    let text = read_text(file).map_err(|error| format!("{name}: error: {error}"))?;
    let fixed = fix(&name, &text, columns)?;
    if fixed.calls > 0 {
        std::fs::write(file, fixed.text).map_err(|error| format!("{name}: error: {error}"))?;
    }
    println!("{name}: {}", fixed.calls);
    Ok(false)
}

fn main() -> ExitCode {
    let (mut columns, mut run, mut files) = (Columns::Characters, lint_file as fn(&OsStr, _) -> _, Vec::new());
    for word in std::env::args_os().skip(1) {
        match word.to_str() {
            Some("--utf16") => columns = Columns::Utf16,
            Some("--fix") => run = fix_file,
            _ => files.push(word),
        }
    }
    if files.is_empty() {
        eprintln!("usage: lint_calls [--utf16] [--fix] FILE..");
        return ExitCode::from(2);
    }
    let mut status = 0;
    for file in &files {
        let file_status = run(file, columns).map_or_else(
            |message| {
                eprintln!("{message}");
                2
            },
            u8::from,
        );
        status = status.max(file_status);
    }
    ExitCode::from(status)
}
