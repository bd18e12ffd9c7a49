//! What the program reads, prints and writes.

use std::io::{ErrorKind, Write};
use std::path::PathBuf;
use std::process::{Command, Output, Stdio};

/// Runs the program with this standard input, and returns its output.
fn run(words: &[&str], input: &[u8]) -> Output {
    let mut command = Command::new(env!("CARGO_BIN_EXE_lint_calls"));
    command.args(words).stdin(Stdio::piped()).stdout(Stdio::piped()).stderr(Stdio::piped());
    let mut child = command.spawn().unwrap();
    // A program that rejects its words may end before its input is written.
    if let Err(error) = child.stdin.take().unwrap().write_all(input) {
        assert_eq!(error.kind(), ErrorKind::BrokenPipe);
    }
    child.wait_with_output().unwrap()
}

/// Checks the status and both outputs of the program.
#[track_caller]
fn check(words: &[&str], input: &[u8], status: i32, stdout: &str, stderr: &str) {
    let output = run(words, input);
    let texts = [output.stdout, output.stderr].map(|bytes| String::from_utf8(bytes).unwrap());
    assert_eq!((output.status.code(), texts), (Some(status), [stdout, stderr].map(str::to_string)));
}

/// Writes a file for a test, and returns its path.
fn file(name: &str, text: &str) -> String {
    let path = PathBuf::from(env!("CARGO_TARGET_TMPDIR")).join(name);
    std::fs::write(&path, text).unwrap();
    path.to_str().unwrap().to_string()
}

#[test]
fn status_is_0_without_findings() {
    check(&["-"], b"fn f() {}", 0, "", "");
}

#[test]
fn status_is_1_with_findings() {
    check(&["-"], b"fn f() { todo!() }", 1, "-:1:10: debug-macro: a call of `todo!`\n", "");
}

#[test]
fn option_counts_utf16() {
    let text = "m!(\"😀\", dbg!(1));";
    check(&["-"], text.as_bytes(), 1, "-:1:9: debug-macro: a call of `dbg!`\n", "");
    check(&["--utf16", "-"], text.as_bytes(), 1, "-:1:10: debug-macro: a call of `dbg!`\n", "");
}

#[test]
fn status_is_2_after_an_error_and_other_files_are_read() {
    let (wrong, right) = (file("wrong.rs", "fn f() {\n"), file("right.rs", "todo!();"));
    let found = format!("{right}:1:1: debug-macro: a call of `todo!`\n");
    check(&[&wrong, &right], b"", 2, &found, &format!("{wrong}:1:8: error: no closer matches this opener\n"));
}

#[test]
fn status_is_2_if_a_file_cannot_be_read() {
    check(&["no_such_file"], b"", 2, "", "no_such_file: error: No such file or directory (os error 2)\n");
    check(&["-"], b"fn f() {} // \xff", 2, "", "-: error: stream did not contain valid UTF-8\n");
}

#[test]
fn status_is_2_without_files() {
    check(&["--utf16"], b"", 2, "", "usage: lint_calls [--utf16] [--fix] FILE..\n");
}

#[test]
fn fix_rewrites_files_in_place() {
    let (one, two) = (file("one.rs", "fn f() { dbg!(dbg!(1)) }\r\n"), file("two.rs", "fn f() { todo!() }"));
    check(&["--fix", &one, &two], b"", 0, &format!("{one}: 2\n{two}: 0\n"), "");
    assert_eq!(std::fs::read_to_string(one).unwrap(), "fn f() { ((1)) }\r\n");
    assert_eq!(std::fs::read_to_string(two).unwrap(), "fn f() { todo!() }");
}

#[test]
fn fix_keeps_a_file_that_does_not_parse() {
    let path = file("kept.rs", "fn f() { dbg!(1) ]");
    let message = format!("{path}:1:18: error: the innermost opener waits for another closer\n");
    check(&["--fix", &path], b"", 2, "", &message);
    assert_eq!(std::fs::read_to_string(path).unwrap(), "fn f() { dbg!(1) ]");
}

#[test]
fn fix_takes_no_standard_input() {
    check(&["--fix", "-"], b"fn f() {}", 2, "", "-: error: standard input cannot be rewritten\n");
}
