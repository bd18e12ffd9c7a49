//! The errors of the files in `wrong`: where each begins, its tokens, and its message.

#![deny(warnings)]

use std::path::Path;
use std::process::Command;

/// What the compiler writes about the file with this name in `wrong`.
fn compiled(name: &str) -> String {
    let output = Command::new(env!("CARGO"))
        .current_dir(env!("CARGO_MANIFEST_DIR"))
        .args(["check", "--offline", "--quiet", "--color", "never", "--features", "wrong", "--test"])
        .arg(format!("wrong_{name}"))
        .output()
        .expect("cargo can be run");
    assert!(!output.status.success(), "the file is wrong, and compiles");
    String::from_utf8(output.stderr).expect("messages are text")
}

/// The tokens of the error whose place and marks begin these lines, with their place before them.
fn marked(lines: &[&str], source: &[&str]) -> Option<String> {
    let (_, place) = lines.first()?.split_once(".rs:")?;
    let (line, column) = place.split_once(':')?;
    let is_mark_line = |line: &&&str| line.trim_start().starts_with('|') && line.contains('^');
    let size = lines.iter().find(is_mark_line)?.matches('^').count();
    let start = column.parse::<usize>().ok()? - 1;
    let tokens = source.get(line.parse::<usize>().ok()? - 1)?.get(start..start + size)?;
    Some(format!("{place} {tokens}"))
}

/// Each error on a line of its own.
fn listed(messages: &str, source: &str) -> String {
    let (lines, source): (Vec<_>, Vec<_>) = (messages.lines().collect(), source.lines().collect());
    let mut listed = String::new();
    for (index, line) in lines.iter().enumerate() {
        let Some((_, message)) = line.split_once(": ").filter(|_| line.starts_with("error")) else { continue };
        if let Some(marked) = marked(&lines[index + 1..], &source) {
            listed += &format!("{marked}: {message}\n");
        }
    }
    listed
}

/// Checks that the compiler shows exactly the errors that are recorded.
fn check(name: &str) {
    let folder = Path::new(env!("CARGO_MANIFEST_DIR")).join("wrong");
    let read = |kind: &str| std::fs::read_to_string(folder.join(format!("{name}.{kind}"))).expect("the file is there");
    let messages = compiled(name);
    let found = listed(&messages, &read("rs"));
    assert_eq!(found, read("txt"), "\n{found}\n{messages}");
}

#[test]
fn wrong_entries() {
    check("entries");
}

#[test]
fn wrong_types() {
    check("types");
}

#[test]
fn wrong_names() {
    check("names");
}
