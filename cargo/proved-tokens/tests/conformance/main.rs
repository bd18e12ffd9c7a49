//! The recorded answers of the Rust crate proc-macro2 (`crates/conformance/stdin`), compared by the erased program.

#[allow(clippy::complexity, clippy::style, unreachable_code, unused_imports)]
mod conformance;
use std::fs;
use std::path::Path;

const ANSWERS: &str = "../../crates/conformance/stdin";
const SAID: &str = "../../crates/conformance/stdout";

/// What the program writes for these lines.
fn written(lines: &[u8]) -> String {
    let mut out = Vec::new();
    let tally = conformance::compare_lines(lines, &mut out).expect("lines of a text are read");
    let reports = String::from_utf8(out).expect("a report is a text");
    format!("{reports}{} answers, {} differences\n", tally.answers, tally.differences)
}

#[test]
fn each_recorded_answer_is_the_same_here() {
    let top = Path::new(env!("CARGO_MANIFEST_DIR"));
    let lines = fs::read(top.join(ANSWERS)).expect("the recorded answers are there");
    let wanted = fs::read_to_string(top.join(SAID)).expect("what is wanted of them is there");
    assert_eq!(written(&lines), wanted);
}

#[test]
fn another_answer_is_reported() {
    let wrong = "fault\t(]\t1:0";
    assert_eq!(
        written(wrong.as_bytes()),
        format!("differs: {wrong}\nhere: fault \"1:1\"\n1 answers, 1 differences\n")
    );
    assert_eq!(written("fault\t(]\t1:1".as_bytes()), "1 answers, 0 differences\n");
}
