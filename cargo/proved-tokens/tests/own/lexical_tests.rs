//! The lexer and a plain one, compared on the texts of `crates/lexical_tests/stdin` as the program `lexical_tests`
//! does.
mod compare;
mod slow;
mod tally;

use compare::compare;
use proved_tokens::literal_escaper::unescape_str;
use std::fs;
use std::path::Path;
use tally::Tally;

const TEXTS: &str = "../../crates/lexical_tests/stdin";
const OUTPUT: &str = "../../crates/lexical_tests/stdout";

/// The text that a line stands for, written as the content of a string literal.
fn text_of(line: &str) -> String {
    unescape_str(line)
        .map(|(_, unit)| unit.expect("a line is a content"))
        .collect()
}

#[test]
fn the_lexical_tests_answer_the_same() {
    let top = Path::new(env!("CARGO_MANIFEST_DIR"));
    let lines = fs::read_to_string(top.join(TEXTS)).expect("the texts are there");
    let wanted = fs::read_to_string(top.join(OUTPUT)).expect("what is wanted of them is there");
    let mut tally = Tally { texts: 0, comparisons: 0, differ: 0 };
    for line in lines.lines() {
        tally.texts += 1;
        compare(&text_of(line), &mut tally);
    }
    let output = format!("{} texts, {} comparisons: {} differ\n", tally.texts, tally.comparisons, tally.differ);
    assert_eq!(output, wanted);
}
