// Made from crates/declarations_tests/src/tests/checks.rt by dev/erase: change that file, not this one.
//! What the tests share.
//!
//! A test has a table of rows, each with an input and the expected answer. A type that implements [`Reads`] makes the
//! call that is tested, and writes its answer. The comment of the type says what its answers look like. Some forms are
//! the same in all answers:
//!
//! - `error at 3` is an error at a tree that does not fit, after 3 trees.
//! - `missing after 3` is an error at the end of the trees, of which there are 3.
//! - `attributes 4` is a part with 4 trees. A part without trees is left out.
//! - `; ` is between two elements of a list. An error is the last element.
//!
//! A number counts trees, unless the comment of the type says otherwise.
//!
//! A table is one text, because each text of its own makes the proof of a test longer. [`row_of`] says how a row is
//! written, and [`parsed`] how a row shows groups without delimiters.
//!
//! The functions that check or write return no errors, because each `?` makes the proof longer. They stop the test if
//! memory runs out. For the same reason tests let go of streams by `release`.

use crate::shim::prelude::{AllocGlobal, GrowText};

use proved_tokens::declarations::Fault;
use proved_tokens::proc_macro2::{Delimiter, Group, SourceMap, TokenStream, TokenTree};
use crate::shim::alloc::AllocError;
use crate::shim::fmt::{Debug, Display};
use crate::shim::process::Abort;
use crate::test_helpers::release;

/// A call that is tested, with the form of its answers.
pub trait Reads {
    /// Makes the call for these trees, and writes the answer. `out` is empty before.
    fn put(&self, trees: &[TokenTree], out: &mut Answer);
}

/// The text of an answer.
pub struct Answer {
    text: String,
    /// The first error of a write. Later writes do nothing.
    written: Result<(), AllocError>,
}

impl Answer {
    /// Writes the text.
    pub fn text(&mut self, text: &str) {
        self.show(&text);
    }

    /// Writes the value as `{}` does.
    pub fn show<T: Display>(&mut self, value: &T) {
        if self.written.is_ok() {
            self.written = write!(self.text, "{value}");
        }
    }

    /// Writes the value as `{:?}` does.
    pub fn debug<T: Debug>(&mut self, value: &T) {
        if self.written.is_ok() {
            self.written = write!(self.text, "{value:?}");
        }
    }

    /// Writes the number.
    pub fn number(&mut self, number: usize) {
        if self.written.is_ok() {
            self.written = write!(self.text, "{number}");
        }
    }

    /// Writes the name, a space and the number of trees.
    pub fn count(&mut self, name: &str, count: usize) {
        if self.written.is_ok() {
            self.written = write!(self.text, "{name} {count}");
        }
    }

    /// Writes the name of the part and the number of its trees after a comma, if it has trees.
    pub fn part(&mut self, name: &str, count: usize) {
        if count > 0 {
            self.text(", ");
            self.count(name, count);
        }
    }

    /// Writes the word after a comma, if the condition holds.
    pub fn flag(&mut self, word: &str, holds: bool) {
        if holds {
            self.text(", ");
            self.text(word);
        }
    }

    /// Writes where the error is.
    pub fn error(&mut self, fault: &Fault) {
        match fault.span {
            Some(_) => self.count("error at", fault.at),
            None => self.count("missing after", fault.at),
        }
    }

    /// Writes what is between two elements of a list, unless the next element is the first.
    pub fn separate(&mut self) {
        if !self.text.is_empty() {
            self.text("; ");
        }
    }
}

/// Asserts that the answer for the trees is the expected one. The row is printed if it fails.
pub fn check_trees<R: Reads>(
    rt: &(impl Abort + AllocGlobal),
    reader: &R,
    trees: &[TokenTree],
    row: &str,
    wanted: &str,
) {
    let mut answer = Answer {
        text: String::new(),
        written: Ok(()),
    };
    reader.put(trees, &mut answer);
    answer.written.expect(row);
    let found = answer.text.as_str();
    assert!(found == wanted, "{found:?} and not {wanted:?} of {row:?}");
}

/// Checks the answer for one text.
pub fn check_text<R: Reads>(rt: &(impl Abort + AllocGlobal), reader: &R, text: &str, wanted: &str) {
    let stream = parsed(rt, text);
    check_trees(rt, reader, stream.trees(), text, wanted);
    release(stream);
}

/// Checks the answer for each row of the table, which has at least one.
pub fn check<R: Reads>(rt: &(impl Abort + AllocGlobal), reader: &R, table: &str) {
    let mut any = false;
    for line in table.lines() {
        if let Some((text, wanted)) = row_of(rt, line) {
            check_text(rt, reader, text, wanted);
            any = true;
        }
    }
    assert!(any, "a table with rows");
}

/// The text and the answer in a line of a table.
///
/// The last ` =>` is between them. White space before the text does not belong to it. An empty line is no row, and
/// neither is a comment, which begins with `//` and a space. Any other line without ` =>` stops the test.
///
/// The answer of `fn f(); => f, no body` is `f, no body`. That of `struct S; =>` is empty.
pub fn row_of<'a>(rt: &impl Abort, line: &'a str) -> Option<(&'a str, &'a str)> {
    let row = line.trim_start();
    if row.is_empty() || row.starts_with("// ") {
        return None;
    }
    let (text, wanted) = line.rsplit_once(" =>").expect(line);
    Some((text.trim_start(), wanted.trim_start()))
}

/// The stream of a text, which parses. In the text `«` and `»` stand for the delimiters of a group without delimiters.
/// Such a group may hold another one, but no two are side by side.
pub fn parsed(rt: &(impl Abort + AllocGlobal), text: &str) -> TokenStream {
    let mut map = SourceMap::new();
    let stream = match text.rsplit_once('«') {
        Some((before, held)) => held_stream(rt, &mut map, before, held),
        None => next_stream(rt, &mut map, text),
    };
    release(map);
    stream
}

/// The stream of a text around its last `«`. What is in the innermost group is the next file of the map.
fn held_stream(
    rt: &(impl Abort + AllocGlobal),
    map: &mut SourceMap,
    before: &str,
    held: &str,
) -> TokenStream {
    let (inside, after) = held.split_once('»').expect(held);
    let mut stream = next_stream(rt, map, inside);
    let mut rest = after.split('»');
    for before in before.rsplit('«') {
        let after = rest.next().expect(held);
        stream = in_group(rt, Delimiter::None, stream);
        stream = between(rt, map, before, stream, after);
    }
    assert!(rest.next().is_none(), "a group has two ends");
    stream
}

/// The stream between two texts.
fn between(
    rt: &(impl Abort + AllocGlobal),
    map: &mut SourceMap,
    before: &str,
    middle: TokenStream,
    after: &str,
) -> TokenStream {
    let mut stream = next_stream(rt, map, before);
    let rest = next_stream(rt, map, after);
    stream.extend_streams([middle, rest]).expect(after);
    stream
}

/// The stream of the text, which parses and becomes the next file of the map.
fn next_stream(rt: &impl Abort, map: &mut SourceMap, text: &str) -> TokenStream {
    TokenStream::from_str(text, map).expect(text)
}

/// The stream of a group with this delimiter.
pub fn in_group(
    rt: &(impl Abort + AllocGlobal),
    delimiter: Delimiter,
    inside: TokenStream,
) -> TokenStream {
    let group = TokenTree::Group(Group::new(delimiter, inside));
    TokenStream::from_tree(group).expect("a group")
}
