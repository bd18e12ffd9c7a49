// Made from crates/conformance/src/lines.rt by dev/erase: change that file, not this one.
//! Compares the library with recorded answers, line by line.

use proved_tokens::shim::prelude::format;

use crate::conformance::answer::answer_to;
use crate::conformance::columns::read_line;
use proved_tokens::proc_macro2::ParseError;
use proved_tokens::shim::alloc::AllocError;
use proved_tokens::shim::io;
use proved_tokens::shim::io::{BufRead, Write};

/// How many answers were compared, and how many of them differ.
#[derive(Clone, Copy, Debug, PartialEq, Eq)]
pub struct Tally {
    /// The number of lines that were read.
    pub answers: u64,
    /// The number of lines that have another answer than the library, or that are no recorded answer.
    pub differences: u64,
}

/// Compares the library's answers with those on the reader's lines, and writes what differs.
///
/// Both numbers count lines, up to `u64::MAX`. Fails if reading fails, also at a line that is not UTF-8, if writing
/// fails, or if memory runs out. The beginning of what differs is written then.
///
/// For the one line `fault`, a tab, `(]`, a tab and `1:1` it returns one answer and no difference, and writes nothing.
/// For a line that names a difference from the Rust crate, the answer that is right here is compared.
pub fn compare_lines<R: BufRead, W: Write>(
    reader: R,
    writer: &mut W,
) -> io::Result<Tally>
{
    let mut tally = Tally {
        answers: 0,
        differences: 0,
    };
    for line in reader.lines() {
        let line = line?;
        tally.answers = tally.answers.saturating_add(1);
        if let Some(report) = difference(line.as_str())? {
            tally.differences = tally.differences.saturating_add(1);
            writer.write_all(report.as_bytes())?;
        }
    }
    Ok(tally)
}

/// Returns the report on a line that has another answer than the library, or that is no recorded answer. Returns `None`
/// if the two answers are the same.
fn difference(line: &str) -> Result<Option<String>, AllocError>
{
    let Some(recorded) = read_line(line)? else {
        return Ok(Some(format!("no recorded answer: {line}\n")?));
    };
    let here = match answer_to(recorded.asked, recorded.text.as_str()) {
        Ok(Some(found)) if found.kind == recorded.kind && found.answer_text == recorded.answer => {
            return Ok(None);
        }
        Ok(Some(found)) => format!("{} {:?}", found.kind, found.answer_text)?,
        Ok(None) => return Ok(Some(format!("no recorded answer: {line}\n")?)),
        Err(ParseError::Memory(error)) => return Err(error),
        Err(error) => format!("{error}")?,
    };
    Ok(Some(format!("differs: {line}\nhere: {here}\n")?))
}
