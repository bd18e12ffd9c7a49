// Made from crates/pretty_printer_tests/src/rows.rt by dev/erase: change that file, not this one.
//! Rows of streams, and the line or text that is written for each.

use proved_tokens::shim::prelude::{Grow, GrowText, TryClone};

use proved_tokens::literal_escaper::unescape_str;
use proved_tokens::pretty_printer::to_pretty_string;
use proved_tokens::proc_macro2::{ParseError, Punct, Spacing, TokenStream, TokenTree};
use proved_tokens::quoting::QuoteError;
use proved_tokens::shim::alloc::AllocError;
use proved_tokens::shim::io;
use proved_tokens::shim::io::Write;

/// The text before the record.
const HEAD: &str =
    "This record detects change and proves nothing right: it is what the code answered when it was made.
bench/pretty_record/remake.py makes it anew, tells how many streams moved, and shows ten of them before and after.
";

/// Writes the head and the pretty text of each row's stream. Returns the number of lines that are not rows.
///
/// A row is a word, a space, and the content of a string literal, whose value is parsed as a stream. For `text` the
/// stream's pretty text is written. For `joint` the outermost marks are made Joint first. For `digest` a digest of the
/// pretty text is written, unless `whole` is true.
pub fn write_rows<W: Write>(
    lines: &str,
    whole: bool,
    writer: &mut W,
) -> io::Result<usize> {
    let mut wrong: usize = 0;
    let mut number: usize = 0;
    writer.write_all(HEAD.as_bytes())?;
    for line in lines.lines() {
        number = number.saturating_add(1);
        let (word, content) = line.split_once(' ').unwrap_or((line, ""));
        match stream_of(word, content)? {
            Some(stream) => {
                let digest = word == "digest" && !whole;
                write_row(number, &stream, digest, writer)?;
            }
            None => {
                wrong = wrong.saturating_add(1);
                writeln!(writer, "== {number} is no row")?;
            }
        }
    }
    Ok(wrong)
}

/// Returns the stream of a row, or `None` if it is not a row.
fn stream_of(word: &str, content: &str) -> Result<Option<TokenStream>, AllocError> {
    let mut text = String::new();
    for (_, unit) in unescape_str(content) {
        match unit {
            Ok(character) => text.push_fallibly(character)?,
            Err(_) => return Ok(None),
        }
    }
    let stream = match TokenStream::parse_unmapped(text.as_str()) {
        Ok(stream) => stream,
        Err(ParseError::Memory(error)) => return Err(error),
        Err(_) => return Ok(None),
    };
    match word {
        "text" | "digest" => Ok(Some(stream)),
        "joint" => Ok(Some(joint(&stream)?)),
        _ => Ok(None),
    }
}

/// Returns the stream with all of its outermost marks Joint.
fn joint(stream: &TokenStream) -> Result<TokenStream, AllocError> {
    let mut trees = Vec::new();
    for tree in stream.trees() {
        let tree = match tree {
            TokenTree::Punct(punct) if Punct::is_punct_char(punct.as_char()) => {
                TokenTree::Punct(Punct::new(punct.as_char(), Spacing::Joint))
            }
            _ => tree.try_clone()?,
        };
        trees.push_fallibly(tree)?;
    }
    TokenStream::from_trees(trees)
}

/// Writes the number of a row, and the pretty text of its stream, its digest or the error.
fn write_row<W: Write>(
    number: usize,
    stream: &TokenStream,
    digest: bool,
    writer: &mut W,
) -> io::Result<()> {
    match to_pretty_string(stream) {
        Ok(text) if digest => writeln!(writer, "== {number} {}", digest_of(text.as_bytes())),
        Ok(text) => write!(writer, "== {number}\n{text}"),
        Err(QuoteError::Memory(error)) => Err(io::Error::from(error)),
        Err(QuoteError::NoneGroup) => writeln!(
            writer,
            "== {number} has a group with no delimiters"
        ),
        Err(QuoteError::LoneQuote) => writeln!(writer, "== {number} has a lone quote"),
    _ => unreachable!("each case is above"),
}
}

/// Returns the FNV-1a digest of 64 bits.
fn digest_of(bytes: &[u8]) -> u64 {
    let mut digest: u64 = 0xcbf2_9ce4_8422_2325;
    for byte in bytes {
        digest = (digest ^ (*byte as u64)).wrapping_mul(0x0000_0100_0000_01b3);
    }
    digest
}
