// Made from crates/highlight/src/format.rt by dev/erase: change that file, not this one.
//! The command line: the format of the output, and the file.

/// The usage line.
pub const USAGE: &str = "highlight html|term [FILE]";

/// The format of the output.
#[derive(Clone, Copy, Debug, PartialEq, Eq)]
pub enum Format {
    /// A page for a browser.
    Html,
    /// Text with the colours of a terminal.
    Term,
}

/// Returns the format and the path that the words of the command line name. The first word names the format and the
/// second the file. Without a second word the path is `-`, standard input. Returns `None` for any other words.
pub fn request_of(words: &[String]) -> Option<(Format, &str)>
{
    match words {
        [word] => Some((format_named(word.as_str())?, "-")),
        [word, path] => Some((format_named(word.as_str())?, path.as_str())),
        _ => None,
    }
}

/// Returns the format of that name, if there is one.
fn format_named(word: &str) -> Option<Format>
{
    match word {
        "html" => Some(Format::Html),
        "term" => Some(Format::Term),
        _ => None,
    }
}
