// Made from crates/pretty/src/options.rt by dev/erase: change that file, not this one.
//! The options of the command line.

use proved_tokens::shim::prelude::GrowText;

use crate::messages::{Failure, is_option};

/// The usage line.
pub const USAGE: &str = "pretty [--deny-comments] [FILE] (plain comments are lost)";

/// The options and the file of the command line.
pub struct Options {
    /// Whether nothing is written for a text with plain comments.
    pub deny: bool,
    /// The path of the file. `-` is standard input.
    pub path: String,
}

/// Returns the options of the command line: `--deny-comments` at any position, and the path, which is `-` if none is
/// given.
///
/// Returns `Usage` if another word begins with `-`, or if there are several paths, and `Memory` if memory runs out.
pub fn options_of(words: &[String]) -> Result<Options, Failure> {
    let mut deny = false;
    let mut path: Option<&str> = None;
    for word in words {
        let word = word.as_str();
        match word {
            "--deny-comments" => deny = true,
            _ if path.is_some() || is_option(word) => return Err(Failure::Usage(USAGE)),
            _ => path = Some(word),
        }
    }
    let path = String::from_str_fallibly(path.unwrap_or("-"))?;
    Ok(Options { deny, path })
}
