// Made from crates/rust_check/src/options.rt by dev/erase: change that file, not this one.
//! The options and paths of the command line.

use crate::messages::{Failure, is_option, push_input_if_empty, push_path};
use proved_tokens::shim::alloc::AllocError;

/// The usage line.
pub const USAGE: &str = "rust_check [--short|--json] [--hidden] [--color=always|never] [FILE..]";

/// How a finding is written.
#[derive(Clone, Copy, Debug, PartialEq, Eq)]
pub enum Form {
    /// On one line.
    Short,
    /// With its line of the source and carets below that.
    Long,
    /// As in `Long`, but in the colours of a terminal.
    Coloured,
    /// As a JSON object on one line.
    Json,
}

/// How files are checked.
pub struct Options {
    /// The form of a finding, in which colours are left out.
    pub form: Form,
    /// Whether `--color=always` is the last option for colours.
    pub coloured: bool,
    /// Whether hidden text is reported too.
    pub hidden: bool,
    /// The paths of the files. `-` is standard input.
    pub paths: Vec<String>,
}

/// What the command line demands.
pub enum Request {
    /// The files are checked.
    Check(Options),
    /// The help is written.
    Help,
    /// The program's name and version are written.
    Version,
}

/// What one word of the command line means.
#[derive(Clone, Copy, Debug, PartialEq, Eq)]
enum ArgumentKind {
    Short,
    Json,
    Hidden,
    Colour(bool),
    Help,
    Version,
    Unknown,
    Path,
}

/// Returns what the words of the command line demand. Options and paths may come in any order, and `-` is the path if
/// there is no other.
///
/// Returns `Usage` if a word begins with `-` and is no option, and `Memory` if memory runs out.
pub fn request_of(words: &[String]) -> Result<Request, Failure>
{
    let mut options = Options::new();
    for word in words {
        match word_of(word.as_str()) {
            ArgumentKind::Help => return Ok(Request::Help),
            ArgumentKind::Version => return Ok(Request::Version),
            ArgumentKind::Unknown => return Err(Failure::Usage(USAGE)),
            known => options.take(known, word.as_str())?,
        }
    }
    push_input_if_empty(&mut options.paths)?;
    Ok(Request::Check(options))
}

/// Returns what the word means.
fn word_of(word: &str) -> ArgumentKind
{
    match word {
        "--short" => ArgumentKind::Short,
        "--json" => ArgumentKind::Json,
        "--hidden" => ArgumentKind::Hidden,
        "--color=always" => ArgumentKind::Colour(true),
        "--color=never" => ArgumentKind::Colour(false),
        "--help" => ArgumentKind::Help,
        "--version" => ArgumentKind::Version,
        _ if is_option(word) => ArgumentKind::Unknown,
        _ => ArgumentKind::Path,
    }
}

impl Options {
    /// Returns the options of an empty command line.
    fn new() -> Options
    {
        Options {
            form: Form::Long,
            coloured: false,
            hidden: false,
            paths: Vec::new(),
        }
    }

    /// Applies a known word, and takes it as a path if it is one.
    fn take(&mut self, known: ArgumentKind, word: &str) -> Result<(), AllocError>
    {
        match known {
            ArgumentKind::Short => self.form = Form::Short,
            ArgumentKind::Json => self.form = Form::Json,
            ArgumentKind::Hidden => self.hidden = true,
            ArgumentKind::Colour(coloured) => self.coloured = coloured,
            ArgumentKind::Path => push_path(&mut self.paths, word)?,
            _ => {}
        }
        Ok(())
    }

    /// Returns the form of a finding, in which colours count only for `Long`.
    pub fn shown_form(&self) -> Form
    {
        match self.form {
            Form::Long if self.coloured => Form::Coloured,
            form => form,
        }
    }
}
