// Made from crates/outline/src/options.rt by dev/erase: change that file, not this one.
//! What the arguments of the program say.

use crate::messages::{Failure, is_option, push_input_if_empty, push_path};
use proved_tokens::shim::alloc::AllocError;

/// The usage line of the program.
pub const USAGE: &str = "outline [--json|--ctags] [FILE..]";

/// The form in which declarations are listed.
#[derive(Clone, Copy, Debug, PartialEq, Eq)]
pub enum Form {
    /// A line for each declaration.
    Lines,
    /// A JSON object on a line for each declaration.
    Json,
    /// A `tags` file for editors.
    Ctags,
}

/// What the arguments ask the program to do.
pub struct Options {
    /// The form in which declarations are listed.
    pub form: Form,
    /// The paths of the files. The path `-` is standard input.
    pub paths: Vec<String>,
}

/// The meaning of an argument.
enum ArgumentKind {
    Json,
    Ctags,
    Unknown,
    Path,
}

/// Returns what the arguments say. Options may be anywhere, and the last one counts. All other arguments are paths.
///
/// If there is no path, standard input is read. Fails with `Usage` if an argument begins with `-` and is no option, and
/// with `Memory`.
pub fn options_of(words: &[String]) -> Result<Options, Failure>
{
    let mut options = Options::new();
    for word in words {
        match word_of(word.as_str()) {
            ArgumentKind::Unknown => return Err(Failure::Usage(USAGE)),
            known => options.take(known, word.as_str())?,
        }
    }
    push_input_if_empty(&mut options.paths)?;
    Ok(options)
}

/// The meaning of an argument.
fn word_of(word: &str) -> ArgumentKind
{
    match word {
        "--json" => ArgumentKind::Json,
        "--ctags" => ArgumentKind::Ctags,
        _ if is_option(word) => ArgumentKind::Unknown,
        _ => ArgumentKind::Path,
    }
}

impl Options {
    /// The options before any argument is read.
    fn new() -> Options
    {
        Options {
            form: Form::Lines,
            paths: Vec::new(),
        }
    }

    /// Takes one argument into account.
    fn take(&mut self, known: ArgumentKind, word: &str) -> Result<(), AllocError>
    {
        match known {
            ArgumentKind::Json => self.form = Form::Json,
            ArgumentKind::Ctags => self.form = Form::Ctags,
            ArgumentKind::Path => push_path(&mut self.paths, word)?,
            ArgumentKind::Unknown => {}
        }
        Ok(())
    }
}
