// Made from crates/tokens/src/command.rt by dev/erase: change that file, not this one.
//! The command line: which run it demands, which message the run leaves, and the exit status.

use crate::tokens::engine::run;
use crate::tokens::errors::RunError;
use crate::tokens::messages::{say, say_usage};
use crate::tokens::mode::OutputMode;
use crate::tokens::sinks::ByteSink;
use crate::tokens::sources::ByteSource;
use proved_tokens::shim::alloc::AllocError;

/// Does the run that the words demand, writes to `errors` why it failed, and returns the exit status.
///
/// The known words are `print` and `spans`, and there must be exactly one. The status is 0 if everything was written
/// and 1 if the input has a syntax error. It is 2 if the words are wrong, if a read or a write failed, if the input
/// isn't UTF-8 or is too long, or if memory ran out. After each failure a line on `errors` says what happened. The
/// status stays the same if that line cannot be written.
///
/// If there was no memory for the words, nothing is read, and nothing but that line is written.
pub fn command<R: ByteSource, W: ByteSink, E: ByteSink>(
    words: Result<Vec<String>, AllocError>,
    reader: &mut R,
    writer: &mut W,
    errors: &mut E,
) -> u8
{
    let words = match words {
        Ok(words) => words,
        Err(error) => return conclude(Err(RunError::Memory(error)), errors),
    };
    let Some(mode) = mode_of(words.as_slice()) else {
        say_usage(errors);
        return 2;
    };
    conclude(run(mode, reader, writer), errors)
}

/// Writes to `errors` why a run failed, if it did, and returns the exit status after it.
fn conclude<E: ByteSink>(answer: Result<(), RunError>, errors: &mut E) -> u8
{
    say(errors, &answer);
    status(&answer)
}

/// Returns the mode that the words demand, if they are one known word.
fn mode_of(words: &[String]) -> Option<OutputMode>
{
    match words {
        [word] => mode_named(word.as_str()),
        _ => None,
    }
}

/// Returns the mode of that name, if there is one.
fn mode_named(word: &str) -> Option<OutputMode>
{
    match word {
        "print" => Some(OutputMode::Print),
        "spans" => Some(OutputMode::Spans),
        _ => None,
    }
}

/// Returns the exit status after a run.
fn status(answer: &Result<(), RunError>) -> u8
{
    match answer {
        Ok(()) => 0,
        Err(RunError::Lex(_)) => 1,
        Err(RunError::Io | RunError::NotUtf8 | RunError::MapFull | RunError::Memory(_)) => 2,
    }
}
