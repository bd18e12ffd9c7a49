// Made from crates/messages/src/input.rt by dev/erase: change that file, not this one.
//! The words and the input of a program.

use proved_tokens::shim::prelude::{Grow, GrowText, HostRuntime, TryClone};

use crate::messages::errors::Failure;
use proved_tokens::shim::alloc::AllocError;
use proved_tokens::shim::env::Args;
use proved_tokens::shim::fs::File;
use proved_tokens::shim::io;
use proved_tokens::shim::io::Read;

/// Returns the words after the program's name, which is the first of its arguments.
///
/// Fails with `Usage` if the arguments are not UTF-8, and with `Memory` if memory runs out, or if the arguments can't
/// be read for any other reason.
pub fn words(
    arguments: io::Result<Args>,
    usage: &'static str,
) -> Result<Vec<String>, Failure>
{
    match arguments {
        Ok(arguments) => Ok(arguments.skip(1).collect()?),
        Err(error) if is_no_text(error.kind()) => Err(Failure::Usage(usage)),
        Err(_) => Err(Failure::Memory),
    }
}

/// Whether the error is that the arguments are not UTF-8.
fn is_no_text(kind: io::ErrorKind) -> bool
{
    matches!(kind, io::ErrorKind::InvalidData)
}

/// Returns the path that the words name: the only word, or `-` if there is none. Fails with `Usage` exactly if there
/// are several words, and with `Memory` if memory runs out.
pub fn path(words: &[String], usage: &'static str) -> Result<String, Failure>
{
    match words {
        [] => Ok(String::from_str_fallibly("-")?),
        [path] => Ok(path.try_clone()?),
        _ => Err(Failure::Usage(usage)),
    }
}

/// Adds a path after those that a program reads. Fails if memory runs out.
pub fn push_path(paths: &mut Vec<String>, path: &str) -> Result<(), AllocError>
{
    paths.push_fallibly(String::from_str_fallibly(path)?)?;
    Ok(())
}

/// Adds the path `-`, which is standard input, if a program has no path to read. Fails if memory runs out.
pub fn push_input_if_empty(paths: &mut Vec<String>) -> Result<(), AllocError>
{
    if paths.is_empty() {
        push_path(paths, "-")?;
    }
    Ok(())
}

/// Whether the word is an option, known or not: whether it begins with `-` and is not `-` alone.
pub fn is_option(word: &str) -> bool
{
    match word.as_bytes() {
        [b'-'] => false,
        [b'-', ..] => true,
        _ => false,
    }
}

/// Returns the text of the file at this path, or of standard input if the path is `-`.
///
/// Fails with `Read` if the file can't be opened or read, with `NotUtf8` if it is not UTF-8, and with `Memory` if
/// memory runs out.
pub fn read_text(rt: &HostRuntime, path: &str) -> Result<String, Failure> {
    if path == "-" {
        return text_of(rt.stdin());
    }
    match File::open(rt, path) {
        Ok(file) => text_of(file),
        Err(error) => Err(Failure::reading(error)),
    }
}

/// Returns all that is left in the reader, as a text.
fn text_of<R: Read>(mut reader: R) -> Result<String, Failure>
{
    let mut bytes = Vec::new();
    match reader.read_to_end(&mut bytes) {
        Ok(_) => decode(bytes),
        Err(error) => Err(Failure::reading(error)),
    }
}

/// Returns the bytes as a text.
fn decode(bytes: Vec<u8>) -> Result<String, Failure>
{
    match String::from_utf8(bytes) {
        Ok(text) => Ok(text),
        Err(error) => Err(Failure::NotUtf8(error.utf8_error().valid_up_to())),
    }
}
