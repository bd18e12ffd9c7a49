//! `tokens print` writes the tokens of a text, printed, and a line feed; `tokens spans` writes a line for each of its
//! trees, with the places where the tree begins and ends and its kind. The text is that of a file or of standard input.

use crate::tokens::command::command;
use crate::tokens::sinks::WriteSink;
use crate::tokens::sources::ReadSource;
use proved_tokens::shim::fs::{stand_for, File};
use proved_tokens::shim::process::HostRuntime;
use std::ffi::OsString;
use std::io::{Error, Read, Result};

/// Does what the command of this name does for the words after it, and answers the status.
pub fn answer(rt: &HostRuntime, name: &str, rest: &[OsString]) -> u8 {
    match rest {
        [file] if file != "-" => {
            let path = file.to_string_lossy().into_owned();
            stand_for(vec![(path.clone(), file.clone())]);
            respond(rt, vec![name.into()], Opened(File::open(rt, &path)))
        }
        [_] => respond(rt, vec![name.into()], rt.stdin()),
        _ => {
            let texts = rest.iter().map(|word| word.to_string_lossy().into_owned());
            respond(rt, std::iter::once(name.into()).chain(texts).collect(), rt.stdin())
        }
    }
}

// Does what the words ask for of what is read, and answers the status.
fn respond(rt: &HostRuntime, words: Vec<String>, reader: impl Read) -> u8 {
    let mut reader = ReadSource::new(reader);
    let mut writer = WriteSink::new(rt.stdout());
    let mut errors = WriteSink::new(rt.stderr());
    command(Ok(words), &mut reader, &mut writer, &mut errors)
}

// A file to be read, or why it isn't had, as which each read fails.
struct Opened<R>(Result<R>);

impl<R: Read> Read for Opened<R> {
    fn read(&mut self, buffer: &mut [u8]) -> Result<usize> {
        match &mut self.0 {
            Ok(file) => file.read(buffer),
            Err(error) => Err(Error::from(error.kind())),
        }
    }
}
