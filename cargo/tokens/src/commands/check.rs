//! `tokens check` tells why Rust files don't parse: each fault with its reason, where it stands, and its line of the
//! source.

use super::help::{of_named, VERSION};
use crate::messages::Failure;
use crate::rust_check::files::check_files;
use crate::rust_check::options::{request_of, Form, Options, Request};
use proved_tokens::shim::process::HostRuntime;
use std::io::{BufWriter, Write};

/// Does what the words ask for, and answers the status.
pub fn run(rt: &HostRuntime, words: &[String], errors: &mut dyn Write) -> Result<u8, Failure> {
    match request_of(words)? {
        Request::Check(options) => check(rt, &options, errors),
        Request::Help => print(rt, &of_named("check")),
        Request::Version => print(rt, VERSION),
    }
}

// Checks the files, and answers the status.
fn check(rt: &HostRuntime, options: &Options, mut errors: &mut dyn Write) -> Result<u8, Failure> {
    let mut writer = BufWriter::new(rt.stdout());
    let paths = options.paths.as_slice();
    let tally = check_files(rt, options, &mut writer, &mut errors)?;
    if options.form == Form::Long && paths.len() > 1 {
        tally.write_summary(paths.len(), &mut writer)?;
    }
    writer.flush()?;
    Ok(tally.status())
}

// Writes a text.
fn print(rt: &HostRuntime, text: &str) -> Result<u8, Failure> {
    rt.stdout().write_all(text.as_bytes())?;
    Ok(0)
}
