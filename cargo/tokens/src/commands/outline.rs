//! `tokens outline` lists what Rust files declare: a line `FILE:L:C: fn name` for each declaration.

use crate::messages::Failure;
use crate::outline::files::list_files;
use crate::outline::options::options_of;
use proved_tokens::shim::process::HostRuntime;
use std::io::{BufWriter, Write};

/// Lists what the words ask for, and answers the status.
pub fn run(rt: &HostRuntime, words: &[String], mut errors: &mut dyn Write) -> Result<u8, Failure> {
    let options = options_of(words)?;
    let mut writer = BufWriter::new(rt.stdout());
    let status = list_files(rt, &options, &mut writer, &mut errors)?;
    writer.flush()?;
    Ok(status)
}
