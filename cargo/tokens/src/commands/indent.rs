//! `tokens indent` indents a Rust file by its delimiters.

use crate::indent::answer::{is_indented, print_text};
use crate::indent::options::{options_of, Options};
use crate::messages::{read_text, say, Failure};
use proved_tokens::shim::process::HostRuntime;
use std::io::Write;

/// Does what the words ask for, and answers the status.
pub fn run(rt: &HostRuntime, words: &[String], mut errors: &mut dyn Write) -> Result<u8, Failure> {
    let options = options_of(words)?;
    match indent_file(rt, &options) {
        Ok(status) => Ok(status),
        Err(failure) => {
            let _ = say(options.path.as_str(), &failure, &mut errors);
            Ok(2)
        }
    }
}

// Indents the file, or checks it, and answers the status.
fn indent_file(rt: &HostRuntime, options: &Options) -> Result<u8, Failure> {
    let text = read_text(rt, options.path.as_str())?;
    let mut writer = rt.stdout();
    if !options.check {
        print_text(text.as_str(), options.step, &mut writer)?;
        return Ok(0);
    }
    if is_indented(text.as_str(), options.step)? {
        return Ok(0);
    }
    writeln!(writer, "{}", options.path.as_str())?;
    Ok(1)
}
