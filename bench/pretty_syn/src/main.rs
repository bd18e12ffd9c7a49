//! Reads a file of Rust on standard input by syn, and writes it as pretty text: `pretty-syn ours` from the tokens that
//! syn makes of it, and `pretty-syn prettyplease` by that crate. `pretty-syn fits` writes nothing; its status is 0 if
//! syn reads the file.
use std::io::{self, Read, Write};
use std::process::ExitCode;

use quote::ToTokens;

type Failure = Box<dyn std::error::Error>;

fn pretty(how: &str, text: &str) -> Result<String, Failure> {
    let file = syn::parse_file(text)?;
    match how {
        "ours" => Ok(proved_macros::pretty(&file.into_token_stream())?),
        "prettyplease" => Ok(prettyplease::unparse(&file)),
        "fits" => Ok(String::new()),
        _ => Err(format!("`{how}` is none of ours, prettyplease and fits").into()),
    }
}

fn run() -> Result<(), Failure> {
    let how = std::env::args().nth(1).unwrap_or_default();
    let mut text = String::new();
    io::stdin().read_to_string(&mut text)?;
    io::stdout().write_all(pretty(&how, &text)?.as_bytes())?;
    Ok(())
}

fn main() -> ExitCode {
    match run() {
        Ok(()) => ExitCode::SUCCESS,
        Err(failure) => {
            eprintln!("{failure}");
            ExitCode::FAILURE
        }
    }
}
