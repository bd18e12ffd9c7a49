//! The program `tokens`: its commands, the words that each takes, and what is said of both.
//!
//! A command does what the program of its crate does: `tokens find` what `find_calls` does, `tokens check` what
//! `rust_check` does, `tokens print` and `tokens spans` what `tokens` does, and each other what the program of its own
//! name does. Each module below is by hand: it does what `main.rt` of that crate does, over the streams and files of
//! Rust's `std`.

mod check;
mod find;
mod help;
mod highlight;
mod hints;
mod indent;
mod list;
mod outline;
mod plain;
mod pretty;
mod same;
mod words;

use crate::messages::{say, status, Failure};
use hints::Hints;
use list::{Command, COMMANDS};
use proved_tokens::shim::fs::stand_for;
use proved_tokens::shim::process::{ExitCode, HostRuntime};
use std::ffi::OsString;
use std::io::Write;

/// Does what the words after the program's name ask for, and answers the program's status.
///
/// Without a word that names a command, the commands are listed on standard error, and the status is 2.
pub fn run() -> ExitCode {
    let words: Vec<OsString> = std::env::args_os().skip(1).collect();
    ExitCode::from(answer(&HostRuntime, &words))
}

// Does what the words ask for, and answers the status.
fn answer(rt: &HostRuntime, words: &[OsString]) -> u8 {
    let Some((first, rest)) = words.split_first() else {
        return refuse(rt);
    };
    let command = COMMANDS.iter().find(|command| first == command.name);
    match (command, rest) {
        (None, []) if first == "--help" => print(rt, &help::of_all()),
        (None, []) if first == "--version" => print(rt, help::VERSION),
        (None, _) => refuse(rt),
        (Some(command), [word]) if word == "--help" => print(rt, &help::of_one(command)),
        (Some(_), [word]) if word == "--version" => print(rt, help::VERSION),
        (Some(command), _) => match command.run {
            Some(run) => obey(rt, command, run, rest),
            None => plain::answer(rt, command.name, rest),
        },
    }
}

// Does what the words of a command ask for, and answers the status.
fn obey(rt: &HostRuntime, command: &Command, run: list::Run, rest: &[OsString]) -> u8 {
    let words = words::texts(rest);
    let mut errors = Hints::new(rt.stderr());
    let outcome = if command.wants_name && words.first_is_no_text() {
        Err(Failure::Usage(command.usage))
    } else {
        stand_for(words.names);
        run(rt, &words.texts, &mut errors)
    };
    match outcome {
        Ok(status) => status,
        Err(Failure::Usage(_)) => conclude("-", Err(Failure::Usage(command.usage)), &mut errors),
        Err(failure) => conclude("-", Err(failure), &mut errors),
    }
}

// Says why a command failed that reads the file at this path, and answers the status.
fn conclude(path: &str, outcome: Result<(), Failure>, mut errors: &mut dyn Write) -> u8 {
    if let Err(failure) = &outcome {
        let _ = say(path, failure, &mut errors);
    }
    status(&outcome)
}

// Writes a text, and answers the status.
fn print(rt: &HostRuntime, text: &str) -> u8 {
    let outcome = rt.stdout().write_all(text.as_bytes()).map_err(Failure::from);
    conclude("-", outcome, &mut rt.stderr())
}

// Lists the commands on standard error, and answers the status of words that ask for nothing.
fn refuse(rt: &HostRuntime) -> u8 {
    let _ = rt.stderr().write_all(help::of_all().as_bytes());
    2
}
