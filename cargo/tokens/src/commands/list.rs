//! The commands by name.

use super::{check, find, highlight, indent, outline, pretty, same};
use crate::messages::Failure;
use proved_tokens::shim::process::HostRuntime;
use std::io::Write;

/// What a command does for the words after its name: it says on the writer what fails, and answers the status.
pub type Run = fn(&HostRuntime, &[String], &mut dyn Write) -> Result<u8, Failure>;

/// A command of the program.
pub struct Command {
    /// Its name.
    pub name: &'static str,
    /// How it is called.
    pub usage: &'static str,
    /// What it does, in a few words.
    pub does: &'static str,
    /// What its words mean, and its statuses.
    pub details: &'static str,
    /// Whether its first word is a name, and no file.
    pub wants_name: bool,
    /// What it does. The two without one do what the program of the crate `tokens` does.
    pub run: Option<Run>,
}

/// All commands.
pub const COMMANDS: &[Command] = &[
    Command {
        name: "print",
        usage: "tokens print [FILE]",
        does: "Prints the tokens of a file on one line.",
        details: PLAIN,
        wants_name: false,
        run: None,
    },
    Command {
        name: "spans",
        usage: "tokens spans [FILE]",
        does: "Lists the token trees of a file, each with its place and its kind.",
        details: PLAIN,
        wants_name: false,
        run: None,
    },
    Command {
        name: "check",
        usage: "tokens check [--short|--json] [--hidden] [--color=always|never] [FILE..]",
        does: "Tells why Rust files don't parse.",
        details: "  \
  --short         each fault in one line: FILE:L:C: error: what
  --json          each fault as an object of JSON on a line
  --hidden        tells hidden text too: controls of direction, characters that nobody sees, odd line ends
  --color=always  sets a terminal's colours; --color=never, as is usual, doesn't

The status is 0 where all texts parse, 1 where one has a fault, and 2 where a file is not read.
",
        wants_name: false,
        run: Some(check::run),
    },
    Command {
        name: "pretty",
        usage: "tokens pretty [--deny-comments] [FILE] (plain comments are lost)",
        does: "Prints the tokens of a file so that people read them well.",
        details: "  \
  --deny-comments  writes nothing of a file that has plain comments

Plain comments are left out, and a line on standard error says how many. A first line `#!..` stays, unless it begins an
attribute. The status is 0, 1 where the text has a fault or, with --deny-comments, comments, or 2 where it is not read.
",
        wants_name: false,
        run: Some(pretty::run),
    },
    Command {
        name: "indent",
        usage: "tokens indent [--check] [--width N | --tabs] [FILE]",
        does: "Indents the lines of a file by its delimiters, and changes nothing else.",
        details: "  \
  --check    writes the file's name where its lines stand elsewhere, and not its text
  --width N  indents by N spaces, up to 255, in place of 4
  --tabs     indents by tabs

The status is 0 where the text is written or, with --check, stands as it should, 1 where it doesn't, and 2 where the
text has a fault or is not read.
",
        wants_name: false,
        run: Some(indent::run),
    },
    Command {
        name: "same",
        usage: "tokens same [--comments] A B",
        does: "Tells whether two files have the same tokens.",
        details: "  \
  --comments  compares comments too

The status is 0 where they are the same, 1 where they differ, and 2 where one has a fault or is not read.
",
        wants_name: false,
        run: Some(same::run),
    },
    Command {
        name: "find",
        usage: "tokens find NAME [FILE..]",
        does: "Finds the calls of a function or a macro by its name.",
        details: "\
The status is 0 where there is a call, 1 where there is none, and 2 where a file has a fault or is not read.
",
        wants_name: true,
        run: Some(find::run),
    },
    Command {
        name: "outline",
        usage: "tokens outline [--json|--ctags] [FILE..]",
        does: "Lists what files declare.",
        details: "  \
  --json   each declaration as an object of JSON on a line
  --ctags  a `tags` file for editors

The status is 0 where all files are listed, 1 where one has a fault, and 2 where one is not read.
",
        wants_name: false,
        run: Some(outline::run),
    },
    Command {
        name: "highlight",
        usage: "tokens highlight html|term [FILE]",
        does: "Writes a file with its tokens marked, as a page or in a terminal's colours.",
        details: "\
Faults are marked too, and told where the pointer rests. The status is 0, or 2 where the file is not read.
",
        wants_name: false,
        run: Some(highlight::run),
    },
];

// What `print` and `spans` answer.
const PLAIN: &str = "\
A fault is told as `fault L:C`, the column from 0. The status is 0, 1 where the text has a fault, or 2 where it is not
read.
";
