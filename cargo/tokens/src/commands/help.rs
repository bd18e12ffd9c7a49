//! What `--help` and `--version` print.

use super::list::{Command, COMMANDS};

/// The program's name and version.
pub const VERSION: &str = concat!("tokens ", env!("CARGO_PKG_VERSION"), "\n");

/// The commands, each with what it does.
pub fn of_all() -> String {
    let mut text = String::from("usage: tokens COMMAND [WORD..]\n\n");
    for command in COMMANDS {
        text += &format!("  {:<9}  {}\n", command.name, command.does);
    }
    text + "\n`tokens COMMAND --help` says which words a command takes, `tokens --version` which version this is.\n"
}

/// The same as [`of_one`] of the command of this name.
pub fn of_named(name: &str) -> String {
    COMMANDS.iter().filter(|command| command.name == name).map(of_one).collect()
}

/// What a command does, how it is called, and what its words mean.
pub fn of_one(command: &Command) -> String {
    let ends_options = if command.run.is_some() { " Words after `--` are files." } else { "" };
    format!("{}\n\nusage: {}\n\n{INPUT}{ends_options}\n\n{}", command.does, command.usage, command.details)
}

// What all commands say of files.
const INPUT: &str = "A file `-` is standard input, which is read where no file is named.";
