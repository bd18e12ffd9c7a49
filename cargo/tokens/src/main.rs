//! The program `tokens`: see [`tokens::commands`].
#![forbid(unsafe_code)]

fn main() -> std::process::ExitCode {
    tokens::commands::run()
}
