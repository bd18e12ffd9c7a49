//! The program `tokens`, and what its [commands] call.
//!
//! Each module but `commands` is a crate of `crates/`, made into plain Rust by `dev/erase` as those of
//! [`proved_tokens`] are.
#![forbid(unsafe_code)]

pub mod commands;

// What only clauses name is unused in an erased text, and code after an error of memory is never run. Its style is that
// of Rattle's text.

/// How a program reads its input, and what it says where it fails.
#[allow(dead_code, unreachable_code, unused_imports, clippy::complexity, clippy::style)]
pub mod messages;

/// The program `tokens`, but for its `main`.
#[allow(dead_code, unreachable_code, unused_imports, clippy::complexity, clippy::style)]
pub mod tokens {
    pub mod arguments;
    pub mod command;
    mod engine;
    mod errors;
    mod messages;
    mod mode;
    mod output;
    mod reading;
    pub mod sinks;
    pub mod sources;
    mod spans;
    mod writing;
}

/// The program `highlight`, but for its `main`.
#[allow(dead_code, unreachable_code, unused_imports, clippy::complexity, clippy::style)]
pub mod highlight {
    pub mod answer;
    pub mod format;
    mod marking;
    mod nesting;
    mod page;
    mod style;
    mod unread;
    mod writing;
}

/// The program `find_calls`, but for its `main`.
#[allow(dead_code, unreachable_code, unused_imports, clippy::complexity, clippy::style)]
pub mod find_calls {
    pub mod answer;
    mod calls;
}

/// The program `pretty`, but for its `main`.
#[allow(dead_code, unreachable_code, unused_imports, clippy::complexity, clippy::style)]
pub mod pretty {
    pub mod answer;
    mod comments;
    pub mod options;
    pub mod report;
    mod script;
}

/// The program `rust_check`, but for its `main`.
#[allow(dead_code, unreachable_code, unused_imports, unused_variables, clippy::complexity, clippy::style)]
pub mod rust_check {
    mod answer;
    mod colours;
    mod ends;
    pub mod files;
    mod finding;
    mod hidden;
    mod name_forms;
    mod names;
    pub mod options;
    mod report;
    mod shown;
    mod tally;
    mod text_position;
    mod turns;
    mod writing;
}

/// The program `same`, but for its `main`.
#[allow(dead_code, unreachable_code, unused_imports, clippy::complexity, clippy::style)]
pub mod same {
    pub mod answer;
    mod comparing;
    mod place;
    mod source_word;
    mod words;
}

/// The program `indent`, but for its `main`.
#[allow(dead_code, unreachable_code, unused_imports, clippy::complexity, clippy::style)]
pub mod indent {
    pub mod answer;
    mod choosing;
    pub mod options;
}

/// The program `outline`, but for its `main`.
#[allow(dead_code, unreachable_code, unused_imports, clippy::complexity, clippy::style, clippy::suspicious)]
pub mod outline {
    mod answer;
    mod entries;
    pub mod files;
    mod level;
    mod levels;
    mod lines;
    mod names;
    pub mod options;
    mod tags;
}
