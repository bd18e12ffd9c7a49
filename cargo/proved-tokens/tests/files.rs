//! Each source of this repository, printed by this build and, where it is there, by the one that Rattle built.
//!
//! The latter is the program `tokens` at `crates/tokens/out/tokens`, or where the variable `TOKENS` says.

use proved_tokens::proc_macro2::{ParseError, SourceMap, TokenStream};
use std::env;
use std::fs;
use std::path::{Path, PathBuf};
use std::process::{Command, Stdio};

const TOP: &str = "../..";
/// Folders that are no part of the repository.
const LEFT_OUT: [&str; 3] = [".git", "out", "target"];

/// The sources below a folder, in Rust and in Rattle.
fn sources(folder: &Path, found: &mut Vec<PathBuf>) {
    for entry in fs::read_dir(folder).expect("the folder is there").flatten() {
        let path = entry.path();
        let name = entry.file_name();
        if path.is_dir() && !LEFT_OUT.iter().any(|other| name == *other) {
            sources(&path, found);
        } else if path.extension().is_some_and(|kind| kind == "rs" || kind == "rt") {
            found.push(path);
        }
    }
}

fn all_sources() -> Vec<PathBuf> {
    let mut found = Vec::new();
    sources(&Path::new(env!("CARGO_MANIFEST_DIR")).join(TOP), &mut found);
    assert!(found.len() > 300, "only {} sources", found.len());
    found
}

/// What `tokens print` says of a text: its standard output, its errors and its status.
fn printed(text: &str) -> (String, String, i32) {
    let mut map = SourceMap::new();
    match TokenStream::from_str(text, &mut map) {
        Ok(stream) => (format!("{stream}\n"), String::new(), 0),
        Err(ParseError::Lex(fault)) => {
            let start = fault.span().start(&map);
            (String::new(), format!("fault {}:{}", start.line, start.column), 1)
        }
        Err(error) => panic!("{error}"),
    }
}

/// The program that Rattle built, if it is there.
fn tokens() -> Option<PathBuf> {
    let there = Path::new(env!("CARGO_MANIFEST_DIR")).join(TOP).join("crates/tokens/out/tokens");
    let path = env::var_os("TOKENS").map_or(there, PathBuf::from);
    path.exists().then_some(path)
}

#[test]
fn each_source_is_printed_as_by_the_build_of_rattle() {
    let Some(program) = tokens() else {
        eprintln!("no crates/tokens/out/tokens: nothing is compared with it");
        return;
    };
    for path in all_sources() {
        let text = fs::read_to_string(&path).expect("a source is a text");
        let run = Command::new(&program)
            .arg("print")
            .stdin(fs::File::open(&path).expect("a source is there"))
            .stderr(Stdio::piped())
            .output()
            .expect("the program runs");
        let (out, error, status) = printed(&text);
        let path = path.display();
        assert_eq!(String::from_utf8_lossy(&run.stdout), out, "{path}");
        assert_eq!(run.status.code(), Some(status), "{path}");
        assert!(String::from_utf8_lossy(&run.stderr).contains(&error), "{path}: {error}");
    }
}

#[test]
fn what_is_printed_is_read_as_the_same_trees() {
    for path in all_sources() {
        let text = fs::read_to_string(&path).expect("a source is a text");
        let Ok(stream) = TokenStream::parse_unmapped(&text) else {
            continue;
        };
        assert!(stream.is_well_spaced(), "{}", path.display());
        let back = TokenStream::parse_unmapped(&stream.to_string()).expect("it was printed from trees");
        assert!(stream.same_tokens(&back), "{}", path.display());
    }
}
