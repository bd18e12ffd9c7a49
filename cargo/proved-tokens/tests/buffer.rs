//! Each source of this repository as a buffer: its cursors say what the stream of the same text has.

use proved_tokens::pm_span::parts::bounds;
use proved_tokens::pm_token::Delimiter;
use proved_tokens::proc_macro2::{Spacing, TokenStream, TokenTree};
use proved_tokens::token_buffer::{BufferError, Cursor, LiteralText, TokenBuffer, TokenText};
use std::fs;
use std::path::{Path, PathBuf};

/// The sources below a folder, in Rust and in Rattle.
fn sources(folder: &Path, found: &mut Vec<PathBuf>) {
    for entry in fs::read_dir(folder).expect("the folder is there").flatten() {
        let path = entry.path();
        let name = entry.file_name();
        if path.is_dir() && name != ".git" && name != "out" && name != "target" {
            sources(&path, found);
        } else if path.extension().is_some_and(|kind| kind == "rs" || kind == "rt") {
            found.push(path);
        }
    }
}

/// Compares what is left with these trees, and answers how many there are, those inside of groups too.
fn compare(mut cursor: Cursor<'_>, trees: &[TokenTree]) -> usize {
    let mut count = trees.len();
    for tree in trees {
        assert!(!cursor.eof());
        assert_eq!(cursor.span().map(bounds), Some(bounds(tree.span())));
        let (first, rest) = cursor.next().expect("a tree is left");
        assert!(cursor.skip().is_some());
        match (tree, first) {
            (TokenTree::Ident(ident), TokenText::Ident(name)) => {
                let raw = if name.raw { "r#" } else { "" };
                assert_eq!(ident.to_string(), format!("{raw}{}", name.text));
                assert!(cursor.ident().is_some() && cursor.punct().is_none() && cursor.literal().is_none());
            }
            (TokenTree::Punct(punct), TokenText::Punct(mark, spacing)) => {
                assert_eq!((punct.as_char(), punct.spacing()), (mark, spacing));
                let lone = mark == '\'' && spacing == Spacing::Joint;
                assert!(cursor.punct().is_some() && cursor.lifetime().is_some() == lone);
            }
            (TokenTree::Literal(literal), TokenText::Literal(LiteralText::Source(text))) => {
                assert_eq!(literal.to_string(), text);
                assert!(cursor.literal().is_some() && cursor.any_group().is_none());
            }
            (TokenTree::Literal(literal), TokenText::Literal(LiteralText::Doc(text))) => {
                assert_eq!(literal.str_value().map(|value| value.to_string()).ok(), Some(text.to_string()));
            }
            (TokenTree::Group(group), TokenText::Group(delimiter, inside)) => {
                assert_eq!(group.delimiter(), delimiter);
                assert!(cursor.group(delimiter).is_some() && cursor.group(Delimiter::None).is_none());
                count += compare(inside, group.stream_ref().trees());
            }
            _ => panic!("a tree of another kind"),
        }
        cursor = rest;
    }
    assert!(cursor.eof() && cursor.next().is_none() && cursor.skip().is_none() && cursor.span().is_none());
    count
}

#[test]
fn every_source_is_walked() {
    let mut found = Vec::new();
    sources(&Path::new(env!("CARGO_MANIFEST_DIR")).join("../.."), &mut found);
    let mut count = 0;
    for path in found {
        let text = fs::read_to_string(path).expect("it is read");
        let stream = TokenStream::parse_unmapped(&text);
        match TokenBuffer::new(&text) {
            Ok(buffer) => {
                let stream = stream.expect("it parses");
                let made = buffer.begin().to_stream().expect("there is memory");
                assert_eq!(format!("{made:?}"), format!("{stream:?}"));
                count += compare(buffer.begin(), stream.trees());
            }
            Err(BufferError::Parse(error)) => {
                assert_eq!(format!("{error:?}"), format!("{:?}", stream.expect_err("it has a fault")));
            }
            Err(error) => panic!("{error}"),
        }
    }
    assert!(count > 100_000, "only {count} trees");
}
