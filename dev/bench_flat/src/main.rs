//! Times of flat tokens beside trees, on 3 MB of Rust: a text's buffer made and walked, syn's buffer made from the
//! public crate's trees and walked, and the public crate's trees parsed and walked.
//!
//! For each the least of some runs is printed, in nanoseconds of processor time.
#[path = "../../bench/src/measure.rs"]
mod measure;

use proc_macro2::{TokenStream, TokenTree};
use proved_tokens::token_buffer::{Cursor, TokenBuffer, TokenText};
use std::env;
use std::error::Error;
use std::hint::black_box;
use syn::buffer::{Cursor as SynCursor, TokenBuffer as SynBuffer};

/// Prints the least time of some runs, each of which answers how many trees there are.
fn least(what: &str, trees: usize, mut run: impl FnMut() -> usize) {
    let time = measure::least(|| assert_eq!(black_box(run()), trees, "{what} counts other trees"));
    println!("{what} {time}");
}

/// A text that both libraries read, and a line feed.
fn read(text: String) -> Option<String> {
    let text = text + "\n";
    let is_read = text.parse::<TokenStream>().is_ok() && TokenBuffer::new(&text).is_ok();
    is_read.then_some(text)
}

/// How many trees there are, those in groups too.
fn walk_flat(mut cursor: Cursor<'_>) -> usize {
    let mut count = 0;
    while let Some((first, after)) = cursor.next() {
        count += 1;
        if let TokenText::Group(_, inside) = first {
            count += walk_flat(inside);
        }
        cursor = after;
    }
    count
}

/// The same, of syn's buffer.
fn walk_syn(mut cursor: SynCursor<'_>) -> usize {
    let mut count = 0;
    loop {
        if let Some((inside, _, _, after)) = cursor.any_group() {
            count += 1 + walk_syn(inside);
            cursor = after;
        } else if let Some((_, after)) = cursor.token_tree() {
            count += 1;
            cursor = after;
        } else {
            return count;
        }
    }
}

/// The same, of trees.
fn walk_trees(stream: TokenStream) -> usize {
    let mut count = 0;
    for tree in stream {
        count += 1;
        if let TokenTree::Group(group) = tree {
            count += walk_trees(group.stream());
        }
    }
    count
}

fn main() -> Result<(), Box<dyn Error>> {
    let folder = env::args().nth(1).ok_or("name a folder with files of Rust")?;
    let text = measure::source(folder.as_ref(), read)?;
    let stream: TokenStream = text.parse()?;
    let trees = walk_trees(stream.clone());
    let buffer = TokenBuffer::new(&text).map_err(|error| format!("{error:?}"))?;
    let syn_buffer = SynBuffer::new2(stream.clone());
    println!("bytes {}", text.len());
    println!("trees {trees}");
    least("flat_walk", trees, || walk_flat(buffer.begin()));
    least("syn_walk", trees, || walk_syn(syn_buffer.begin()));
    least("flat_make_and_walk", trees, || match TokenBuffer::new(&text) {
        Ok(buffer) => walk_flat(buffer.begin()),
        Err(_) => 0,
    });
    least("syn_make_and_walk", trees, || match text.parse() {
        Ok(stream) => walk_syn(SynBuffer::new2(stream).begin()),
        Err(_) => 0,
    });
    least("trees_make_and_walk", trees, || match text.parse() {
        Ok(stream) => walk_trees(stream),
        Err(_) => 0,
    });
    least("flat_to_stream_and_walk", trees, || {
        match buffer.begin().to_stream() {
            Ok(stream) => walk_made(stream.trees()),
            Err(_) => 0,
        }
    });
    Ok(())
}

/// The same, of the trees that are made of a buffer.
fn walk_made(trees: &[proved_tokens::proc_macro2::TokenTree]) -> usize {
    let mut count = trees.len();
    for tree in trees {
        if let proved_tokens::proc_macro2::TokenTree::Group(group) = tree {
            count += walk_made(group.stream_ref().trees());
        }
    }
    count
}
