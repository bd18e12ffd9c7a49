//! Times of the token library that this is built over: of 3 MB of Rust, of syn on them, and of single small calls.
//!
//! For each the least of some runs is printed, in nanoseconds of processor time, and then sizes in bytes.
mod measure;
mod rows;

use measure::{least, source};
use proc_macro2::TokenStream;
use quote::quote;
use std::error::Error;
use std::hint::black_box;
use std::env;

/// A text as a module, if syn can parse it.
fn module(text: String) -> Option<String> {
    let module = format!("mod m {{\n{text}\n}}\n");
    syn::parse_file(&module).is_ok().then_some(module)
}

fn main() -> Result<(), Box<dyn Error>> {
    let folder = env::args().nth(1).ok_or("name a folder with files of Rust")?;
    let text = source(folder.as_ref(), module)?;
    println!("bytes {}", text.len());
    let file = syn::parse_file(&text)?;
    let stream: TokenStream = text.parse()?;
    println!("from_str {}", least(|| drop(black_box(text.parse::<TokenStream>()))));
    println!("parse_file {}", least(|| drop(black_box(syn::parse_file(&text)))));
    println!("to_string {}", least(|| drop(black_box(stream.to_string()))));
    println!("quote {}", least(|| drop(black_box(quote!(#file).to_string()))));
    rows::run()
}
