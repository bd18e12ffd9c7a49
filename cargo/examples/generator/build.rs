//! Writes an enum from the lines of a table.
use proc_macro2::{Ident, Literal, Span, TokenStream};
use proved_macros::pretty;
use quote::quote;
use std::error::Error;
use std::path::Path;
use std::{env, fs};

const TABLE: &str = "units.txt";

fn main() -> Result<(), Box<dyn Error>> {
    println!("cargo:rerun-if-changed={TABLE}");
    let code = generated(&fs::read_to_string(TABLE)?)?;
    // On lines for people: what rustc or a reader is told of the file then has a line of its own.
    fs::write(Path::new(&env::var("OUT_DIR")?).join("units.rs"), pretty(&code)?)?;
    Ok(())
}

/// The enum of a table, of which each line has a name and a length in micrometers.
fn generated(table: &str) -> Result<TokenStream, Box<dyn Error>> {
    let mut variants = TokenStream::new();
    let mut arms = TokenStream::new();
    for line in table.lines() {
        let (name, length) = line.split_once(' ').ok_or_else(|| format!("{TABLE}: no length in the line {line:?}"))?;
        let name = Ident::new(name, Span::call_site());
        let length: Literal = length.parse()?;
        variants.extend(quote!(#name,));
        arms.extend(quote!(Unit::#name => #length,));
    }
    Ok(quote! {
        /// A unit of length.
        #[derive(Clone, Copy, Debug)]
        pub enum Unit { #variants }

        impl Unit {
            /// Its length in micrometers.
            pub fn micrometers(self) -> u64 {
                match self { #arms }
            }
        }
    })
}
