//! Parses a file of Rust with syn, prints it with quote, and sees that the print parses to the same file. It also uses
//! a macro over the same package.
use derive_sum::Sum;
use quote::quote;
use std::error::Error;
use std::{env, fs};

#[derive(Sum)]
struct Seven;

fn main() -> Result<(), Box<dyn Error>> {
    let path = env::args().nth(1).ok_or("name a file of Rust")?;
    let file = syn::parse_file(&fs::read_to_string(path)?)?;
    let printed = quote!(#file).to_string();
    println!("{printed}");
    let again = syn::parse_file(&printed)?;
    if quote!(#again).to_string() != printed {
        return Err("the print is of another file".into());
    }
    if (Seven::name(), Seven::sum()) != ("Seven", -4) {
        return Err("the macro wrote other code".into());
    }
    Ok(())
}
