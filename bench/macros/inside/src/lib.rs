//! Makes the call of a row over and over inside the compiler: the environment has ROW and CALLS.
use std::env::var;
use std::hint::black_box;
use templates::ROWS;

/// Without ROW it checks that all ways to make the tokens give the same ones.
#[proc_macro]
pub fn repeated(_: proc_macro::TokenStream) -> proc_macro::TokenStream {
    let Ok(wanted) = var("ROW") else {
        templates::check();
        return proc_macro::TokenStream::new();
    };
    let calls = var("CALLS").ok().and_then(|calls| calls.parse().ok()).expect("CALLS is a number");
    let (_, row) = ROWS.iter().find(|row| row.0 == wanted).expect("ROW is the name of a row");
    row(calls, |made| drop(black_box(proc_macro::TokenStream::from(made))));
    proc_macro::TokenStream::new()
}
