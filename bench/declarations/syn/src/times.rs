//! Times of both sides on the same items, lexed before.
use crate::functions::{self, Function};
use crate::{every, ours};
use proved_tokens::pm_stream::TokenStream as OwnStream;
use std::hint::black_box;
use std::time::{Duration, Instant};
use syn::{DeriveInput, File};

const RUNS: usize = 5;

/// An item as either side has its tokens.
pub struct Lexed {
    pub theirs: proc_macro2::TokenStream,
    pub ours: OwnStream,
}

/// How long it takes to find what files declare, or the parts of items.
#[derive(Default)]
pub struct Times {
    pub theirs: Duration,
    pub ours: Duration,
}

impl Times {
    /// Adds the least times of some runs over a file, which ours reads as far as its items' braces.
    pub fn add_file(&mut self, file: &Lexed) {
        self.theirs += least(|| drop(black_box(syn::parse2::<File>(file.theirs.clone()))));
        self.ours += least(|| {
            let _ = black_box(every::count(file.ours.trees()));
        });
    }

    /// Adds the least times of some runs over the items.
    pub fn add(&mut self, items: &[Lexed]) {
        self.theirs += least(|| {
            for item in items {
                drop(black_box(syn::parse2::<DeriveInput>(item.theirs.clone())));
            }
        });
        self.ours += least(|| {
            for item in items {
                let found = ours::each_part(item.ours.trees(), |name, piece| {
                    black_box((name, piece));
                });
                drop(black_box(found));
            }
        });
    }

    /// Adds the least times of some runs over functions with their parameters, whose bodies are empty.
    pub fn add_functions(&mut self, functions: &[Lexed]) {
        self.theirs += least(|| {
            for function in functions {
                drop(black_box(syn::parse2::<Function>(function.theirs.clone())));
            }
        });
        self.ours += least(|| {
            for function in functions {
                let found = functions::each_part(function.ours.trees(), |name, piece| {
                    black_box((name, piece));
                });
                drop(black_box(found));
            }
        });
    }

    pub fn print(&self, what: &str) {
        let [theirs, ours] = [&self.theirs, &self.ours].map(|time| time.as_secs_f64() * 1000.0);
        println!("milliseconds for {what}: syn {theirs:.1}, ours {ours:.1}, ratio {:.4}", ours / theirs);
    }
}

fn least(run: impl Fn()) -> Duration {
    let times = (0..RUNS).map(|_| {
        let start = Instant::now();
        run();
        start.elapsed()
    });
    times.min().expect("there are runs")
}
