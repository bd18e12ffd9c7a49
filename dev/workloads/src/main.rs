//! Does what users of the library wait for, on texts that it makes by a seed, and prints a digest of all answers.
//!
//! `workloads JOB SEED SIZE` reads the items of which it makes them from standard input, where a form feed stands
//! between two.
#![forbid(unsafe_code)]
use std::env;
use std::io::{self, Read, Write};
use workloads::digest::Digest;
use workloads::fails::Fail;
use workloads::random::Random;
use workloads::{awkward, editing, generating, listing, prettifying, reading};

fn main() -> Result<(), Fail> {
    let words: Vec<String> = env::args().skip(1).collect();
    let mut bytes = Vec::new();
    io::stdin().read_to_end(&mut bytes)?;
    let text = String::from_utf8(bytes).map_err(|_| Fail::NotUtf8)?;
    let items: Vec<&str> = text.split('\u{c}').collect();
    let [job, seed, size] = words.as_slice() else {
        return Err(Fail::Usage);
    };
    let mut digest = Digest::new();
    run(job, number(seed)?, number(size)?, &items, &mut digest)?;
    writeln!(io::stdout(), "{job} {:016x}", digest.value())?;
    Ok(())
}

// The number that a word is.
fn number(word: &str) -> Result<u64, Fail> {
    word.parse().map_err(|_| Fail::Usage)
}

// Does a job, or each of them once.
fn run(job: &str, seed: u64, size: u64, items: &[&str], digest: &mut Digest) -> Result<(), Fail> {
    let jobs = match job {
        "all" => &["read", "generate", "prettify", "list", "edit", "awkward"],
        one => &[one][..],
    };
    let mut random = Random::new(seed);
    for job in jobs {
        match *job {
            "read" => reading::run(&mut random, size, items, digest),
            "generate" => generating::run(&mut random, size, items, digest),
            "prettify" => prettifying::run(&mut random, size, items, digest),
            "list" => listing::run(&mut random, size, items, digest),
            "edit" => editing::run(&mut random, size, items, digest),
            "awkward" => awkward::run(&mut random, size, items, digest),
            _ => Err(Fail::Usage),
        }?;
    }
    Ok(())
}
