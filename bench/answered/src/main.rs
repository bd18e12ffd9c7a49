//! Makes the texts of a workload, asks the library all that it can be asked about them, and prints a digest of every
//! answer: `answered JOB SEED SIZE`, with the items on standard input. bench/answers runs it.
//!
//! It names nothing that the library didn't have at the start that docs/PERF.md tells of, so that it can be built
//! there too. After its own work it does the job itself with the same seed, and fails if the job drew another number
//! of random numbers, since then the texts aren't those of the job.
mod awkward;
mod editing;
mod generating;
mod listing;
mod noted;
mod prettifying;
mod reading;
mod trees;

use noted::Noted;
use std::error::Error;
use std::io::Read;
use workloads::digest::Digest;
use workloads::fails::Fail;
use workloads::random::Random;

/// What makes a job's texts and notes all answers about them.
type Asking = fn(&mut Random, u64, &[&str], &mut Noted);
/// A job of the workloads.
type Job = fn(&mut Random, u64, &[&str], &mut Digest) -> Result<(), Fail>;

fn main() -> Result<(), Box<dyn Error>> {
    let words: Vec<String> = std::env::args().skip(1).collect();
    let [name, seed, size] = words.as_slice() else {
        return Err("answered JOB SEED SIZE < ITEMS".into());
    };
    let (seed, size) = (seed.parse()?, size.parse()?);
    let mut text = String::new();
    std::io::stdin().read_to_string(&mut text)?;
    let items: Vec<&str> = text.split('\u{c}').collect();
    let (asking, job): (Asking, Job) = match name.as_str() {
        "read" => (reading::ask, workloads::reading::run),
        "generate" => (generating::ask, workloads::generating::run),
        "prettify" => (prettifying::ask, workloads::prettifying::run),
        "list" => (listing::ask, workloads::listing::run),
        "edit" => (editing::ask, workloads::editing::run),
        "awkward" => (awkward::ask, workloads::awkward::run),
        _ => return Err(format!("{name} is no job").into()),
    };
    let (mut here, mut there) = (Random::new(seed), Random::new(seed));
    let mut noted = Noted::new();
    asking(&mut here, size, &items, &mut noted);
    job(&mut there, size, &items, &mut Digest::new()).map_err(|fail| format!("{fail:?}"))?;
    if here.next() != there.next() {
        return Err(format!("{name} draws other random numbers: its texts aren't these").into());
    }
    println!("{name} {:016x}", noted.value());
    Ok(())
}
