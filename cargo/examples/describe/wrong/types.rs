//! Types with known entries whose impl has a wrong type. `types.txt` has the errors.

use describe::Describe;

trait Describe {
    fn describe(&self) -> String;
}

struct Silent;

fn number(_: &u8) -> u8 {
    0
}

mod functions {
    pub fn of_text(_: &str) -> String {
        String::new()
    }
}

#[derive(Describe)]
struct Missing {
    field: Silent,
    #[describe(skip)]
    skipped: Silent,
}

#[derive(Describe)]
enum MissingInVariant {
    Tuple(Option<Box<Silent>>),
}

#[derive(Describe)]
struct Returned(#[describe(with = number)] u8);

#[derive(Describe)]
struct Taken(#[describe(with = functions::of_text)] u8);

macro_rules! declare {
    ($t:ty, $p:path) => {
        #[derive(Describe)]
        struct Fragments(#[describe(with = $p)] u8, $t);
    };
}

declare!(Silent, functions::of_text);

fn main() {}
