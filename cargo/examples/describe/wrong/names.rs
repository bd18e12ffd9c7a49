//! Types whose attributes name what is not there. `names.txt` has the errors.

use describe::Describe;

trait Describe {
    fn describe(&self) -> String;
}

mod functions {}

#[derive(Describe)]
struct Function(#[describe(with = functions::missing)] u8);

#[derive(Describe)]
#[describe(crate = self::functions)]
struct Trait;

macro_rules! declare {
    ($p:path, $m:path) => {
        #[derive(Describe)]
        #[describe(crate = $m)]
        struct Fragments(#[describe(with = $p)] u8);
    };
}

declare!(functions::of_a_fragment, crate::functions);

fn main() {}
