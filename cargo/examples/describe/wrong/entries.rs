//! Types with wrong attributes. `entries.txt` says which errors the compiler shows, and at which tokens.

use describe::Describe;

#[derive(Describe)]
#[describe(renam = "a", skip)]
struct Unknown {
    #[describe(skp, rename = "b", crate)]
    named: u8,
    #[describe("text", a::b(1), -1)]
    other: u8,
}

#[derive(Describe)]
struct UnknownOfTuple(#[describe(rename = "a")] u8);

#[derive(Describe)]
#[describe(rename = "a", rename = "b")]
#[describe(rename = "c")]
enum Repeated {
    #[describe(skip, skip)]
    Variant(#[describe(with = f)] #[describe(with = g)] u8),
}

#[derive(Describe)]
#[describe(rename)]
enum Rename {
    #[describe(rename = 3)]
    Number,
    #[describe(rename("a"))]
    List,
    #[describe(rename = concat!("a", "b"))]
    Call,
    #[describe(rename = b"a", with = f)]
    Bytes,
}

#[derive(Describe)]
struct Skip(#[describe(skip = true)] u8, #[describe(skip(true, false))] u8);

#[derive(Describe)]
struct WithAndSkip {
    #[describe(with = f, skip)]
    one: u8,
    #[describe(skip)]
    #[describe(with = f::<u8>)]
    two: u8,
}

#[derive(Describe)]
#[describe(crate = "a")]
struct With(
    #[describe(with)] u8,
    #[describe(with = f(1))] u8,
    #[describe(with = Vec<u8>::len)] u8,
    #[describe(with = |x| x)] u8,
);

#[derive(Describe)]
#[describe(crate)]
struct Module;

#[derive(Describe)]
#[describe]
struct Forms {
    #[describe = "a"]
    value: u8,
    #[describe[skip]]
    brackets: u8,
    #[describe(rename "a" skip, = 1, rename =)]
    marks: u8,
}

#[derive(Describe)]
#[describe(skip)]
union Union {
    #[describe(skip = 1)]
    field: u8,
}

macro_rules! declare {
    ($t:ty, $l:literal, $m:meta, $p:path) => {
        #[derive(Describe)]
        #[$m]
        struct Fragments {
            #[describe(rename = $l)]
            a: $t,
            #[describe($p = 1)]
            b: u8,
        }
    };
}

declare!(u8, 12, describe(nam), a::b);
