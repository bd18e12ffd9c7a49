// Made from crates/pm_stream_tests/src/tests/random_streams.rt by dev/erase: change that file, not this one.

use crate::shim::prelude::{AllocGlobal, Grow, HostRuntime};

// Tests of streams of random trees: each comes back from its printed text exactly if it is well spaced.
//
// `bench/twin/random_lists.rs` makes the same lists from the same seed, in the same steps, for the Rust crate.
use crate::pm_stream_tests::tests::checks::{check_answer, display_text, parse_first};
use proved_tokens::proc_macro2::{
    Delimiter, Group, Ident, Literal, ParseError, Punct, SourceMap, Spacing, Span, TokenStream,
    TokenTree,
};
use crate::shim::alloc::AllocError;
use crate::shim::process::Abort;
use crate::test_helpers::{Random, release};

/// How many streams are made, and how many of them come back. The Rust crate gives the same numbers.
const STREAMS: u32 = 20000;

const COME_BACK: u32 = 11419;

/// Names that may be plain, including prefixes of literals, keywords, and a name that isn't ASCII.
const NAMES: &[&str] = &[
    "a", "b", "c", "r", "br", "cr", "_", "x1", "e5", "u8", "f64", "fn", "self", "_a", "E", "\u{e9}",
];

/// Names that may be raw.
const RAW_NAMES: &[&str] = &["a", "fn", "r", "\u{e9}"];

/// All characters of marks.
const MARKS: &[char] = &[
    '!', '#', '$', '%', '&', '\'', '*', '+', ',', '-', '.', '/', ':', ';', '<', '=', '>', '?', '@',
    '^', '|', '~',
];

/// The delimiters of groups.
const DELIMITERS: &[Delimiter] = &[
    Delimiter::Parenthesis,
    Delimiter::Bracket,
    Delimiter::Brace,
    Delimiter::None,
];

/// Texts of literals of each kind: integers, floats, characters, bytes, and strings of each kind.
const LITERALS: &[&str] = &[
    "0",
    "1",
    "12u8",
    "0x1F",
    "0xe",
    "0b10",
    "0o7",
    "1_000",
    "1usize",
    "1f32",
    "1.0",
    "2.",
    "1e3",
    "1.5f64",
    "2.0e-3",
    "7E+2",
    "'a'",
    "'\\''",
    "'\\n'",
    "'\"'",
    "' '",
    "b'a'",
    "b'\\\\'",
    "\"\"",
    "\"a\"",
    "\"a b\"",
    "\"\\\"\"",
    "\"//\"",
    "\"a\"s",
    "'a'u8",
    "b\"a\"",
    "b\"\\0\"",
    "c\"a\"",
    "c\"\"",
    "r\"a\"",
    "r#\"\"\"#",
    "br\"a\"",
    "br#\"a\"#",
    "cr\"a\"",
    "cr##\"\"#\"##",
];

/// A source of random trees.
struct RandomTrees {
    random: Random,
}

impl RandomTrees {
    /// Up to 6 trees, in which groups nest 2 deep.
    fn trees(&mut self, rt: &(impl Abort + AllocGlobal)) -> Vec<TokenTree> {
        let mut trees = Vec::new();
        for _ in 0..self.random.below(7) {
            trees.push_fallibly(self.tree(rt)).expect("a tree");
        }
        trees
    }

    /// A tree, in which groups nest 2 deep.
    fn tree(&mut self, rt: &(impl Abort + AllocGlobal)) -> TokenTree {
        let kind = self.random.below(13);
        if kind < 11 {
            return self.leaf(rt, kind);
        }
        let delimiter = self.random.one_of(DELIMITERS);
        let inside = self.shallow_trees(rt);
        group_of(rt, delimiter, inside)
    }

    /// Up to 3 trees. Their groups have no groups in them.
    fn shallow_trees(&mut self, rt: &(impl Abort + AllocGlobal)) -> Vec<TokenTree> {
        let mut trees = Vec::new();
        for _ in 0..self.random.below(4) {
            trees.push_fallibly(self.shallow_tree(rt)).expect("a tree");
        }
        trees
    }

    /// A tree. If it is a group, it has no groups in it.
    fn shallow_tree(&mut self, rt: &(impl Abort + AllocGlobal)) -> TokenTree {
        let kind = self.random.below(13);
        if kind < 11 {
            return self.leaf(rt, kind);
        }
        let delimiter = self.random.one_of(DELIMITERS);
        let inside = self.leaves(rt);
        group_of(rt, delimiter, inside)
    }

    /// Up to 3 trees that are no groups.
    fn leaves(&mut self, rt: &(impl Abort + AllocGlobal)) -> Vec<TokenTree> {
        let mut trees = Vec::new();
        for _ in 0..self.random.below(4) {
            let kind = self.random.below(11);
            trees.push_fallibly(self.leaf(rt, kind)).expect("a tree");
        }
        trees
    }

    /// A tree that is no group, of one of eleven kinds.
    fn leaf(&mut self, rt: &(impl Abort + AllocGlobal), kind: u64) -> TokenTree {
        match kind {
            0..=1 => TokenTree::Ident(name(rt, self.random.one_of(NAMES))),
            2 => TokenTree::Ident(raw_name(rt, self.random.one_of(RAW_NAMES))),
            3..=4 => TokenTree::Punct(self.mark(rt, Spacing::Alone)),
            5..=6 => TokenTree::Punct(self.mark(rt, Spacing::Joint)),
            7..=9 => TokenTree::Literal(literal(rt, self.random.one_of(LITERALS))),
            _ => TokenTree::Literal(self.integer().expect("an integer")),
        }
    }

    /// A mark.
    fn mark(&mut self, rt: &(impl Abort + AllocGlobal), spacing: Spacing) -> Punct {
        let mark = self.random.one_of(MARKS);
        assert!(Punct::is_punct_char(mark));
        Punct::new(mark, spacing)
    }

    /// An integer that a constructor makes, mostly below zero.
    fn integer(&mut self) -> Result<Literal, AllocError> {
        match self.random.below(10) {
            0 => Literal::i8_unsuffixed(-1),
            1 => Literal::i8_unsuffixed(-128),
            2 => Literal::i8_suffixed(-3),
            3 => Literal::i16_suffixed(-3),
            4 => Literal::i32_suffixed(-3),
            5 => Literal::i64_suffixed(-3),
            6 => Literal::i128_suffixed(-3),
            7 => Literal::isize_suffixed(-3),
            8 => Literal::i8_unsuffixed(0),
            _ => Literal::i32_suffixed(127),
        }
    }
}

/// The identifier of the name.
fn name(rt: &impl Abort, name: &str) -> Ident {
    Ident::new(name, Span::call_site()).expect(name)
}

/// The raw identifier of the name.
fn raw_name(rt: &impl Abort, name: &str) -> Ident {
    Ident::new_raw(name, Span::call_site()).expect(name)
}

/// The literal of the text, which is the first file of a new map.
fn literal(rt: &impl Abort, text: &str) -> Literal {
    Literal::from_str(text, &mut SourceMap::new()).expect(text)
}

/// The group of these trees.
fn group_of(
    rt: &impl Abort,
    delimiter: Delimiter,
    trees: Vec<TokenTree>,
) -> TokenTree {
    TokenTree::Group(Group::new(delimiter, stream_of(rt, trees)))
}

/// The stream of these trees.
fn stream_of(rt: &impl Abort, trees: Vec<TokenTree>) -> TokenStream {
    TokenStream::from_trees(trees).expect("a stream")
}

/// Whether the stream was read, and has the same tokens as the other. No error but a syntax error is left.
fn is_back(rt: &impl Abort, read: &Result<TokenStream, ParseError>, stream: &TokenStream) -> bool {
    match read {
        Ok(back) => stream.same_tokens(back),
        Err(error) => {
            let is_lex = matches!(error, ParseError::Lex(_));
            check_answer(rt, "a syntax error", &is_lex, &true);
            false
        }
    }
}

/// Asserts that the stream comes back exactly if it is well spaced, and returns whether it comes back.
fn check_spacing(rt: &impl Abort, stream: &TokenStream) -> bool {
    let spaced = stream.is_well_spaced();
    let text = display_text(rt, stream);
    let read = parse_first(text.as_str());
    check_answer(rt, text.as_str(), &is_back(rt, &read, stream), &spaced);
    release(read);
    spaced
}

#[test]
fn what_is_well_spaced_comes_back_and_nothing_else() {
    let rt = HostRuntime;
    let mut random = RandomTrees {
        random: Random::new(7),
    };
    let mut come_back: u32 = 0;
    for _ in 0..STREAMS {
        let trees = random.trees(&rt);
        let stream = stream_of(&rt, trees);
        if check_spacing(&rt, &stream) {
            come_back = come_back.saturating_add(1);
        }
        release(stream);
    }
    check_answer(&rt, "how many come back", &come_back, &COME_BACK);
}
