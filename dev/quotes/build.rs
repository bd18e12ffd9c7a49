//! Writes 2,000 templates, each as a call of both macros. Half of them are random, from tokens of every kind, with
//! groups, holes and repetitions. The others are pairs of tokens that the two macros may parse differently.
use std::fmt::Write;

const COUNT: usize = 2000;
/// The number of templates in one function. A function with more templates takes long to compile.
const IN_ONE: usize = 50;

/// Tokens that need a space to other tokens, but not to marks.
#[rustfmt::skip]
const WORDS: [&str; 36] = [
    "a", "fn", "r#x", "r#fn", "self", "Self", "_x", "größe", "'a", "'static", "'_", "0", "1u8", "0x1F", "0b1_0i32",
    "1.5", "2e3", "1_0.5e-1f64", "0.0", "7.", "'x'", "'\\''", "'\\u{E9}'", "b'\\n'", "\"text\"", "\"a\\n\\\"b\"",
    "r\"raw\"", "r#\"a\"b\"#", "b\"bytes\"", "br\"\\\"", "c\"text\"", "true", "_", "crate", "async", "1usize",
];
/// Marks, single ones and joined ones.
#[rustfmt::skip]
const MARKS: [&str; 50] = [
    "+", "-", "*", "^", "!", "&", "|", "=", "<", ">", "@", ".", ",", ";", ":", "?", "~", "$", "%", "&&", "||", "<<",
    ">>", "+=", "-=", "*=", "^=", "%=", "&=", "|=", "<<=", ">>=", "==", "!=", ">=", "<=", "..", "...", "..=", "::",
    "->", "=>", "<-", "# ;", "/ ", "/= ", "- -", "& &", "> >", ". .",
];
/// Holes and repetitions.
#[rustfmt::skip]
const HOLES: [&str; 26] = [
    "#one", "#text", "#count", "#negative", "#letter", "#truth", "#trees", "#none", "#float", "# one", "#r#in",
    "##one", "#( #list )*", "#( #list ),*", "#( #list: #texts, )*", "#(#list)+*", "#( #one #list );*", "#(#list)**",
    "#( #list #list [ #texts ] )|*", "#( #list( #( #lists ),* ) );*", "#( #( #lists #one )* )*",
    "#( #( #lists => #list )+* )*", "#( #list == #texts )&&*", "#(#list)||*", "#( #( #lists )..=* )or*",
    "(@ #( #list )'a* @)",
];
/// The values of the holes.
const VALUES: &str = r#"
    let (one, r#in, trees) = (side::name("one"), side::name("r#in"), side::stream("<'a, T: A> + [..]"));
    let (text, count, negative, letter, truth, float) = ("a\"\n", 3u8, -7i64, '\'', true, -1.5f32);
    let none: Option<u8> = None;
    let list = vec![side::name("x"), side::name("y"), side::name("r#in")];
    let (texts, lists) = (["p", "q", "s"], vec![vec![1u8, 2], vec![], vec![3]]);"#;
/// Comments, each of which is put on its own line.
#[rustfmt::skip]
const LINES: [&str; 8] = [
    "/// A doc \"comment\" of 'a line'.", "//! An inner one.", "/** A block. */", "//// No doc.", "/* None. */",
    "#[doc = \"text\"]", "#![allow(dead_code)]", "#[cfg(feature = \"a\")]",
];

/// A source of random numbers, which are the same in each build.
struct Chance(u64);

impl Chance {
    fn below(&mut self, end: usize) -> usize {
        self.0 = self.0.wrapping_mul(6364136223846793005).wrapping_add(1442695040888963407);
        (self.0 >> 33) as usize % end
    }

    fn of<'a>(&mut self, list: &[&'a str]) -> &'a str {
        list[self.below(list.len())]
    }
}

/// Adds a token at the end. A space comes before it at random, but always if the compiler would reject the two tokens
/// without one: as a text with a prefix or a suffix, a comment, or a number with half of a float.
fn put(text: &mut String, token: &str, chance: &mut Chance) {
    let is_word = |c: char| c.is_alphanumeric() || "_'\"#.".contains(c);
    let last = text.chars().last().unwrap_or(' ');
    let apart =
        is_word(last) && token.chars().next().is_some_and(is_word) || "/*".contains(last) || token.starts_with('/');
    if apart || chance.below(2) == 0 {
        text.push(' ');
    }
    text.push_str(token);
}

/// Returns a random template.
fn template(chance: &mut Chance, depth: usize) -> String {
    let mut text = String::new();
    for _ in 0..chance.below(9) + 1 {
        match chance.below(20) {
            0..=7 => put(&mut text, chance.of(&WORDS), chance),
            8..=13 => put(&mut text, chance.of(&MARKS), chance),
            14..=16 => put(&mut text, chance.of(&HOLES), chance),
            17 => {
                let line = chance.of(&LINES);
                write!(text, "\n{line}\n").expect("it is a text");
            }
            _ if depth > 0 => {
                let (open, close) = [("(", ")"), ("[", "]"), ("{", "}")][chance.below(3)];
                let inside = template(chance, depth - 1);
                put(&mut text, &format!("{open}{inside} {close}"), chance);
            }
            _ => {}
        }
    }
    apart(&text)
}

/// Returns the template with a comma between `#` and a digit, `_` or `-`. In this library `#` before digits or `_` is a
/// hole, which the crate `quote` does not know.
fn apart(text: &str) -> String {
    let mut out = String::new();
    let mut after_pound = false;
    for c in text.chars() {
        if after_pound && (c.is_ascii_digit() || c == '_' || c == '-') {
            out.push_str(", ");
        }
        out.push(c);
        after_pound = c == '#' || after_pound && c.is_whitespace();
    }
    out
}

/// Returns all pairs of tokens, with each text that can come between them.
fn pairs() -> Vec<String> {
    let mut pairs = Vec::new();
    let tokens =
        ["a", "r#x", "'a", "1", "1.", "1.5", "\"s\"", ".", "..", "..=", "#one", "#count", ">>", ">", "-", "&", "$"];
    for first in tokens {
        for second in tokens {
            for between in ["", " ", " = "] {
                pairs.push((first, between, second));
            }
        }
    }
    let mut chance = Chance(2);
    let texts = pairs.into_iter().map(|(first, between, second)| {
        let mut text = first.to_string();
        if between.is_empty() {
            put(&mut text, second, &mut chance);
        } else {
            write!(text, "{between}{second}").expect("it is a text");
        }
        apart(&text)
    });
    texts.collect()
}

fn main() {
    let mut chance = Chance(1);
    let mut texts = pairs();
    while texts.len() < COUNT {
        texts.push(template(&mut chance, 3));
    }
    let mut code = String::new();
    for (number, chunk) in texts.chunks(IN_ONE).enumerate() {
        for (side, path) in [("public", "::quote"), ("own", "::proved_tokens")] {
            writeln!(code, "pub fn {side}_{number}(shapes: &mut Vec<String>) {{").unwrap();
            writeln!(code, "    use crate::{side} as side;\n{VALUES}").unwrap();
            for text in chunk {
                writeln!(code, "    shapes.push(crate::{side}::shape({path}::quote! {{ {text}\n }}));").unwrap();
            }
            writeln!(code, "}}").unwrap();
        }
    }
    let functions = |side: &str| {
        let all: Vec<String> = (0..texts.chunks(IN_ONE).len()).map(|number| format!("{side}_{number}")).collect();
        all.join(", ")
    };
    writeln!(code, "pub const PUBLIC: &[Made] = &[{}];", functions("public")).unwrap();
    writeln!(code, "pub const OWN: &[Made] = &[{}];", functions("own")).unwrap();
    writeln!(code, "pub const TEXTS: &[&str] = &{texts:?};").unwrap();
    let folder = std::env::var("OUT_DIR").expect("cargo says where");
    std::fs::write(format!("{folder}/templates.rs"), code).expect("the folder can be written");
    println!("cargo::rerun-if-changed=build.rs");
}
