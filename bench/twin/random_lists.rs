//! Lists of trees by chance, which are the same for a seed wherever they are made.
//!
//! All is done on numbers of 64 bits, by shifts, exclusive or and remainders.

/// Names that may be plain: also those that begin literals, keywords, and one past ASCII.
const NAMES: [&str; 16] = [
    "a", "b", "c", "r", "br", "cr", "_", "x1", "e5", "u8", "f64", "fn", "self", "_a", "E", "\u{e9}",
];

/// Names that may be raw.
const RAW_NAMES: [&str; 4] = ["a", "fn", "r", "\u{e9}"];

/// All characters of marks.
const MARKS: [&str; 22] = [
    "!", "#", "$", "%", "&", "'", "*", "+", ",", "-", ".", "/", ":", ";", "<", "=", ">", "?", "@", "^", "|", "~",
];

/// Texts of literals of each kind: integers, floats, characters, bytes, and strings of each kind.
const LITERALS: [&str; 40] = [
    "0", "1", "12u8", "0x1F", "0xe", "0b10", "0o7", "1_000", "1usize", "1f32", "1.0", "2.", "1e3", "1.5f64", "2.0e-3",
    "7E+2", "'a'", "'\\''", "'\\n'", "'\"'", "' '", "b'a'", "b'\\\\'", "\"\"", "\"a\"", "\"a b\"", "\"\\\"\"",
    "\"//\"", "\"a\"s", "'a'u8", "b\"a\"", "b\"\\0\"", "c\"a\"", "c\"\"", "r\"a\"", "r#\"\"\"#", "br\"a\"",
    "br#\"a\"#", "cr\"a\"", "cr##\"\"#\"##",
];

/// Integers that constructors make.
const INTEGERS: [&str; 10] = [
    "-1", "-128", "-3i8", "-3i16", "-3i32", "-3i64", "-3i128", "-3isize", "0", "127i32",
];

/// Openers and closers of groups.
const DELIMITERS: [(&str, &str); 4] = [("(", ")"), ("[", "]"), ("{", "}"), ("<", ">")];

/// A source of numbers.
pub struct RandomLists {
    /// The last number, which isn't 0.
    state: u64,
}

impl RandomLists {
    /// The lists of a seed.
    pub fn new(seed: u64) -> RandomLists {
        RandomLists { state: seed.max(1) }
    }

    /// The notation of a list of up to 6 trees, with groups in groups.
    pub fn list(&mut self) -> String {
        let mut lines = String::new();
        self.push_trees(&mut lines, 6, 2);
        lines
    }

    /// Adds the lines of up to so many trees, in which groups nest so deep.
    fn push_trees(&mut self, lines: &mut String, most: u64, depth: u64) {
        for _ in 0..self.below(most + 1) {
            self.push_tree(lines, depth);
        }
    }

    /// Adds the lines of a tree.
    fn push_tree(&mut self, lines: &mut String, depth: u64) {
        let kinds = if depth > 0 { 13 } else { 11 };
        let (word, text) = match self.below(kinds) {
            0..=1 => ("ident", self.one_of(&NAMES)),
            2 => ("raw", self.one_of(&RAW_NAMES)),
            3..=4 => ("alone", self.one_of(&MARKS)),
            5..=6 => ("joint", self.one_of(&MARKS)),
            7..=9 => ("literal", self.one_of(&LITERALS)),
            10 => ("integer", self.one_of(&INTEGERS)),
            _ => return self.push_group(lines, depth - 1),
        };
        lines.push_str(&format!("{word} {text}\n"));
    }

    /// Adds the lines of a group, in which groups nest so deep.
    fn push_group(&mut self, lines: &mut String, depth: u64) {
        let (opener, closer) = self.one_of(&DELIMITERS);
        lines.push_str(&format!("{opener}\n"));
        self.push_trees(lines, 3, depth);
        lines.push_str(&format!("{closer}\n"));
    }

    /// One of these values.
    fn one_of<T: Copy>(&mut self, values: &[T]) -> T {
        values[self.below(values.len() as u64) as usize]
    }

    /// A number below the bound, which isn't 0.
    fn below(&mut self, bound: u64) -> u64 {
        self.state ^= self.state << 13;
        self.state ^= self.state >> 7;
        self.state ^= self.state << 17;
        self.state % bound
    }
}
