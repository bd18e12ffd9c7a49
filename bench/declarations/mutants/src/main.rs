//! Compares where the calls of `declarations` report errors with a slow reader of all readings, on mutants of items.
//!
//! Its words are a number and folders of Rust files. Of each kind of item so many mutants are made, from items of at
//! most 60 signs in these files. A mutant has one to three tokens that are deleted, doubled, swapped with the next or
//! replaced by a token of another item. `grammar.txt`, which is written by hand, says what the readings are.
mod grammar;

use grammar::Grammar;
use proved_tokens::error::Fault;
use proved_tokens::items::{
    first_sign, parse_file, parse_function, parse_impl, parse_item, parse_type_item, SignClass, ItemKind, Word,
};
use proved_tokens::{Delimiter, Group, TokenStream, TokenTree};
use std::collections::BTreeMap;
use std::path::{Path, PathBuf};
use std::{env, fs, io, process};

/// The longest item or mutant, in signs.
const LONGEST: usize = 60;

/// Items of kinds that few files have.
const RARE: &str = "
    union A { b: u8, c: f32 } pub union D<T: Copy> where T: E { f: T } #[repr(C)] pub(crate) union G { h: [u8; 2] }
    trait I = J + K; pub trait L<T> = M<T> where T: N; trait O<'a> = P<'a> + 'a;
    macro q($r:expr) { $r } pub macro s { ($t:ty) => {} } #[u] macro v() {}
    extern crate w; pub extern crate x as y; #[macro_use] extern crate z as _; extern crate self as a1;
    extern \"C\" { fn b1(); } unsafe extern \"C\" { safe fn c1(); } extern { static d1: u8; }
    #[link] extern \"system\" {}
    static e1: u8 = 1; pub static mut f1: [u8; 2] = [1, 2]; static g1: fn(u8) -> u8 = h1;
";

/// A generator of pseudorandom numbers, the same in each run (splitmix64).
struct Random(u64);

impl Random {
    fn below(&mut self, limit: usize) -> usize {
        self.0 = self.0.wrapping_add(0x9e37_79b9_7f4a_7c15);
        let mut mixed = self.0;
        mixed = (mixed ^ mixed >> 30).wrapping_mul(0xbf58_476d_1ce4_e5b9);
        mixed = (mixed ^ mixed >> 27).wrapping_mul(0x94d0_49bb_1331_11eb);
        ((mixed ^ mixed >> 31) % limit as u64) as usize
    }
}

/// The items of a text at all depths that are not too long, by kind.
fn add_items(trees: &[TokenTree], found: &mut BTreeMap<u8, Vec<Vec<TokenTree>>>) {
    let Ok(file) = parse_file(trees) else { return };
    for item in file.items.flatten() {
        if signs(item.trees).len() <= LONGEST {
            found.entry(item.kind as u8).or_default().push(item.trees.to_vec());
        }
        if let Some(body) = item.body() {
            add_items(body.stream_ref().trees(), found);
        }
    }
}

/// Adds items in groups without delimiters, as macros by example pass them on, with an attribute before.
fn add_groups(found: &mut BTreeMap<u8, Vec<Vec<TokenTree>>>) {
    let attribute: TokenStream = "#[a]".parse().expect("it is an attribute");
    let structs = found.get(&(ItemKind::Struct as u8)).into_iter().flatten().take(100);
    let grouped = structs.map(|item| {
        let group = Group::new(Delimiter::None, item.iter().cloned().collect());
        attribute.trees().iter().cloned().chain([TokenTree::Group(group)]).collect()
    });
    let grouped = grouped.collect();
    found.insert(ItemKind::Group as u8, grouped);
}

/// The signs of trees: the name of each in the grammar, and the number of its trees.
fn signs(mut trees: &[TokenTree]) -> Vec<(String, usize)> {
    let mut found = Vec::new();
    while let Some((class, rest)) = first_sign(trees) {
        let name = match class {
            SignClass::Word(Word::Plain) => "Word".to_string(),
            SignClass::Word(word) => format!("{word:?}"),
            SignClass::Keyword(keyword) if format!("{keyword:?}") == "Other" => "Keyword".to_string(),
            SignClass::Keyword(keyword) => format!("{keyword:?}"),
            class => format!("{class:?}"),
        };
        found.push((name, trees.len() - rest.len()));
        trees = rest;
    }
    found
}

/// Changes one to three tokens of the trees.
fn mutate(trees: &mut Vec<TokenTree>, pool: &[Vec<TokenTree>], random: &mut Random) {
    for _ in 0..=random.below(3) {
        if trees.is_empty() {
            return;
        }
        let at = random.below(trees.len());
        match random.below(4) {
            0 => drop(trees.remove(at)),
            1 => trees.insert(at, trees[at].clone()),
            2 if at + 1 < trees.len() => trees.swap(at, at + 1),
            _ => {
                let other = &pool[random.below(pool.len())];
                trees[at] = other[random.below(other.len())].clone();
            }
        }
    }
}

/// What is compared: the rule of the grammar, and the call.
type Call = (&'static str, fn(&[TokenTree]) -> Result<(), Fault>);

fn calls(kind: ItemKind) -> Vec<Call> {
    let mut calls: Vec<Call> = vec![("any_item", |trees| parse_item(trees).map(drop))];
    match kind {
        ItemKind::Struct | ItemKind::Enum | ItemKind::Union => {
            calls.push(("item", |trees| parse_type_item(trees).map(drop)));
        }
        ItemKind::Function => calls.push(("function_item", |trees| parse_function(trees).map(drop))),
        ItemKind::Impl => calls.push(("impl_item", |trees| parse_impl(trees).map(drop))),
        _ => {}
    }
    calls
}

#[derive(Default)]
struct Counts {
    mutants: usize,
    read: usize,
    compared: usize,
    wrong: usize,
}

impl Counts {
    /// Compares what the calls return for a mutant with all its readings.
    fn compare(&mut self, kind: ItemKind, trees: &[TokenTree], grammar: &Grammar) {
        let signs = signs(trees);
        if signs.len() > LONGEST {
            return;
        }
        let numbers: Vec<_> = signs.iter().map(|(name, _)| grammar.sign_number(name)).collect();
        self.mutants += 1;
        for (rule, call) in calls(kind) {
            let (furthest, is_whole) = grammar.read(rule, &numbers);
            let wanted = (!is_whole).then(|| signs[..furthest].iter().map(|(_, count)| count).sum::<usize>());
            let found = call(trees).err().map(|fault| fault.at);
            self.compared += 1;
            self.read += usize::from(found.is_none());
            if found != wanted {
                self.wrong += 1;
                let names: Vec<_> = signs.iter().map(|(name, _)| name.as_str()).collect();
                println!("wrong: {rule} of {}: the fault is at {found:?}, not at {wanted:?}", names.join(" "));
            }
        }
    }
}

/// All files of Rust in a folder, and in those inside it.
fn files(folder: &Path, found: &mut Vec<PathBuf>) -> io::Result<()> {
    for entry in fs::read_dir(folder)? {
        let entry = entry?;
        let (kind, path) = (entry.file_type()?, entry.path());
        if kind.is_dir() {
            files(&path, found)?;
        } else if kind.is_file() && path.extension().is_some_and(|extension| extension == "rs") {
            found.push(path);
        }
    }
    Ok(())
}

/// Whether no fault is elsewhere.
fn run(wanted: usize, folders: &[String]) -> io::Result<bool> {
    let grammar = Grammar::new(include_str!("../../grammar.txt"));
    let mut paths = Vec::new();
    for folder in folders {
        files(folder.as_ref(), &mut paths)?;
    }
    paths.sort();
    let mut found = BTreeMap::new();
    let texts = paths.iter().filter_map(|path| fs::read_to_string(path).ok());
    let mut read = 0;
    for text in texts.chain([RARE.to_string()]) {
        if let Ok(stream) = text.parse::<TokenStream>() {
            read += 1;
            add_items(stream.trees(), &mut found);
        }
    }
    println!("files {read}");
    add_groups(&mut found);
    let mut random = Random(1);
    let mut counts = Counts::default();
    let pool: Vec<_> = found.values().flatten().filter(|item| !item.is_empty()).cloned().collect();
    for items in found.values() {
        let kind = parse_item(&items[0]).expect("it is an item").kind;
        let before = counts.mutants;
        while counts.mutants < before + wanted {
            let mut mutant = items[random.below(items.len())].clone();
            mutate(&mut mutant, &pool, &mut random);
            counts.compare(kind, &mutant, &grammar);
        }
        println!("{kind:?}: {} items, {} mutants", items.len(), counts.mutants - before);
    }
    let Counts { mutants, read, compared, wrong } = counts;
    println!("{mutants} mutants, {compared} calls compared, {read} without a fault, {wrong} wrong");
    Ok(wrong == 0)
}

fn main() -> io::Result<()> {
    let words: Vec<_> = env::args().skip(1).collect();
    let Some((Ok(wanted), folders)) = words.split_first().map(|(first, rest)| (first.parse(), rest)) else {
        eprintln!("usage: declarations-mutants MUTANTS-OF-EACH-KIND FOLDER..");
        process::exit(2);
    };
    process::exit(if run(wanted, folders)? { 0 } else { 1 });
}
