//! Compares what files declare, and all parts of structs, enums, unions, functions and attributes, as the crate
//! `declarations` and syn 2 have them.
//!
//! Its words are folders of Rust files. It prints each difference that has no cause in `cause.rs`, with its file and
//! item, and counts; the status is 1 if there is one.
mod cause;
mod every;
mod functions;
mod items;
mod lists;
mod ours;
mod parts;
mod theirs;
mod times;

use parts::Part;
use proved_tokens::pm_span::SourceMap;
use proved_tokens::pm_stream::TokenStream as OwnStream;
use proved_tokens::text::{pieces, PieceKind};
use std::collections::BTreeMap;
use std::path::{Path, PathBuf};
use std::{env, fs, io, process, thread};
use syn::parse::Parser;
use syn::{Attribute, DeriveInput};
use times::{Lexed, Times};

/// Files of the compiler's tests nest deep.
const STACK_BYTES: usize = 1 << 30;

#[derive(Default)]
struct Counts {
    files: usize,
    unread_files: usize,
    items: usize,
    functions: usize,
    attributes: usize,
    lists: usize,
    unread_lists: usize,
    parts: usize,
    entries: usize,
    by_cause: BTreeMap<&'static str, usize>,
    without_cause: usize,
    times: Times,
    times_of_files: Times,
    times_of_functions: Times,
}

impl Counts {
    fn file(&mut self, path: &Path) {
        let Ok(text) = fs::read_to_string(path) else {
            return;
        };
        self.files += 1;
        match syn::parse_file(&text) {
            Ok(file) => {
                self.entries(path, without_shebang(&text), &file);
                self.items(path, items::item_texts(&file));
                self.functions(path, functions::texts(&file));
                self.attributes(path, lists::texts(&file));
            }
            Err(_) => self.unread_files += 1,
        }
        proc_macro2::extra::invalidate_current_thread_spans();
    }

    /// The items of the file at all depths.
    fn entries(&mut self, path: &Path, text: &str, file: &syn::File) {
        let mut map = SourceMap::new();
        let ours = match OwnStream::from_str(text, &mut map) {
            Ok(ours) => ours,
            Err(fault) => {
                let note = format!("ours doesn't lex it: {fault}");
                return self.differ(cause::of_rejected_text(text), path, "", &note);
            }
        };
        let mut found = match every::ours(ours.trees(), &map) {
            Ok(found) => found,
            Err(fault) => {
                let note = format!("ours refuses it: {fault:?}");
                return self.differ(cause::of_rejected_file(file), path, "", &note);
            }
        };
        let theirs = every::theirs(file);
        every::drop_kept(&mut found, &theirs);
        self.entries += theirs.len();
        if theirs.len() != found.len() {
            self.differ(None, path, "", &format!("syn has {} items, ours {}", theirs.len(), found.len()));
        }
        for (theirs, ours) in theirs.iter().zip(&found).filter(|(theirs, ours)| theirs != ours) {
            let note = format!("\n  syn:  {theirs:?}\n  ours: {ours:?}");
            self.differ(cause::of_entry(theirs, ours), path, "", &note);
        }
        let theirs = text.parse().expect("syn has read the text");
        self.times_of_files.add_file(&Lexed { theirs, ours });
    }

    fn items(&mut self, path: &Path, texts: Vec<String>) {
        let mut map = SourceMap::new();
        let mut lexed = Vec::new();
        for text in texts {
            self.items += 1;
            let theirs: proc_macro2::TokenStream = text.parse().expect("syn has read the text");
            let item = match syn::parse2::<DeriveInput>(theirs.clone()) {
                Ok(item) => item,
                Err(_) => {
                    self.differ(Some(cause::NO_DERIVE), path, &text, "");
                    continue;
                }
            };
            let ours = match OwnStream::from_str(&text, &mut map) {
                Ok(ours) => ours,
                Err(fault) => {
                    self.differ(None, path, &text, &format!("ours doesn't lex it: {fault}"));
                    continue;
                }
            };
            self.item(path, &text, &item, &ours);
            lexed.push(Lexed { theirs, ours });
        }
        self.times.add(&lexed);
    }

    fn functions(&mut self, path: &Path, texts: Vec<String>) {
        let mut map = SourceMap::new();
        let mut lexed = Vec::new();
        for text in texts {
            self.functions += 1;
            let theirs: proc_macro2::TokenStream = text.parse().expect("syn has read the text");
            let function: functions::Function = syn::parse2(theirs.clone()).expect("syn has read the function");
            let ours = OwnStream::from_str(&text, &mut map).expect("ours has read the file");
            let mut found = Vec::new();
            let read = functions::each_part(ours.trees(), |name, piece| found.push(Part::of_piece(name, piece)));
            match read {
                Ok(()) => self.compare(path, &text, &functions::theirs(&function), &found),
                Err(refusal) => {
                    let cause = cause::of_refused_function(&function);
                    self.differ(cause, path, &text, &format!("ours refuses it: {refusal:?}"));
                }
            }
            lexed.push(Lexed { theirs, ours });
        }
        self.times_of_functions.add_functions(&lexed);
    }

    fn attributes(&mut self, path: &Path, texts: Vec<String>) {
        let mut map = SourceMap::new();
        for text in texts {
            self.attributes += 1;
            let is_inner = text[1..].trim_start().starts_with('!');
            let parser = if is_inner { Attribute::parse_inner } else { Attribute::parse_outer };
            let theirs = parser.parse_str(&text).expect("syn has read the attribute").remove(0);
            let (theirs, read) = lists::theirs(&theirs);
            self.lists += read.iter().filter(|read| **read).count();
            self.unread_lists += read.iter().filter(|read| !**read).count();
            let ours = OwnStream::from_str(&text, &mut map).expect("ours has read the file");
            match lists::ours(ours.trees(), &read) {
                Ok(found) => self.compare(path, &text, &theirs, &found),
                Err(refusal) => self.differ(None, path, &text, &format!("ours refuses it: {refusal:?}")),
            }
        }
    }

    fn item(&mut self, path: &Path, text: &str, item: &DeriveInput, ours: &OwnStream) {
        let mut found = Vec::new();
        if let Err(refusal) = ours::each_part(ours.trees(), |name, piece| found.push(Part::of_piece(name, piece))) {
            self.differ(cause::of_refusal(item), path, text, &format!("ours refuses it: {refusal:?}"));
            return;
        }
        self.compare(path, text, &theirs::parts(item), &found);
    }

    fn compare(&mut self, path: &Path, text: &str, theirs: &[Part], found: &[Part]) {
        self.parts += found.len();
        let names = |parts: &[Part]| parts.iter().map(|part| part.name).collect::<Vec<_>>();
        if names(theirs) != names(found) {
            self.differ(None, path, text, "other parts");
            return;
        }
        for (theirs, ours) in theirs.iter().zip(found).filter(|(theirs, ours)| theirs != ours) {
            let note = format!("{}\n  syn:  {}\n  ours: {}", ours.name, theirs.tokens, ours.tokens);
            self.differ(cause::of_part(ours.name, &theirs.tokens, &ours.tokens), path, text, &note);
        }
    }

    fn differ(&mut self, cause: Option<&'static str>, path: &Path, text: &str, note: &str) {
        match cause {
            Some(cause) => *self.by_cause.entry(cause).or_default() += 1,
            None => {
                self.without_cause += 1;
                println!("{}: {note}\n{text}\n", path.display());
            }
        }
    }

    fn print(&self) {
        println!("files {}, of which syn doesn't read {}", self.files, self.unread_files);
        println!("items of all kinds {}", self.entries);
        println!("structs, enums and unions {}", self.items);
        println!("functions {}", self.functions);
        println!("attributes {}, with lists that syn reads {}", self.attributes, self.lists);
        println!("lists that syn keeps as tokens {}", self.unread_lists);
        println!("parts {}", self.parts);
        for (cause, count) in &self.by_cause {
            println!("differences {count}: {cause}");
        }
        println!("differences without a cause {}", self.without_cause);
        self.times_of_files.print("files");
        self.times.print("structs, enums and unions");
        self.times_of_functions.print("functions without bodies");
    }
}

/// The text after a first line that no Rust is, as syn leaves it out.
fn without_shebang(text: &str) -> &str {
    let text = text.strip_prefix('\u{feff}').unwrap_or(text);
    let Some(rest) = text.strip_prefix("#!") else { return text };
    let next = pieces(rest).find(|placed| placed.piece.kind != PieceKind::Gap);
    match next {
        Some(placed) if placed.piece.kind == PieceKind::Opener('[') => text,
        _ => text.find('\n').map_or("", |end| &text[end..]),
    }
}

/// All files of Rust in a folder, and in those inside it.
fn files(folder: &Path, found: &mut Vec<PathBuf>) -> io::Result<()> {
    for entry in fs::read_dir(folder)? {
        let entry = entry?;
        let (kind, path) = (entry.file_type()?, entry.path());
        if kind.is_dir() {
            files(&path, found)?;
        } else if kind.is_file() && path.extension().is_some_and(|extension| extension == "rs") {
            found.push(path);
        }
    }
    Ok(())
}

/// Whether there is no difference without a cause.
fn run() -> io::Result<bool> {
    let mut found = Vec::new();
    for folder in env::args_os().skip(1) {
        files(folder.as_ref(), &mut found)?;
    }
    found.sort();
    let mut counts = Counts::default();
    found.iter().for_each(|path| counts.file(path));
    counts.print();
    Ok(counts.without_cause == 0)
}

fn main() -> io::Result<()> {
    let run = thread::Builder::new().stack_size(STACK_BYTES).spawn(run)?;
    let same = run.join().expect("the comparison doesn't panic")?;
    process::exit(if same { 0 } else { 1 });
}
