//! The Rust crate behind the command line of `tokens`, and a recorder of its answers.
//!
//! `twin print` does what `tokens print` does, and `twin spans` what `tokens spans` does, on a stack that
//! grows with the nesting of groups. `twin answers` reads lines as those of crates/conformance/stdin, and
//! writes each with the crate's own answer, and with the two columns of a named difference where it has them.
//! `twin lists SEED COUNT` writes such lines for lists of trees by chance. `twin call WORD COUNT` reads a text, makes
//! the call that the word names so many times, and prints the processor time that the calls took, in nanoseconds, and
//! a number by which their answers are compared.
mod answers;
mod calls;
mod lists;
mod random_lists;
mod spans;

use proc_macro2::{extra, TokenStream};
use random_lists::RandomLists;
use std::io::{self, BufRead, Read, Write};
use std::process::exit;

/// The text that stands escaped in a column.
fn unescaped(column: &str) -> Option<String> {
    let mut text = String::new();
    let mut rest = column.chars();
    while let Some(c) = rest.next() {
        text.push(match (c, if c == '\\' { rest.next()? } else { c }) {
            ('\\', 'n') => '\n',
            ('\\', 'r') => '\r',
            ('\\', 't') => '\t',
            ('\\', '\\') => '\\',
            ('\\', 'u') => {
                let (number, after) = rest.as_str().strip_prefix('{')?.split_once('}')?;
                rest = after.chars();
                char::from_u32(u32::from_str_radix(number, 16).ok()?)?
            }
            ('\\', _) => return None,
            _ => c,
        });
    }
    Some(text)
}

/// The text as it stands in a column: what isn't plain ASCII or a letter is escaped.
fn escaped(text: &str) -> String {
    let mut column = String::new();
    for c in text.chars() {
        match c {
            '\n' => column.push_str("\\n"),
            '\r' => column.push_str("\\r"),
            '\t' => column.push_str("\\t"),
            '\\' => column.push_str("\\\\"),
            ' '..='~' => column.push(c),
            _ if c.is_alphabetic() => column.push(c),
            _ => column.push_str(&format!("\\u{{{:x}}}", c as u32)),
        }
    }
    column
}

fn answers() -> io::Result<()> {
    let mut out = io::BufWriter::new(io::stdout());
    for line in io::stdin().lock().lines() {
        let line = line?;
        let Some(answered) = answered(&line) else {
            eprintln!("not a line of answers: {line}");
            exit(2)
        };
        writeln!(out, "{answered}")?;
    }
    out.flush()
}

/// The line with the crate's answer, and with the two columns of a named difference, where it has them. `None` where it
/// has neither three columns nor five, its kind isn't known, or its text has a wrong escape.
fn answered(line: &str) -> Option<String> {
    match line.split('\t').collect::<Vec<_>>()[..] {
        [asked, text, _] => line_of(asked, &unescaped(text)?),
        [asked, text, _, kind, wanted] => Some(format!("{}\t{kind}\t{wanted}", line_of(asked, &unescaped(text)?)?)),
        _ => None,
    }
}

/// The line of the crate's answer, where this is asked of the text.
fn line_of(asked: &str, text: &str) -> Option<String> {
    // each text is the first of a map
    extra::invalidate_current_thread_spans();
    let (kind, reply) = answers::answer(asked, text)?;
    Some(format!("{kind}\t{}\t{}", escaped(text), escaped(&reply)))
}

/// Writes the lines of so many lists of trees.
fn lists(seed: u64, count: u64) -> io::Result<()> {
    let mut out = io::BufWriter::new(io::stdout());
    let mut lists = RandomLists::new(seed);
    for _ in 0..count {
        let list = lists.list();
        writeln!(out, "{}", line_of("list", &list).expect("a list is noted"))?;
    }
    out.flush()
}

/// Times calls on the text of standard input.
fn call(word: &str, count: u32) -> io::Result<()> {
    let Some(measured) = calls::measure(word, count, &io::read_to_string(io::stdin())?) else {
        usage()
    };
    println!("{} {}", measured.time.as_nanos(), measured.check);
    Ok(())
}

fn run(word: &str) -> io::Result<()> {
    let mut bytes = Vec::new();
    io::stdin().read_to_end(&mut bytes)?;
    let Ok(text) = String::from_utf8(bytes) else {
        eprintln!("not utf-8");
        exit(2)
    };
    match text.parse::<TokenStream>() {
        Ok(stream) => {
            let output = match word {
                "print" => format!("{stream}\n"),
                _ => spans::span_lines(stream).map_err(io::Error::other)?,
            };
            io::stdout().write_all(output.as_bytes())
        }
        Err(error) => {
            let place = error.span().start();
            eprintln!("fault {}:{}", place.line, place.column);
            exit(1)
        }
    }
}

fn usage() -> ! {
    eprintln!("usage: twin print|spans|answers, twin lists SEED COUNT, or twin call WORD COUNT");
    exit(2)
}

fn main() -> io::Result<()> {
    let words: Vec<String> = std::env::args().skip(1).collect();
    match words.iter().map(String::as_str).collect::<Vec<_>>().as_slice() {
        [word @ ("print" | "spans")] => run(word),
        ["answers"] => answers(),
        ["call", word, count] => match count.parse() {
            Ok(count) => call(word, count),
            Err(_) => usage(),
        },
        ["lists", seed, count] => {
            let [Ok(seed), Ok(count)] = [seed.parse(), count.parse()] else {
                usage()
            };
            lists(seed, count)
        }
        _ => usage(),
    }
}
