// Made from crates/workloads/src/texts.rt by dev/erase: change that file, not this one.
//! The texts that jobs read: items of a file of sources, put together by a seed, and tables.

use crate::shim::prelude::{Grow, GrowText};

use crate::workloads::random::Random;
use crate::shim::alloc::AllocError;

/// A text of so many bytes, or somewhat more: items at random, after a line that names it.
pub fn source(
    random: &mut Random,
    items: &[&str],
    bytes: usize,
) -> Result<String, AllocError> {
    let mut text = String::with_capacity_fallibly(bytes)?;
    let number = random.next();
    write!(text, "// Source {number}.\n")?;
    for _ in 0..bytes {
        if text.len() >= bytes {
            break;
        }
        text.push_str_fallibly(random.one_of(items))?;
        text.push_str_fallibly("\n\n")?;
    }
    Ok(text)
}

/// A size between 2,000 and 300,000: each doubling of it comes as often as any other.
pub fn size(random: &mut Random) -> usize {
    let most = 4_000 << random.below(7);
    2_000 + random.below(most) as usize
}

/// A table of so many rows, as generators write them: numbers of all kinds, and strings full of escapes.
pub fn table(random: &mut Random, rows: usize) -> Result<String, AllocError> {
    let mut text = String::new();
    let number = random.next();
    write!(text, "pub static TABLE_{number}: &[Row] = &[\n")?;
    for _ in 0..rows {
        push_row(&mut text, random)?;
    }
    text.push_str_fallibly("];\n")?;
    Ok(text)
}

// A row of a table.
fn push_row(text: &mut String, random: &mut Random) -> Result<(), AllocError> {
    let (id, whole, part) = (
        random.below(100_000),
        random.below(1_000),
        random.below(100_000),
    );
    let (mask, low, high) = (random.next(), random.below(90), random.below(0xd000));
    write!(
        text,
        "    Row {{ id: {id}, at: {whole}.{part}, scale: {low}.5e-{low}, mask: 0x{mask:x}u64, "
    )?;
    write!(
        text,
        "name: \"row\\t{id}\\n\", key: '\\u{{{high:x}}}', bytes: b\"\\x{low:02}\\0\\\\{whole}\", "
    )?;
    push_words(text, random)?;
    text.push_str_fallibly("},\n")
}

// A string of some words with escapes between them, and a character.
fn push_words(text: &mut String, random: &mut Random) -> Result<(), AllocError> {
    text.push_str_fallibly("text: \"")?;
    for _ in 0..random.below(6) {
        text.push_str_fallibly(random.one_of(WORDS))?;
    }
    text.push_str_fallibly("\", sign: '")?;
    text.push_str_fallibly(random.one_of(SIGNS))?;
    text.push_str_fallibly("' ")
}

const WORDS: &[&str] = &[
    "plain words ",
    "a \\\"quote\\\" ",
    "tab\\t",
    "line\\r\\n",
    "back\\\\slash ",
    "\\u{1F600}",
    "Größe ",
    "\\x41\\x7e",
];

const SIGNS: &[&str] = &["a", "+", "\\n", "\\'", "é", "\\u{e9}", "\\\\", "Z"];
