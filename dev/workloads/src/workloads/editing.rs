// Made from crates/workloads/src/editing.rt by dev/erase: change that file, not this one.
//! Looking over files as an editor does, or before a commit: colours, faults, indentation, changes.

use crate::shim::prelude::{Grow, GrowText};

use crate::workloads::digest::Digest;
use crate::workloads::fails::Fail;
use crate::workloads::random::Random;
use crate::workloads::texts::{size, source};
use proved_tokens::explain::{advice, explain};
use proved_tokens::proc_macro2::{PieceKind, TokenStream, pieces};
use proved_tokens::relayout::{White, relayout};
use crate::shim::alloc::AllocError;

/// Looks over so many files.
pub fn run(
    random: &mut Random,
    files: u64,
    items: &[&str],
    digest: &mut Digest,
) -> Result<(), Fail> {
    for _ in 0..files {
        let bytes = size(random);
        let text = source(random, items, bytes)?;
        look_over(text.as_str(), random, digest)?;
    }
    Ok(())
}

fn look_over(
    text: &str,
    random: &mut Random,
    digest: &mut Digest,
) -> Result<(), Fail> {
    colour(text, digest);
    check(text, digest)?;
    let mut faulty = String::from_str_fallibly(text)?;
    faulty.push_str_fallibly(random.one_of(FAULTS))?;
    check(faulty.as_str(), digest)?;
    let choices = indentation(text)?;
    let Ok(indented) = relayout(text, choices.as_slice()) else {
        return Err(Fail::Refused);
    };
    digest.text(indented.as_str());
    let before = TokenStream::parse_unmapped(text)?;
    let after = TokenStream::parse_unmapped(indented.as_str())?;
    digest.number(before.same_tokens(&after) as u64);
    Ok(())
}

// Ends of texts that don't parse.
const FAULTS: &[&str] = &[
    "fn f() { \"unclosed }\n",
    "fn f() { g(1] }\n",
    "fn f() { g(1)\n",
    "fn f() { 0b12 }\n",
    "fn f() { '\\q' }\n",
    "fn f() { /* g(1) }\n",
    "fn f() { r##\"text\"# }\n",
    "fn f() { 1 ` 2 }\n",
];

// The kind, place and length of each piece, in the order in which a page shows them.
fn colour(text: &str, digest: &mut Digest) {
    let mut walk = pieces(text);
    for _ in 0..u64::MAX {
        let Some(next) = walk.next_piece() else {
            return;
        };
        let kind = match next.piece.kind {
            PieceKind::FrontMark => 0,
            PieceKind::Gap => 1,
            PieceKind::Doc { inner, .. } => 2 + inner as u64,
            PieceKind::Opener(c) => c as u64,
            PieceKind::Closer(c) => c as u64,
            PieceKind::Literal => 4,
            PieceKind::Mark { joint, mark } => (mark as u64) << 1 | joint as u64,
            PieceKind::Name { raw, .. } => 5 + raw as u64,
        };
        if kind != 1 || next.piece.bytes > 1 {
            digest.number(kind << 32 ^ next.byte_offset as u64);
        }
    }
}

// Why the text doesn't parse, and what helps.
fn check(text: &str, digest: &mut Digest) -> Result<(), Fail> {
    match explain(text) {
        Ok(None) => digest.number(0),
        Ok(Some(explained)) => {
            digest.text(explained.reason.name());
            digest.number(explained.at.start as u64);
            digest.number(explained.at.end as u64);
            let hint = advice(text, &explained)?;
            digest.number(hint.is_some() as u64);
        }
        Err(_) => return Err(Fail::Refused),
    }
    Ok(())
}

// For each run of white space, the line's indentation by the groups that are open.
fn indentation(text: &str) -> Result<Vec<White>, AllocError> {
    let mut choices = Vec::new();
    let mut open: usize = 0;
    let mut in_white = false;
    let mut walk = pieces(text);
    for _ in 0..u64::MAX {
        let Some(next) = walk.next_piece() else {
            break;
        };
        let is_white = match next.piece.kind {
            PieceKind::Gap => !next.text.starts_with("/"),
            _ => false,
        };
        if is_white && !in_white {
            let spaces = open.min(20) * 3;
            choices.push_fallibly(White::Lines { tabs: 0, spaces })?;
        }
        in_white = is_white;
        open = match next.piece.kind {
            PieceKind::Opener(_) => open.saturating_add(1),
            PieceKind::Closer(_) => open.saturating_sub(1),
            _ => open,
        };
    }
    Ok(choices)
}
