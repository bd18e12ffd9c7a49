//! Looking over files: pieces, faults, indentation, changes.
use crate::noted::Noted;
use crate::trees::{note, parsed};
use proved_tokens::explain::{advice, explain, Explained, Hint, Stretch};
use proved_tokens::proc_macro2::{pieces, PieceKind, TokenStream};
use proved_tokens::relayout::{relayout, White};
use workloads::random::Random;
use workloads::texts::{size, source};

/// What the job puts at the end of a text.
const FAULTS: &[&str] = &[
    "fn f() { \"unclosed }\n",
    "fn f() { g(1] }\n",
    "fn f() { g(1)\n",
    "fn f() { 0b12 }\n",
    "fn f() { '\\q' }\n",
    "fn f() { /* g(1) }\n",
    "fn f() { r##\"text\"# }\n",
    "fn f() { 1 ` 2 }\n",
];

pub fn ask(random: &mut Random, files: u64, items: &[&str], noted: &mut Noted) {
    for _ in 0..files {
        let bytes = size(random);
        let Ok(text) = source(random, items, bytes);
        let text = text.as_str();
        list(text, noted);
        check(text, noted);
        let faulty = format!("{text}{}", random.one_of(FAULTS));
        list(&faulty, noted);
        check(&faulty, noted);
        let indented = relayout(text, &indentation(text)).expect("the text has pieces");
        noted.text(indented.as_str());
        let (before, after) = (parsed(text), parsed(indented.as_str()));
        noted.flag(before.same_tokens(&after));
        note(&before, noted);
        note(&after, noted);
    }
}

/// Notes each piece, and what is left after the last.
fn list(text: &str, noted: &mut Noted) {
    let mut walk = pieces(text);
    while let Some(next) = walk.next_piece() {
        noted.shown(&next);
        noted.number(walk.rest().len());
    }
    noted.text(walk.rest());
}

/// Notes why the text doesn't parse, and what helps; and the error of parsing it.
fn check(text: &str, noted: &mut Noted) {
    let found = explain(text).expect("the text fits a map");
    noted.flag(found.is_some());
    if let Some(found) = found {
        explained(&found, noted);
        let Ok(hint) = advice(text, &found);
        match hint {
            None => noted.text("no hint"),
            Some(Hint::Quote(at)) => stretch(at, noted),
            Some(Hint::Comments { depth, closed }) => {
                noted.number(depth);
                noted.flag(closed.is_some());
                closed.into_iter().for_each(|at| stretch(at, noted));
            }
        }
    }
    noted.shown(&TokenStream::parse_unmapped(text).map(|stream| stream.trees().len()));
}

fn explained(found: &Explained, noted: &mut Noted) {
    noted.shown(&found.reason);
    noted.text(found.reason.name());
    noted.text(found.reason.message());
    stretch(found.before, noted);
    stretch(found.at, noted);
    noted.flag(found.innermost.is_some());
    noted.number(found.outer.len());
    for opener in found.innermost.iter().chain(found.outer.iter()) {
        noted.shown(&opener.delimiter);
        stretch(opener.at, noted);
    }
}

fn stretch(at: Stretch, noted: &mut Noted) {
    noted.shown(&(at.start, at.end, at.span));
}

/// For each run of white space, the line's indentation by the groups that are open, as the job chooses it.
fn indentation(text: &str) -> Vec<White> {
    let (mut choices, mut open, mut in_white) = (Vec::new(), 0usize, false);
    let mut walk = pieces(text);
    while let Some(next) = walk.next_piece() {
        let is_white = next.piece.kind == PieceKind::Gap && !next.text.starts_with('/');
        if is_white && !in_white {
            choices.push(White::Lines { tabs: 0, spaces: open.min(20) * 3 });
        }
        in_white = is_white;
        open = match next.piece.kind {
            PieceKind::Opener(_) => open + 1,
            PieceKind::Closer(_) => open.saturating_sub(1),
            _ => open,
        };
    }
    choices
}
