// Made from crates/lexical_tests/src/compare.rt by dev/erase: change that file, not this one.
//! Compares the two lexers on a text.

use crate::lexical_tests::slow;
use crate::lexical_tests::tally::Tally;
use proved_tokens::lexical::{literal_at, name_at, piece_at, pieces};

/// Compares the two lexers at each character of the text. Also compares them on each beginning of the text, at its
/// start and along its pieces.
pub fn compare(text: &str, tally: &mut Tally) {
    compare_front(text, tally);
    compare_pieces(text, tally);
    let mut rest = text.chars();
    while rest.next().is_some() {
        compare_front(rest.as_str(), tally);
        if let Some(beginning) = text.strip_suffix(rest.as_str()) {
            compare_front(beginning, tally);
            compare_pieces(beginning, tally);
        }
    }
}

/// Compares the results at the start of the text, both for the start of a source and for a later part of one.
fn compare_front(text: &str, tally: &mut Tally) {
    let same = piece_at(text, true) == slow::piece_at(text, true)
        && piece_at(text, false) == slow::piece_at(text, false)
        && literal_at(text) == slow::literal_at(text)
        && name_at(text) == slow::name_at(text);
    tally.count(same);
}

/// Compares the pieces of the text, one after the other, up to where no piece begins.
fn compare_pieces(text: &str, tally: &mut Tally) {
    let mut walk = pieces(text);
    let mut at_front = true;
    for _ in text.chars() {
        let wanted = slow::piece_at(walk.rest(), at_front);
        let answer = walk.next_piece().map(|next| next.piece);
        tally.count(answer == wanted);
        if answer.is_none() {
            return;
        }
        at_front = false;
    }
}
