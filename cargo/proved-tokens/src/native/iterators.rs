//! Walks and iterators: Rust's `Iterator` and `IntoIterator`.
use crate::lexical::{PieceWalk, PlacedPiece};
use crate::pm_stream::token_stream::IntoIter;
#[cfg(feature = "whole")]
use crate::pm_stream::Walk;
use crate::pm_stream::{Step, Steps, TokenStream, TokenTree};
use core::iter::FusedIterator;
use core::slice;

/// The trees in order, each whole. Where another stream shares them they are copied.
impl IntoIterator for TokenStream {
    type Item = TokenTree;
    type IntoIter = IntoIter;

    fn into_iter(self) -> IntoIter {
        let Ok(trees) = self.try_into_iter();
        trees
    }
}

/// The trees in order, each whole.
impl<'a> IntoIterator for &'a TokenStream {
    type Item = &'a TokenTree;
    type IntoIter = slice::Iter<'a, TokenTree>;

    fn into_iter(self) -> slice::Iter<'a, TokenTree> {
        self.trees().iter()
    }
}

impl ExactSizeIterator for IntoIter {}

impl FusedIterator for IntoIter {}

/// The trees at all depths, each group before those inside it: [`try_next`](Walk::try_next).
#[cfg(feature = "whole")]
impl<'a> Iterator for Walk<'a> {
    type Item = &'a TokenTree;

    fn next(&mut self) -> Option<&'a TokenTree> {
        let Ok(next) = self.try_next();
        next
    }
}

#[cfg(feature = "whole")]
impl FusedIterator for Walk<'_> {}

/// The steps into and out of groups and past tokens: [`try_next`](Steps::try_next).
impl<'a> Iterator for Steps<'a> {
    type Item = Step<'a>;

    fn next(&mut self) -> Option<Step<'a>> {
        let Ok(next) = self.try_next();
        next
    }
}

impl FusedIterator for Steps<'_> {}

/// The pieces of a text, up to its end or its first fault: [`next_piece`](PieceWalk::next_piece).
impl<'a> Iterator for PieceWalk<'a> {
    type Item = PlacedPiece<'a>;

    fn next(&mut self) -> Option<PlacedPiece<'a>> {
        self.next_piece()
    }
}

impl FusedIterator for PieceWalk<'_> {}
