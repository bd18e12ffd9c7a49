// Made from crates/pretty_printer/src/chosen.rt by dev/erase: change that file, not this one.
//! The gaps of a stream, once they are all chosen, and the marks that are to be joined.

use crate::shim::prelude::Grow;

use crate::pretty_printer::atoms::White;
use crate::layout::{Chooser, Gap, GapContext};
use crate::quoting::join::Visit;
use crate::shim::alloc::AllocError;

/// How far a list of trees is read: up to an atom.
#[derive(Clone, Copy)]
pub struct ListPosition {
    /// The index of the next atom, and the one after the last.
    pub at: usize,
    pub end: usize,
    /// The number of trees before the next atom.
    pub trees: usize,
}

/// The gaps before the tokens, openers and closers of a stream.
pub struct Chosen {
    pub gaps: Vec<White>,
    /// The index of the next of them.
    pub at: usize,
    /// The marks that are to be joined, in reading order, with each group around them before the marks inside it.
    pub visits: Vec<Visit>,
    /// The number of groups around the next atom that are among them.
    pub entered: usize,
}

impl Chosen {
    /// Adds the gap before the next token, opener or closer.
    #[cfg_attr(not(debug_assertions), inline(always))]
    pub fn add(&mut self, gap: White) -> Result<(), AllocError> {
        self.gaps.push_fallibly(gap)?;
        Ok(())
    }

    /// Wants the mark to be joined that is before the next atom of a list in these lists.
    #[inline(never)]
    pub fn want(&mut self, outer: &[ListPosition], here: &ListPosition) -> Result<(), AllocError> {
        for depth in self.entered..outer.len().saturating_add(1) {
            let index = outer.get(depth).unwrap_or(here).trees.saturating_sub(1);
            self.visits.push_fallibly(Visit { depth, index })?;
        }
        self.entered = outer.len();
        Ok(())
    }
}

impl Chooser for Chosen {
    #[cfg_attr(not(debug_assertions), inline(always))]
    fn gap(&mut self, _place: GapContext<'_>) -> Gap {
        let gap = self.gaps.get(self.at);
        self.at = self.at.wrapping_add(1);
        match gap {
            Some(White::Space) => Gap::Space,
            Some(White::Line(column)) => Gap::Line(*column as usize),
            Some(White::Blank(column)) => Gap::Blank(*column as usize),
            // A stream with tokens ends with a line.
            None if self.at > 1 => Gap::Line(0),
            _ => Gap::Nothing,
        }
    }
}
