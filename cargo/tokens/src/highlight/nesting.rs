// Made from crates/highlight/src/nesting.rt by dev/erase: change that file, not this one.
//! Which delimiters match each other.

use proved_tokens::shim::prelude::Grow;

use crate::highlight::style::Style;
use proved_tokens::proc_macro2::PieceKind;
use proved_tokens::shim::alloc::AllocError;

/// The delimiters up to some byte offset of a text, with the style of each so far.
pub struct Nesting {
    // The style of an opener is `Unclosed` until a closer matches it.
    styles: Vec<Style>,
    // The openers that no closer has matched yet, the innermost last.
    openers: Vec<Opener>,
    awaited: Awaited,
}

/// An opener that waits for its closer.
#[derive(Clone, Copy)]
pub struct Opener {
    closer: char,
    // The number of delimiters before it.
    index: usize,
    around: Awaited,
}

/// The closers for which some opener waits.
#[derive(Clone, Copy)]
pub struct Awaited {
    round: bool,
    square: bool,
    curly: bool,
}

impl Nesting {
    /// Returns the state before the first delimiter.
    pub fn new() -> Nesting
    {
        Nesting {
            styles: Vec::new(),
            openers: Vec::new(),
            awaited: Awaited {
                round: false,
                square: false,
                curly: false,
            },
        }
    }

    /// Takes the next piece. Only delimiters change anything.
    ///
    /// A closer matches the innermost opener that waits for it. The openers inside that one are never closed.
    #[inline]
    pub fn take(&mut self, kind: PieceKind<'_>) -> Result<(), AllocError>
    {
        match kind {
            PieceKind::Opener(opener) => self.open(opener),
            PieceKind::Closer(closer) => self.close(closer),
            _ => Ok(()),
        }
    }

    /// Takes an opener.
    fn open(&mut self, opener: char) -> Result<(), AllocError>
    {
        let closer = closer_of(opener);
        let around = self.awaited;
        self.openers.push_fallibly(Opener {
            closer,
            index: self.styles.len(),
            around,
        })?;
        self.awaited = Awaited {
            round: closer == ')' || around.round,
            square: closer == ']' || around.square,
            curly: closer == '}' || around.curly,
        };
        Ok(self.styles.push_fallibly(Style::Unclosed)?)
    }

    /// Takes a closer.
    fn close(&mut self, closer: char) -> Result<(), AllocError>
    {
        let style = self.take_match(closer);
        Ok(self.styles.push_fallibly(style)?)
    }

    /// Removes the opener that the closer matches and the openers inside it, and returns the style of the pair.
    fn take_match(&mut self, closer: char) -> Style
    {
        if !self.awaited.has(closer) {
            return Style::StrayCloser;
        }
        while let Some(opener) = self.openers.pop() {
            self.awaited = opener.around;
            if opener.closer == closer {
                let style = Style::Delimiter(self.openers.len());
                set_style(&mut self.styles, opener.index, style);
                return style;
            }
        }
        Style::StrayCloser
    }

    /// Returns the styles of all delimiters. If the text was not read to its end, the waiting openers count as closed,
    /// since their closers may follow.
    pub fn into_styles(self, is_whole: bool) -> Vec<Style>
    {
        let Nesting {
            mut styles,
            mut openers,
            ..
        } = self;
        if !is_whole {
            while let Some(opener) = openers.pop() {
                set_style(&mut styles, opener.index, Style::Delimiter(openers.len()));
            }
        }
        styles
    }
}

impl Awaited {
    /// Whether some opener waits for the closer.
    fn has(self, closer: char) -> bool
    {
        match closer {
            ')' => self.round,
            ']' => self.square,
            _ => self.curly,
        }
    }
}

/// Sets the style at the index, if there is an item at it.
fn set_style(styles: &mut Vec<Style>, index: usize, style: Style)
{
    if index < styles.len() {
        styles[index] = style;
    }
}

/// The closer of an opener.
fn closer_of(opener: char) -> char
{
    match opener {
        '(' => ')',
        '[' => ']',
        _ => '}',
    }
}
