//! Punctuation marks.
use crate::repr::{token, Repr};
use crate::span::Repr as SpanRepr;
use crate::{compiler, Punct, Spacing, Span};
use proved_tokens::pm_token::Punct as Own;
use std::fmt::{self, Debug, Display};

token!(Punct, Own);

impl Punct {
    /// The mark of this character, with the span of the macro's call.
    ///
    /// # Panics
    ///
    /// Where the character is none of the marks of Rust.
    #[inline]
    #[track_caller]
    pub fn new(ch: char, spacing: Spacing) -> Punct {
        if !Own::is_punct_char(ch) {
            refused(ch);
        }
        if compiler::inside() {
            let is_joint = spacing == Spacing::Joint;
            let spacing = if is_joint { proc_macro::Spacing::Joint } else { proc_macro::Spacing::Alone };
            return Punct::compiler(proc_macro::Punct::new(ch, spacing));
        }
        Punct::own(Own::new(ch, spacing))
    }

    /// Its character.
    pub fn as_char(&self) -> char {
        match &self.repr {
            Repr::Own(punct) => punct.as_char(),
            Repr::Compiler(punct) => punct.as_char(),
        }
    }

    /// Whether it goes together with what follows right after it.
    pub fn spacing(&self) -> Spacing {
        match &self.repr {
            Repr::Own(punct) => punct.spacing(),
            Repr::Compiler(punct) if punct.spacing() == proc_macro::Spacing::Joint => Spacing::Joint,
            Repr::Compiler(_) => Spacing::Alone,
        }
    }
}

#[cold]
#[track_caller]
fn refused(ch: char) -> ! {
    panic!("unsupported proc macro punctuation character {ch:?}");
}

impl Display for Punct {
    fn fmt(&self, f: &mut fmt::Formatter) -> fmt::Result {
        Display::fmt(&self.as_char(), f)
    }
}

impl Debug for Punct {
    fn fmt(&self, f: &mut fmt::Formatter) -> fmt::Result {
        let mut debug = f.debug_struct("Punct");
        debug.field("char", &self.as_char()).field("spacing", &self.spacing());
        self.span().show(&mut debug);
        debug.finish()
    }
}
