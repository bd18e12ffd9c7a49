// Made from crates/pm_token/src/literals/negative.rt by dev/erase: change that file, not this one.
//! Splits a negative literal into its `-` and its number.

use crate::pm_token::literals::Literal;
use crate::pm_token::marks::{Punct, Spacing};

impl Literal {
    /// Splits a negative literal into its `-` and its number. Any other literal is returned whole.
    pub(crate) fn split_minus(self) -> (Option<Punct>, Literal)
    {
        let Literal { mut text, span } = self;
        if !text.strip_minus() {
            return (None, Literal { text, span });
        }
        let minus = Punct::from_parts('-', Spacing::Alone, span);
        (Some(minus), Literal { text, span })
    }
}
