//! Rust's `Error` for the library's errors, each with the error that it holds.
use crate::literal_escaper::EscapeError;
use crate::pm_token::{ConversionErrorKind, IdentError, LexError, ParseError};
use core::error::Error;

/// Gives `Error` to types, with the errors that some of their cases hold.
macro_rules! errors {
    ($($(#[$attribute:meta])* $name:path $({ $($case:ident)* })?;)*) => {
        $(
            $(#[$attribute])*
            impl Error for $name {
                #[inline]
                fn source(&self) -> Option<&(dyn Error + 'static)> {
                    $(
                        use $name as Of;
                        match self {
                            $(Of::$case(error) => return Some(error),)*
                            #[allow(unreachable_patterns)]
                            _ => {}
                        }
                    )?
                    None
                }
            }
        )*
    };
}

errors! {
    EscapeError;
    LexError;
    IdentError { Memory };
    ParseError { Lex Memory };
    ConversionErrorKind { FailedToUnescape Memory };
    #[cfg(feature = "token_buffer")]
    crate::token_buffer::BufferError { Parse };
    #[cfg(feature = "quoting")]
    crate::quoting::QuoteError { Memory };
    #[cfg(feature = "quoting")]
    crate::quoting::TemplateError { Parse Memory };
    #[cfg(feature = "explain")]
    crate::explain::ExplainError { Memory };
    #[cfg(feature = "layout")]
    crate::layout::LayoutError { Memory Write };
    #[cfg(feature = "relayout")]
    crate::relayout::RelayoutError { Memory };
    #[cfg(feature = "declarations")]
    crate::declarations::Fault;
    #[cfg(feature = "declarations")]
    crate::declarations::EntryError<'_>;
    #[cfg(feature = "item_headers")]
    crate::item_headers::HeaderError { Fault Keyword Quote };
}
