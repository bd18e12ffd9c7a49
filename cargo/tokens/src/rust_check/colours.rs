// Made from crates/rust_check/src/colours.rt by dev/erase: change that file, not this one.
//! The colours of a terminal.

/// The control sequences that set a terminal's colours, or empty texts instead.
#[derive(Clone, Copy)]
pub struct Colours {
    /// The colour of what is wrong.
    pub fault: &'static str,
    /// The style of the words about what is wrong.
    pub strong: &'static str,
    /// The colour of what surrounds the source, such as line numbers.
    pub line: &'static str,
    /// The end of a colour or style.
    pub off: &'static str,
}

impl Colours {
    /// Returns empty texts, for output without colours.
    pub fn none() -> Colours
    {
        Colours {
            fault: "",
            strong: "",
            line: "",
            off: "",
        }
    }

    /// Returns the sequences for red, bold and blue.
    pub fn terminal() -> Colours
    {
        Colours {
            fault: "\x1b[1;31m",
            strong: "\x1b[1m",
            line: "\x1b[1;34m",
            off: "\x1b[0m",
        }
    }
}
