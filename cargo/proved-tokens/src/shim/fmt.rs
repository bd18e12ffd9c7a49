//! Printing. `Debug` is Rust's; `Display` is generic over its writer, and a macro gives Rust's by it.

pub use core::fmt::{Debug, Error, Result, Write};

/// A writer to which a value is printed. Contract: what it writes, it writes to the writer below it.
pub struct Formatter<W> {
    out: W,
}

impl<W: Write> Formatter<W> {
    /// Prints to this writer.
    #[inline(always)]
    pub fn new(out: W) -> Formatter<W> {
        Formatter { out }
    }

    /// Contract: writes the text, or answers the writer's error.
    #[inline(always)]
    pub fn write_str(&mut self, text: &str) -> Result {
        self.out.write_str(text)
    }

    /// Contract: writes the character, or answers the writer's error.
    #[inline(always)]
    pub fn write_char(&mut self, c: char) -> Result {
        self.out.write_char(c)
    }

    /// Contract: writes the arguments of `write!`, or answers the writer's error.
    #[inline]
    pub fn write_fmt(&mut self, arguments: core::fmt::Arguments<'_>) -> Result {
        self.out.write_fmt(arguments)
    }
}

/// A value that is printed. The contract of an `impl` says which text. Rust's prints the same.
pub trait Display: core::fmt::Display {
    /// Prints the value.
    fn fmt<W: Write>(&self, f: &mut Formatter<W>) -> Result;
}

/// Contract: prints the text itself.
impl Display for &str {
    fn fmt<W: Write>(&self, f: &mut Formatter<W>) -> Result {
        f.write_str(self)
    }
}

/// Prints a value to a writer without a call behind a pointer for each piece of text.
#[inline]
pub fn print<T: Display, W: Write>(value: &T, out: &mut W) -> Result {
    Display::fmt(value, &mut Formatter::new(out))
}

/// Prints a value to a writer, which is handed over and given back.
#[inline]
pub fn print_to<T: Display, W: Write>(value: &T, out: W) -> core::result::Result<W, Error> {
    let mut f = Formatter::new(out);
    Display::fmt(value, &mut f)?;
    Ok(f.out)
}

/// How many bytes are gathered between two calls of Rust's formatter, each of which goes through a pointer.
const CHUNK: usize = 128;

/// A writer that gathers what is written, so that Rust's formatter is called once for many tokens. It never passes on
/// an empty text.
struct Chunks<'a, 'b> {
    out: &'a mut core::fmt::Formatter<'b>,
    bytes: &'a mut [u8; CHUNK],
    used: usize,
}

impl Chunks<'_, '_> {
    fn flush(&mut self) -> Result {
        let used = core::mem::take(&mut self.used);
        if used == 0 {
            return Ok(());
        }
        self.out.write_str(core::str::from_utf8(&self.bytes[..used]).expect("whole texts were put in"))
    }

    /// Writes a text for which too little room is left. What was gathered is written first. Then the text is gathered
    /// or, if it is longer than a chunk, written at once.
    #[cold]
    #[inline(never)]
    fn write_past_room(&mut self, text: &str) -> Result {
        self.flush()?;
        let Some(room) = self.bytes.get_mut(..text.len()) else {
            return self.out.write_str(text);
        };
        room.copy_from_slice(text.as_bytes());
        self.used = text.len();
        Ok(())
    }
}

impl Write for Chunks<'_, '_> {
    #[inline(always)]
    fn write_str(&mut self, text: &str) -> Result {
        let Some(room) = self.bytes.get_mut(self.used..self.used + text.len()) else {
            return self.write_past_room(text);
        };
        // Most texts are a mark or a space, for which a call that copies costs most of the time.
        match (room, text.as_bytes()) {
            ([to], [byte]) => *to = *byte,
            (room, bytes) => room.copy_from_slice(bytes),
        }
        self.used += text.len();
        Ok(())
    }
}

/// Prints a value of many tokens by Rust's formatter, in chunks.
pub fn print_in_chunks<T: Display>(value: &T, out: &mut core::fmt::Formatter<'_>) -> Result {
    print_to(value, Chunks { out, bytes: &mut [0; CHUNK], used: 0 })?.flush()
}

/// Gives Rust's `Display` to a type that has Rattle's. It may have one lifetime. What may be many tokens is printed in
/// chunks; a token alone is written at once.
#[doc(hidden)]
#[macro_export]
macro_rules! display_by_shim {
    (TokenStream) => {
        $crate::display_by_shim!(TokenStream, |stream, f| match stream.trees() {
            [tree] => ::core::fmt::Display::fmt(tree, f),
            _ => $crate::shim::fmt::print_in_chunks(stream, f),
        });
    };
    (TokenTree) => {
        $crate::display_by_shim!(TokenTree, |tree, f| match tree {
            TokenTree::Group(group) => ::core::fmt::Display::fmt(group, f),
            TokenTree::Ident(ident) => ::core::fmt::Display::fmt(ident, f),
            TokenTree::Punct(punct) => ::core::fmt::Display::fmt(punct, f),
            TokenTree::Literal(literal) => ::core::fmt::Display::fmt(literal, f),
        });
    };
    (Group) => { $crate::display_by_shim!(Group, |group, f| $crate::shim::fmt::print_in_chunks(group, f)); };
    (Cursor<'a>) => {
        $crate::display_by_shim!(Cursor<'a>, |cursor, f| $crate::shim::fmt::print_in_chunks(cursor, f));
    };
    ($name:ident $(<$lifetime:lifetime>)?) => {
        $crate::display_by_shim!($name $(<$lifetime>)?, |value, f| $crate::shim::fmt::print(value, f));
    };
    ($name:ident $(<$lifetime:lifetime>)?, |$value:ident, $f:ident| $print:expr) => {
        impl $(<$lifetime>)? ::core::fmt::Display for $name $(<$lifetime>)? {
            #[inline]
            fn fmt(&self, $f: &mut ::core::fmt::Formatter<'_>) -> ::core::fmt::Result {
                let $value = self;
                $print
            }
        }
    };
}

#[cfg(test)]
mod tests {
    use super::*;

    struct Pair(u8, u8);

    impl Display for Pair {
        fn fmt<W: Write>(&self, f: &mut Formatter<W>) -> Result {
            f.write_str("pair ")?;
            write!(f, "{}/{}", self.0, self.1)
        }
    }

    crate::shim::display!(Pair);

    #[test]
    fn both_ways_print_the_same() {
        let mut text = String::new();
        assert!(print(&Pair(1, 2), &mut text).is_ok());
        assert_eq!((text.as_str(), Pair(1, 2).to_string().as_str()), ("pair 1/2", "pair 1/2"));
        assert!(print(&"!", &mut text).is_ok());
        assert_eq!(text, "pair 1/2!");
    }

    #[test]
    fn an_error_of_the_writer_is_answered() {
        struct Full;
        impl Write for Full {
            fn write_str(&mut self, _: &str) -> Result {
                Err(Error)
            }
        }
        assert_eq!(print(&Pair(1, 2), &mut Full), Err(Error));
    }
}
