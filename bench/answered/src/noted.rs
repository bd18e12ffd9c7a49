//! A digest of all answers.
use std::fmt::{Debug, Display, Write};
use workloads::digest::Digest;

/// What was answered, in order.
pub struct Noted {
    digest: Digest,
    text: String,
}

impl Noted {
    pub fn new() -> Noted {
        Noted { digest: Digest::new(), text: String::new() }
    }

    pub fn number(&mut self, number: usize) {
        self.digest.number(number as u64);
    }

    pub fn flag(&mut self, flag: bool) {
        self.digest.number(u64::from(flag));
    }

    pub fn text(&mut self, text: &str) {
        self.digest.text(text);
        self.digest.number(text.len() as u64);
    }

    /// Notes how Debug shows a value.
    pub fn shown(&mut self, value: &impl Debug) {
        self.formatted(format_args!("{value:?}"));
    }

    /// Notes how Display prints a value.
    pub fn printed(&mut self, value: &impl Display) {
        self.formatted(format_args!("{value}"));
    }

    fn formatted(&mut self, arguments: std::fmt::Arguments<'_>) {
        self.text.clear();
        self.text.write_fmt(arguments).expect("a text takes all that is written");
        self.digest.text(&self.text);
        self.digest.number(self.text.len() as u64);
    }

    pub fn value(&self) -> u64 {
        self.digest.value()
    }
}
