//! What is said below the message of a fault.

use std::io::{Result, Write};

// How the message of a fault ends, but for its line feed.
const FAULT: &str = ": error: no token stands here, or a delimiter has no match";

/// A writer of messages, which adds a line to each that tells a fault: how to ask for its reason.
pub struct Hints<W> {
    inner: W,
    message: Vec<u8>,
}

impl<W: Write> Hints<W> {
    /// The writer over another.
    pub fn new(inner: W) -> Hints<W> {
        Hints { inner, message: Vec::new() }
    }
}

impl<W: Write> Write for Hints<W> {
    fn write(&mut self, bytes: &[u8]) -> Result<usize> {
        let written = self.inner.write(bytes)?;
        self.message.extend_from_slice(&bytes[..written]);
        if self.message.ends_with(b"\n") {
            let hint = String::from_utf8_lossy(&self.message).strip_suffix('\n').and_then(hint);
            self.message.clear();
            if let Some(hint) = hint {
                self.inner.write_all(hint.as_bytes())?;
            }
        }
        Ok(written)
    }

    fn flush(&mut self) -> Result<()> {
        self.inner.flush()
    }
}

// What is said below a message, if it tells a fault.
fn hint(message: &str) -> Option<String> {
    let (front, _column) = message.strip_suffix(FAULT)?.rsplit_once(':')?;
    let (path, _line) = front.rsplit_once(':')?;
    let file = if path == "-" { String::new() } else { format!(" {path}") };
    Some(format!("`tokens check{file}` says why\n"))
}

#[cfg(test)]
mod tests {
    use super::*;

    #[test]
    fn a_fault_alone_has_a_hint() -> Result<()> {
        let mut all = Vec::new();
        let mut hints = Hints::new(&mut all);
        for (path, what) in [("-", FAULT), ("a:1\n.rs", FAULT), ("b.rs", ": error: not expected here")] {
            writeln!(hints, "{path}:2:{}{what}", 1)?;
        }
        let wanted = format!(
            "-:2:1{FAULT}\n`tokens check` says why\na:1\n.rs:2:1{FAULT}\n`tokens check a:1\n.rs` says why\n\
             b.rs:2:1: error: not expected here\n"
        );
        assert_eq!(String::from_utf8_lossy(&all), wanted);
        Ok(())
    }
}
