// Made from crates/outline/src/tags.rt by dev/erase: change that file, not this one.
//! Writes lines and `tags` files.

use proved_tokens::shim::prelude::GrowText;

use proved_tokens::shim::io;
use proved_tokens::shim::io::Write;

/// Writes the lines, each with a line end.
pub fn print_all<W: Write>(lines: &[String], writer: &mut W) -> io::Result<()>
{
    for line in lines {
        writeln!(writer, "{line}")?;
    }
    Ok(())
}

/// Writes a `tags` file with these lines, sorted by their bytes.
pub fn print_tags<W: Write>(lines: &mut Vec<String>, writer: &mut W) -> io::Result<()>
{
    lines.sort_unstable();
    writer.write_all(b"!_TAG_FILE_SORTED\t1\t//\n")?;
    print_all(lines.as_slice(), writer)
}
