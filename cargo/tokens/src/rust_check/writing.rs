// Made from crates/rust_check/src/writing.rt by dev/erase: change that file, not this one.
//! Writes a finding.

use proved_tokens::shim::prelude::format;

use crate::rust_check::colours::Colours;
use crate::rust_check::finding::{Finding, TextPosition};
use crate::rust_check::options::Form;
use crate::rust_check::shown::{shown_line, spaces, underline};
use crate::rust_check::text_position::{byte_count, first_line};
use crate::messages::json_escape;
use proved_tokens::shim::io;
use proved_tokens::shim::io::Write;

/// Writes a finding in the file at this path, in the given form.
pub fn write_message<W: Write>(
    form: Form,
    path: &str,
    finding: &Finding<'_>,
    writer: &mut W,
) -> io::Result<()>
{
    match form {
        Form::Short => write_short(path, finding, writer),
        Form::Long => write_long(Colours::none(), path, finding, writer),
        Form::Coloured => write_long(Colours::terminal(), path, finding, writer),
        Form::Json => write_json(path, finding, writer),
    }
}

/// Writes a finding in the file at this path on one line: as JSON if that is the form, else in the short form.
pub fn write_line<W: Write>(
    form: Form,
    path: &str,
    finding: &Finding<'_>,
    writer: &mut W,
) -> io::Result<()>
{
    match form {
        Form::Json => write_json(path, finding, writer),
        _ => write_short(path, finding, writer),
    }
}

/// Writes a finding on one line, as `FILE:L:C: error: what`. Line and column count from 1, and columns are characters.
fn write_short<W: Write>(path: &str, finding: &Finding<'_>, writer: &mut W) -> io::Result<()>
{
    let line = finding.place.line;
    // The column may be the largest `usize`, so the sum needs more bits.
    let column = finding.place.column as u128 + 1;
    let says = finding.says;
    writeln!(writer, "{path}:{line}:{column}: error: {says}")
}

/// Writes a finding with its line of the source and carets below that.
fn write_long<W: Write>(
    colours: Colours,
    path: &str,
    finding: &Finding<'_>,
    writer: &mut W,
) -> io::Result<()>
{
    write_headline(colours, finding, writer)?;
    write_excerpt(colours, path, finding, writer)
}

/// Writes the line that says what is wrong.
fn write_headline<W: Write>(
    colours: Colours,
    finding: &Finding<'_>,
    writer: &mut W,
) -> io::Result<()>
{
    let Colours {
        fault,
        strong,
        off,
        ..
    } = colours;
    let name = finding.name;
    let says = finding.says;
    writeln!(writer, "{fault}error[{name}]{off}{strong}: {says}{off}")
}

/// Writes where a finding is, its line of the source, and carets below that.
pub fn write_excerpt<W: Write>(
    colours: Colours,
    path: &str,
    finding: &Finding<'_>,
    writer: &mut W,
) -> io::Result<()>
{
    let Colours {
        fault,
        line,
        off,
        ..
    } = colours;
    let number = format!("{}", finding.place.line)?;
    // The column may be the largest `usize`, so the sum needs more bits.
    let column = finding.place.column as u128 + 1;
    let gutter = spaces(number.len())?;
    let source = shown_line(finding.front, first_line(finding.rest))?;
    let carets = underline(finding.front, first_line(finding.here))?;
    write!(
        writer,
        "{gutter}{line}-->{off} {path}:{number}:{column}\n{line}{gutter} |{off}\n\
         {line}{number} |{off} {source}\n{line}{gutter} |{off} {fault}{carets}{off}\n"
    )
}

/// Writes a finding as a JSON object on one line.
fn write_json<W: Write>(
    path: &str,
    finding: &Finding<'_>,
    writer: &mut W,
) -> io::Result<()>
{
    write_json_what(path, finding, writer)?;
    write_json_where(finding, writer)
}

/// Writes the first part of the JSON object: the file and what is wrong.
fn write_json_what<W: Write>(
    path: &str,
    finding: &Finding<'_>,
    writer: &mut W,
) -> io::Result<()>
{
    let file = json_escape(path)?;
    let name = finding.name;
    let says = json_escape(finding.says)?;
    write!(
        writer,
        "{{\"file\":\"{file}\",\"reason\":\"{name}\",\"message\":\"{says}\","
    )
}

/// Writes the second part of the JSON object: where the finding is.
fn write_json_where<W: Write>(finding: &Finding<'_>, writer: &mut W) -> io::Result<()>
{
    let TextPosition {
        line,
        column,
        begin,
    } = finding.place;
    // The sums may exceed a `usize`.
    let column = column as u128 + 1;
    let end = begin as u128 + byte_count(finding.here) as u128;
    write!(
        writer,
        "\"line\":{line},\"column\":{column},\"begin\":{begin},\"end\":{end}}}\n"
    )
}
