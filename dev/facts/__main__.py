#!/usr/bin/env python3
"""The facts about characters that cargo/proved-tokens asks: tables made by asking the toolchain's proved crates.

    python3 dev/facts             writes cargo/proved-tokens/src/tables.rs and tables/characters.rs anew
    python3 dev/facts --check     compares them with what is there, and fails where one differs

The first has what every build asks, the second what only the feature `characters` does.

A small program over `unicode_ident`, `ucd_*`, `unicode_normalization` and `unicode_width` is proved and run, by
`rt run` in a temporary folder. It asks about every code point, and tells where an answer changes. No source of these
crates is read.
"""
import os
import pathlib
import subprocess
import sys
import tempfile
import textwrap

PACKAGE = pathlib.Path(__file__).resolve().parents[2] / 'cargo/proved-tokens/src'

PROGRAM = '''\
#![tactic(auto)]

use std::io;
use std::io::{BufWriter, Write};
use std::process::ExitCode;
use ucd_category::GeneralCategory;
use ucd_derived::is_default_ignorable_code_point;
use ucd_props::{is_bidi_control, is_join_control, is_variation_selector, is_white_space};
use ucd_script::Script;
use unicode_normalization::Form;
use unicode_normalization::char::{canonical_combining_class, compose, decomposition};
use unicode_width::UnicodeWidthChar;

// How many columns a character takes, and 3 where it has no width.
fn columns(c: char) -> usize {
    match c.width() {
        Some(width) => width,
        None => 3,
    }
}

// The weight of a property in the sum of those that a character has.
fn weight(has: bool, weight: u8) -> u8 {
    if has { weight } else { 0 }
}

fn properties(c: char) -> u8 {
    weight(is_bidi_control(c), 1)
        | weight(is_join_control(c), 2)
        | weight(is_default_ignorable_code_point(c), 4)
        | weight(is_variation_selector(c), 8)
        | weight(is_white_space(c), 16)
}

// The canonical decomposition of a character that has one, but of Hangul, and how it is composed.
fn write_decomposition<W: Write>(c: char, writer: &mut W) -> io::Result<()> {
    let mut room = [c; 3];
    let parts = decomposition(c, Form::Nfd, &mut room);
    if parts == [c].as_slice() || Script::for_char(c) == Script::Hangul {
        return Ok(());
    }
    write!(writer, "canonical {}", c as u32)?;
    let mut composed = None;
    let mut before = None;
    for part in parts {
        write!(writer, " {}", *part as u32)?;
        before = composed;
        composed = match composed {
            Some(front) => compose(front, *part),
            None => Some(*part),
        };
    }
    match (before, composed) {
        (Some(front), Some(whole)) if whole == c => writeln!(writer, " from {}", front as u32),
        _ => writeln!(writer, " from 0"),
    }
}

// The compatible decomposition of a character, where that isn't the canonical one.
fn write_compatible<W: Write>(c: char, writer: &mut W) -> io::Result<()> {
    let mut room = [c; 3];
    let mut wide = [c; 3];
    let parts = decomposition(c, Form::Nfkd, &mut wide);
    if parts == decomposition(c, Form::Nfd, &mut room) {
        return Ok(());
    }
    write!(writer, "compatible {}", c as u32)?;
    for part in parts {
        write!(writer, " {}", *part as u32)?;
    }
    writeln!(writer)
}

fn main(rt: HostRuntime) -> io::Result<ExitCode> {
    let mut writer = BufWriter::new(rt.alloc(), rt.stdout())?;
    writeln!(writer, "version {:?}", unicode_ident::UNICODE_VERSION)?;
    let mut before = (false, false, GeneralCategory::Surrogate, 3, 0, Script::Unknown, 0);
    for code in 0..0x11_0000u32 {
        let facts = match char::from_u32(code) {
            Some(c) => (
                unicode_ident::is_xid_start(c),
                unicode_ident::is_xid_continue(c),
                GeneralCategory::for_char(c),
                columns(c),
                properties(c),
                Script::for_char(c),
                canonical_combining_class(c),
            ),
            None => (false, false, GeneralCategory::Surrogate, 3, 0, Script::Unknown, 0),
        };
        if facts != before {
            let (starts, continues, category, columns, properties, script, class) = facts;
            writeln!(
                writer,
                "{code} {starts} {continues} {category:?} {columns} {properties} {script:?} {class}"
            )?;
            before = facts;
        }
        if let Some(c) = char::from_u32(code) {
            write_decomposition(c, &mut writer)?;
            write_compatible(c, &mut writer)?;
        }
    }
    writer.flush()?;
    Ok(ExitCode::SUCCESS)
}
'''

# The categories that `pm_token` asks about, by the rule `hidden`. All others are one.
ASKED = ['NonspacingMark', 'EnclosingMark', 'SpaceSeparator', 'LineSeparator', 'ParagraphSeparator', 'Control',
         'Format', 'PrivateUse', 'Unassigned']

# The scripts that `rust_check` asks about, by name. All others are apart.
SCRIPTS = ['Common', 'Inherited', 'Unknown', 'Han', 'Hiragana', 'Katakana', 'Hangul', 'Bopomofo']

END = 0x110000


def answers():
    """The version of Unicode, for each code point where an answer changes it and the answers, and for each
    that has a canonical decomposition it, that, and what is composed with its last character to it, or 0; and for
    each whose compatible decomposition is another it and that."""
    with tempfile.TemporaryDirectory() as room:
        crate = pathlib.Path(room, 'crates/ask')
        (crate / 'src').mkdir(parents=True)
        (crate / 'src/main.rt').write_text(PROGRAM)
        below = ('ucd_category ucd_derived ucd_props ucd_script unicode_ident unicode_normalization '
                 'unicode_width')
        pathlib.Path(room, 'crates.txt').write_text(f'ask: {below}\n')
        pathlib.Path(room, 'HANDLES').write_text('Handles allowed: none.\n')
        run = subprocess.run(['rt', 'run'], cwd=crate, capture_output=True, text=True, env=os.environ, check=False)
        if run.returncode != 0:
            sys.exit(run.stderr + 'the program that asks the proved crates was not run')
    version, *lines = run.stdout.splitlines()
    rows = [line.split(' ') for line in lines]
    facts = [
        (int(code), starts == 'true', continues == 'true', category, int(columns), int(properties), script, int(rank))
        for code, starts, continues, category, columns, properties, script, rank in
        (row for row in rows if row[0] not in ('canonical', 'compatible'))
    ]
    canonical = [tuple(int(it) for it in row[1:] if it != 'from') for row in rows if row[0] == 'canonical']
    compatible = [tuple(int(it) for it in row[1:]) for row in rows if row[0] == 'compatible']
    return version.split(' ', 1)[1], facts, canonical, compatible


def ranges(rows, column):
    """The inclusive ranges of code points for which a column is so, in order."""
    out = []
    for row, code_after in zip(rows, [row[0] for row in rows[1:]] + [END]):
        if row[column] and out and out[-1][1] == row[0] - 1:
            out[-1] = (out[-1][0], code_after - 1)
        elif row[column]:
            out.append((row[0], code_after - 1))
    return out


def runs(pairs):
    """Where the number in pairs of a code point and a number changes."""
    out = []
    for code, number in pairs:
        if not out or out[-1][1] != number:
            out.append((code, number))
    return out


def number_of(category):
    """The number of a category among those that are asked."""
    return ASKED.index(category) if category in ASKED else len(ASKED)


def table(doc, name, kind, rows):
    """The text of a table of rows, as many on a line as fit in 120 columns. A row that doesn't fit alone is broken."""
    texts = [text_of(row) for row in rows]
    written = ', '.join(it if len(it) > 114 else it.replace(' ', '\N{NO-BREAK SPACE}') for it in texts)
    lines = textwrap.fill(written, 116, break_long_words=False).replace('\N{NO-BREAK SPACE}', ' ')
    return (f'/// {doc}\n#[rustfmt::skip]\npub(crate) static {name}: [{kind}; {len(rows)}] = [\n'
            + textwrap.indent(lines, '    ') + ',\n];\n')


def text_of(value):
    """A value as Rust has it: a number, a tuple or a slice."""
    if isinstance(value, int):
        return f'{value:#x}'
    inside = ', '.join(text_of(it) for it in value)
    return f'({inside})' if isinstance(value, tuple) else f'&[{inside}]'


def tables():
    """The files of tables: from the path of each to its text."""
    version, rows, canonical, compatible = answers()
    scripts = SCRIPTS + sorted({row[6] for row in rows} - {*SCRIPTS})
    version = '.'.join(part.strip(' ()') for part in version.split(','))
    head = f'''// Made by dev/facts, which asks the proved crates about every code point: change nothing here.
//! Facts about characters, by Unicode {version}. LICENSE-UNICODE is the license of the data that they come from.
'''
    always = [
        '#[cfg(feature = "characters")]\npub(crate) mod characters;\n',
        table('What may begin an identifier: ranges, their ends included, in order.', 'IDENTIFIER_START', '(u32, u32)',
              ranges(rows, 1)),
        table('What an identifier may go on with: ranges, their ends included, in order.', 'IDENTIFIER_CONTINUE',
              '(u32, u32)', ranges(rows, 2)),
        table('Where the category changes, in order: from which code point on, and its number in `CATEGORIES`.',
              'CATEGORY_RUNS', '(u32, u8)', runs((row[0], number_of(row[3])) for row in rows)),
    ]
    more = [
        table('Where the width changes, in order: from which code point on, and how many columns, or 3 for no width.',
              'WIDTH_RUNS', '(u32, u8)', runs((row[0], row[4]) for row in rows)),
        table('Where the properties of `ucd_props` and `ucd_derived` change: from which code point on, and their sum.',
              'PROPERTY_RUNS', '(u32, u8)', runs((row[0], row[5]) for row in rows)),
        table('Where the script changes: from which code point on, and its number, first those that have a name here.',
              'SCRIPT_RUNS', '(u32, u8)', runs((row[0], scripts.index(row[6])) for row in rows)),
        table('Where the canonical combining class changes: from which code point on, and the class.',
              'CLASS_RUNS', '(u32, u8)', runs((row[0], row[7]) for row in rows)),
        table('What decomposes canonically, but Hangul: it, what its last part is composed with, or 0, and its parts.',
              'CANONICAL', '(u32, u32, &[u32])', [(row[0], row[-1], list(row[1:-1])) for row in canonical]),
        table('What decomposes compatibly and otherwise than canonically: it and its parts.', 'COMPATIBLE',
              '(u32, &[u32])', [(row[0], list(row[1:])) for row in compatible]),
    ]
    return {PACKAGE / 'tables.rs': '\n'.join([head, *always]),
            PACKAGE / 'tables/characters.rs': '\n'.join([head, *more])}


def main():
    if sys.argv[1:] not in ([], ['--check']):
        sys.exit(__doc__)
    files = tables()
    if sys.argv[1:]:
        differing = [str(path) for path, text in files.items() if path.read_text() != text]
        sys.exit(f'{", ".join(differing)}: not what the proved crates answer: run dev/facts' if differing else 0)
    for path, text in files.items():
        path.write_text(text)


main()
