#!/usr/bin/env python3
"""How many lines of pretty texts from syn's tokens differ from rustfmt's.

Usage: bench/pretty_syn.py PROGRAM FOLDER.. [--files N] [--worst N]

PROGRAM is that of the package pretty_syn. The files are those of pretty_fair.py. rustfmt formats the text of each
without plain comments, until that changes nothing, five times at most. syn reads what comes out, and its tokens are
printed by this library and, beside it, by prettyplease. A line is met if it stands in that order in rustfmt's text.
Printed are the lines that are not met, as a share of all lines of the longer text. Blank lines, doc comments, and files
that rustfmt, syn or one of the printers rejects do not count. Met in the second column is also a line that only the
order of imports or a comma at its end makes differ. Met in the third column is also each line of a macro's body that
rustfmt leaves alone: the body has other lines in the text than in rustfmt's, and rustfmt changes neither.
"""
import argparse
import pathlib
import re
import subprocess
import sys

sys.dont_write_bytecode = True
from pretty import PIECES, block_end, lines_of, without_comments  # noqa: E402
from pretty_fair import finished, hits, met_form, sources  # noqa: E402

PRINTERS = ("ours", "prettyplease")
CALL = re.compile(r"\b(?!(?:if|in|match|return|while)\b)[A-Za-z_]\w*\s*!\s*(?:[A-Za-z_]\w*\s*)?(?=[(\[{])")
CLOSERS = {")": "(", "]": "[", "}": "{"}


def settled(path: pathlib.Path, slow: list[pathlib.Path]) -> str:
    """What rustfmt makes of the file's text without plain comments, formatted until that changes nothing."""
    text = finished(without_comments(path.read_text(errors="replace")), path, slow)
    for _ in range(4):
        again = finished(text, path, slow) if text else ""
        if again == text:
            break
        text = again
    return text


def printed(program: str, how: str, text: str) -> str:
    """The pretty text by one of the printers, or nothing."""
    run = subprocess.run([program, how], input=text.encode(), capture_output=True)
    return run.stdout.decode() if run.returncode == 0 else ""


def off(wanted: list[str], got: list[str]) -> int:
    """How many lines are not met."""
    return 0 if wanted == got else max(len(wanted), len(got)) - hits(wanted, got)


def masked(text: str) -> str:
    """The text with a letter for each character of a literal or comment, which may contain delimiters."""
    out, at = [], 0
    while found := PIECES.search(text, at):
        end = block_end(text, found.start()) if found.group("block") else found.end()
        out += [text[at:found.start()], "x" * (end - found.start())]
        at = end
    return "".join(out) + text[at:]


def bodies(text: str) -> list[tuple[int, int]]:
    """Where the bodies of macro calls begin and end, without their delimiters, in the order in which they begin."""
    code = masked(text)
    openers = {found.end() for found in CALL.finditer(code)}
    found, open_groups = [], []
    for at, character in enumerate(code):
        if character in "([{":
            open_groups.append(at)
        elif character in CLOSERS and open_groups:
            opener = open_groups.pop()
            if opener in openers:
                found.append((opener + 1, at))
    return sorted(found)


def without_kept_bodies(wanted: str, got: str, again: str) -> tuple[str, str]:
    """Both texts without the macro bodies that differ and that rustfmt leaves alone. It makes `again` of `got`."""
    texts = (wanted, got, again)
    places = [bodies(text) for text in texts]
    if len({len(found) for found in places}) > 1:
        return wanted, got
    out, past = ([], []), [0, 0]
    for spots in zip(*places):
        here, there, after = (text[start:end] for text, (start, end) in zip(texts, spots))
        is_kept = [line.strip() for line in there.split("\n")] == [line.strip() for line in after.split("\n")]
        if spots[0][0] < past[0] or here in (there, after) or not is_kept:
            continue
        for number in range(2):
            out[number].append(texts[number][past[number]:spots[number][0]])
            past[number] = spots[number][1]
    return "".join(out[0]) + wanted[past[0]:], "".join(out[1]) + got[past[1]:]


def figures(wanted: str, got: str, path: pathlib.Path, slow: list[pathlib.Path]) -> tuple[int, int, int, int]:
    """How many lines are not met in each of the three columns, and the lines of the longer text."""
    one, other = lines_of(wanted), lines_of(got)
    kept = map(lines_of, without_kept_bodies(wanted, got, finished(got, path, slow)))
    free = off(*map(met_form, kept))
    return off(one, other), off(met_form(one), met_form(other)), free, max(len(one), len(other))


def main() -> None:
    parser = argparse.ArgumentParser(description=__doc__, formatter_class=argparse.RawDescriptionHelpFormatter)
    parser.add_argument("program")
    parser.add_argument("folders", nargs="+")
    parser.add_argument("--files", type=int)
    parser.add_argument("--worst", type=int, default=0, help="prints so many files with the most lines that differ")
    words = parser.parse_args()
    slow: list[pathlib.Path] = []
    left_out, rows = [], []
    for path in (path for folder in words.folders for path in sources(folder, words.files)):
        text = settled(path, slow)
        texts = [printed(words.program, how, text) if text else "" for how in PRINTERS]
        if not all(texts):
            left_out.append(path)
            continue
        rows.append((path, [figures(text, other, path, slow) for other in texts]))
    print(f"{len(words.folders)} packages, {len(rows)} files, {len(left_out)} left out, {len(slow)} not finished")
    for number, how in enumerate(PRINTERS):
        plain, free, kept, lines = (sum(row[1][number][column] for row in rows) for column in range(4))
        print(f"  {how}: {lines} lines, off {plain / lines:.4f}, but for order and commas {free / lines:.4f}, "
              f"and for macro bodies {kept / lines:.4f}")
    for path, row in sorted(rows, key=lambda row: -row[1][0][0])[:words.worst]:
        print(f"  {row[0][0]:5} of {row[0][3]:5} differ: {path}")
    for path in left_out:
        print(f"  left out: {path}")


if __name__ == "__main__":
    main()
