#!/usr/bin/env python3
"""How many lines of pretty texts rustfmt leaves as they are.

Usage: bench/pretty_fair.py PROGRAM FOLDER.. [--files N] [--beside PROGRAM]

Each FOLDER is a package. Of each the N files of 2 to 40 KB with the least digests of their names are taken (all if N is
left out). rustfmt formats the text of each without plain comments. PROGRAM is given that on standard input and prints a
pretty text, as `'FOLDER/tokens pretty'` does. rustfmt formats the pretty text, with its default configuration and
edition 2021. Bodies of macros that rustfmt leaves alone count as they are. Blank lines, doc comments, and files that
PROGRAM or rustfmt rejects do not count. A text that rustfmt does not finish in 20 seconds is named and counted apart.

A line is met if it stands in that order in what rustfmt makes of the text, where a comma at its end does not count, and
where the imports that follow one another may be in any order. Printed are the share of lines that are met and the share
that only this makes so, the share of texts all of whose lines are met, the share that `cargo fmt --check` accepts but
for order and commas (blank lines and doc comments count there), and the numbers of lines over 100 columns. With
--beside the same files are given to another program.
"""
import argparse
import difflib
import hashlib
import pathlib
import re
import subprocess
import sys

sys.dont_write_bytecode = True
from pretty import formatted, lines_of, without_comments  # noqa: E402

SMALLEST, LARGEST = 2_000, 40_000
LIMIT = 20
IMPORT = re.compile(r"\s*(pub(\([^)]*\))? )?(use|mod|extern crate) [^{]*({[^{]*)?$|\s*(pub(\([^)]*\))? )?use ")


def sources(folder: str, count: int) -> list[pathlib.Path]:
    """The files of a package that are taken."""
    found = [path for path in pathlib.Path(folder).rglob("*.rs")
             if path.is_file() and SMALLEST <= path.stat().st_size <= LARGEST]
    found.sort(key=lambda path: hashlib.sha256(str(path.relative_to(folder)).encode()).hexdigest())
    return found[:count]


def met_form(lines: list[str]) -> list[str]:
    """The lines without commas at their ends, and with each run of imports in one order."""
    out, run, at = [], [], 0
    while at < len(lines):
        past = at + 1
        if not IMPORT.match(lines[at]) or lines[at].rstrip().endswith("{") and " use " not in f" {lines[at]}":
            out += [line for _, block in sorted(run) for line in block]
            out.append(lines[at].rstrip(","))
            run, at = [], past
            continue
        while past < len(lines) and not lines[past - 1].endswith(";"):
            past += 1
        words = " ".join(sorted(re.findall(r"\w+|[*]", " ".join(lines[at:past]))))
        run.append((words, [f"{words} {number}" for number in range(past - at)]))
        at = past
    return out + [line for _, block in sorted(run) for line in block]


def hits(one: list[str], other: list[str]) -> int:
    """How many lines stand in that order in both."""
    blocks = difflib.SequenceMatcher(None, one, other, autojunk=False).get_matching_blocks()
    return sum(block.size for block in blocks)


def finished(text: str, path: pathlib.Path, slow: list[pathlib.Path]) -> str:
    """What rustfmt makes of the text, or nothing; the path is added to `slow` if rustfmt takes too long."""
    try:
        return formatted(text, LIMIT)
    except subprocess.TimeoutExpired:
        slow.append(path)
        return ""


def measure(program: str, files: list[tuple[pathlib.Path, str]], worst: int) -> None:
    """Prints the figures of a program."""
    rows, rejected, slow, accepted = [], [], [], 0
    for path, text in files:
        ran = subprocess.run(program.split(), input=text.encode(), capture_output=True)
        ours = ran.stdout.decode() if ran.returncode == 0 else ""
        theirs = finished(ours, path, slow) if ours else ""
        if not theirs:
            rejected += [path] if path not in slow else []
            continue
        accepted += met_form(ours.split("\n")) == met_form(theirs.split("\n"))
        one, other = lines_of(ours), lines_of(theirs)
        here, there = met_form(one), met_form(other)
        over = [sum(len(line) > 100 for line in lines) for lines in (one, other)]
        most = max(len(one), len(other))
        met = most if here == there else hits(here, there)
        rows.append((most - met, most, most if one == other else hits(one, other), *over, path))
    lines = sum(row[1] for row in rows)
    met, same = lines - sum(row[0] for row in rows), sum(row[2] for row in rows)
    whole = sum(row[0] == 0 for row in rows)
    print(f"{program}: {len(rows)} files, {len(rejected)} rejected, {len(slow)} not finished, {lines} lines")
    print(f"  met {met / lines:.4f}, of which by order and commas alone {(met - same) / lines:.4f}")
    print(f"  texts all met {whole / len(rows):.3f}, accepted {accepted / len(rows):.3f}")
    print(f"  lines over 100 columns {sum(row[3] for row in rows)}, after rustfmt {sum(row[4] for row in rows)}")
    for missing, of, *_, path in sorted(rows, key=lambda row: -row[0])[:worst]:
        print(f"  {missing:5} of {of:5} differ: {path}")
    for kind, paths in ("rejected", rejected), ("not finished", slow):
        for path in paths:
            print(f"  {kind}: {path}")
    sys.stdout.flush()


def main() -> None:
    parser = argparse.ArgumentParser(description=__doc__, formatter_class=argparse.RawDescriptionHelpFormatter)
    parser.add_argument("program")
    parser.add_argument("folders", nargs="+")
    parser.add_argument("--files", type=int)
    parser.add_argument("--beside", action="append", default=[])
    parser.add_argument("--worst", type=int, default=0, help="prints so many files with the most lines that differ")
    words = parser.parse_args()
    paths = [path for folder in words.folders for path in sources(folder, words.files)]
    slow: list[pathlib.Path] = []
    files = [(path, finished(without_comments(path.read_text(errors="replace")), path, slow)) for path in paths]
    print(f"{len(words.folders)} packages, {len(files)} files, of which rustfmt rejects or does not finish those named")
    for path, text in files:
        if not text:
            print(f"  {'not finished' if path in slow else 'rejected'} as it is written: {path}")
    files = [(path, text) for path, text in files if text]
    for program in [words.program, *words.beside]:
        measure(program, files, words.worst)


if __name__ == "__main__":
    main()
