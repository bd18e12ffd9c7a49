#!/usr/bin/env python3
"""How many of rustfmt's lines the program `pretty` writes too.

    python3 bench/pretty.py FOLDER [--files N] [--seed N] [--program PROGRAM]
    python3 bench/pretty.py FOLDER --prepare TEXT       writes what the program is to read
    python3 bench/pretty.py FOLDER --compare PRETTY     compares what it wrote for it

Takes files of Rust below FOLDER at random. Of each, rustfmt formats the text without its plain comments; `pretty`
reads that and prints its tokens. Printed are the share of rustfmt's lines that stand in that order in the program's
text, and the files with the most lines that don't. Blank lines and those of doc comments don't count. All files go
through one run of the program, with a statement between two. PROGRAM is that of crates/pretty where it isn't given, or
`'FOLDER/tokens pretty'`, with the program of cargo/tokens.
"""
import argparse
import difflib
import pathlib
import random
import re
import subprocess
import sys

TOP = pathlib.Path(__file__).resolve().parent.parent
SMALLEST, LARGEST = 500, 40_000
BETWEEN = "next_file_{}!();"
PIECES = re.compile(
    r'''(?P<raw>\b(?:r|br|cr)(?P<hashes>\#*)".*?"(?P=hashes))'''
    r'''|(?P<string>(?:\b[bc])?"(?:\\.|[^"\\])*")'''
    r'''|(?P<character>'(?:\\(?:u\{[^}]*\}|x..|.)|[^\\'\n])')'''
    r'''|(?P<line>//[^\n]*)'''
    r'''|(?P<block>/\*)''', re.S)


def is_doc(comment):
    """Whether a comment documents something."""
    if comment.startswith(("//!", "/*!")):
        return True
    outer = comment.startswith("///") and not comment.startswith("////")
    return outer or comment.startswith("/**") and not comment.startswith(("/***", "/**/"))


def block_end(text, at):
    """Where the block comment ends that begins here."""
    depth = 0
    for found in re.compile(r"/\*|\*/").finditer(text, at):
        depth += 1 if found.group() == "/*" else -1
        if depth == 0:
            return found.end()
    return len(text)


def without_comments(text):
    """The text without the comments that document nothing."""
    out, at = [], 0
    while found := PIECES.search(text, at):
        end = block_end(text, found.start()) if found.group("block") else found.end()
        piece = text[found.start():end]
        comment = found.group("line") or found.group("block")
        out.append(text[at:found.start()])
        out.append(piece if not comment or is_doc(piece) else "")
        at = end
    return "\n".join(line.rstrip() for line in ("".join(out) + text[at:]).split("\n"))


def formatted(text, limit=None):
    """What rustfmt makes of the text, or nothing. After LIMIT seconds it is ended, by `subprocess.TimeoutExpired`."""
    run = subprocess.run(["rustfmt", "--edition", "2021", "--quiet"], input=text.encode(), capture_output=True,
                         timeout=limit)
    return run.stdout.decode() if run.returncode == 0 else ""


def references(folder, count, seed):
    """Files, each with its text as rustfmt formats it without plain comments."""
    files = sorted(path for path in pathlib.Path(folder).rglob("*.rs") if SMALLEST < path.stat().st_size < LARGEST)
    random.Random(seed).shuffle(files)
    found = []
    for path in files:
        if len(found) == count:
            break
        try:
            text = formatted(without_comments(path.read_text()))
        except UnicodeDecodeError:
            continue
        if text and not text.startswith("#!/"):
            found.append((path, text))
    return found


def lines_of(text):
    """The lines that count."""
    kept = (line.rstrip() for line in text.split("\n"))
    return [line for line in kept if line.strip() and not line.strip().startswith(("//", "#[doc =", "# ![doc ="))]


def compare(found, pretty):
    """Prints how many lines are the same."""
    texts = re.split(r"^next_file_\d+!\(\);\n", pretty, flags=re.M)[1:]
    if len(texts) != len(found):
        sys.exit(f"{len(found)} files, and {len(texts)} texts")
    total, same, worst = 0, 0, []
    for (path, text), other in zip(found, texts):
        wanted, got = lines_of(text), lines_of(other)
        blocks = difflib.SequenceMatcher(None, wanted, got, autojunk=False).get_matching_blocks()
        hits = sum(block.size for block in blocks)
        total, same = total + len(wanted), same + hits
        worst.append((len(wanted) - hits, len(wanted), path))
    print(f"{len(found)} files, {total} lines, {same} of them the same: {100 * same / total:.1f} %")
    for missing, lines, path in sorted(worst, reverse=True)[:8]:
        print(f"{missing:5} of {lines:5} differ: {path}")


def main():
    parser = argparse.ArgumentParser(description=__doc__.split("\n")[0])
    parser.add_argument("folder")
    parser.add_argument("--files", type=int, default=50)
    parser.add_argument("--seed", type=int, default=1)
    parser.add_argument("--program", default=str(TOP / "crates/pretty/out/pretty"))
    parser.add_argument("--prepare", type=pathlib.Path)
    parser.add_argument("--compare", type=pathlib.Path)
    asked = parser.parse_args()
    found = references(asked.folder, asked.files, asked.seed)
    source = "".join(BETWEEN.format(number) + "\n" + text for number, (_, text) in enumerate(found))
    if asked.prepare:
        asked.prepare.write_text(source)
    elif asked.compare:
        compare(found, asked.compare.read_text())
    else:
        run = subprocess.run(asked.program.split(), input=source.encode(), capture_output=True, check=True)
        compare(found, run.stdout.decode())


if __name__ == "__main__":
    main()
