#!/usr/bin/env python3
"""Compares the lexer with the plain one of its tests on the recorded texts.

Usage: bench/lexers.py [SOURCES]
Builds crates/lexical_tests and runs it on the texts of crates/conformance/stdin. With SOURCES, a folder of Rust files,
their lines of at most 160 characters are texts too. Names each text on which the two lexers differ, and prints the
numbers. The status is 0 only where there is none.
"""
import pathlib
import subprocess
import sys

sys.dont_write_bytecode = True
HERE = pathlib.Path(__file__).resolve().parent
TOP = HERE.parent
sys.path.insert(0, str(HERE / "fuzzing"))
from sides import escaped, unescaped  # noqa: E402

LONGEST_LINE = 160


def recorded() -> set[str]:
    """The texts of the recorded answers."""
    lines = (TOP / "crates/conformance/stdin").read_text().split("\n")[:-1]
    return {unescaped(line.split("\t")[1]) for line in lines}


def lines_below(folder: pathlib.Path) -> set[str]:
    """The lines of the folder's files that aren't too long."""
    texts = (file.read_bytes().decode(errors="ignore") for file in folder.rglob("*.rs"))
    return {line.strip() for text in texts for line in text.split("\n") if len(line) <= LONGEST_LINE}


def content(text: str) -> str:
    """The text as the content of a string literal, in one line."""
    return escaped(text).replace('"', '\\"') + "\n"


def build() -> str:
    folder = TOP / "crates/lexical_tests"
    subprocess.run(["rt", "run"], cwd=folder, input=b"a\n", check=True, stdout=subprocess.DEVNULL)
    return str(folder / "out/lexical_tests")


def main() -> None:
    if len(sys.argv) > 2:
        sys.exit(__doc__)
    texts = recorded()
    if len(sys.argv) == 2:
        texts |= lines_below(pathlib.Path(sys.argv[1]))
    sys.exit(subprocess.run([build()], input="".join(map(content, sorted(texts))).encode()).returncode)


if __name__ == "__main__":
    main()
