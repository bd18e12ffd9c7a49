#!/usr/bin/env python3
"""Counts the instructions that it takes to lex, by kind of piece and on real sources.

Usage: bench/pieces.py [SOURCES]
Builds bench/pieces, a program that reads the pieces of its input as the parser does, in a copy beside crates/lexical,
proves it and runs it under callgrind. Prints a Markdown table of instructions a piece, white space after it included.
With SOURCES, a folder of Rust files, every seventh file by name is lexed too, and the instructions a byte are printed.
What it takes to read the input is left out: it is what the same input takes after a character that begins no piece.
"""
import pathlib
import shutil
import subprocess
import sys
import tempfile

TOP = pathlib.Path(__file__).resolve().parent.parent
PIECES = 2000
STRIDE = 7
NO_PIECE = b"`"
# The program's files, and their names in bench/pieces: the gate reads no source outside of crates.
FILES = {
    "src/main.rt": "main.rattle",
    "proofs/count/Answers.antt": "answers.rattle",
    "proofs/count/Invariants.antt": "invariants.rattle",
}
UNITS = {
    "`alpha` and a space": "alpha ",
    "`return` and a space": "return ",
    "`;`": ";",
    "`::`": "::",
    "`()`": "()",
    "`a` after 8 spaces": "        a",
    "`12` and a space": "12 ",
    "`1.5` and a space": "1.5 ",
    "`1u8` and a space": "1u8 ",
    "`'a` and a space": "'a ",
    "`'x'` and a space": "'x' ",
    "`'\\n'` and a space": "'\\n' ",
    '`"hello"` and a space': '"hello" ',
    '`"a\\n"` and a space': '"a\\n" ',
    "`//` and 38 characters": "// " + "x" * 37 + "\n",
    "`///` and 37 characters": "/// " + "x" * 36 + "\n",
    "`//!` and 37 characters": "//! " + "x" * 36 + "\n",
}


def build(room: pathlib.Path) -> pathlib.Path:
    """The program, built in a repository of its own in the room."""
    (room / "crates.txt").write_text("lexical: memchr unicode_ident\npieces: lexical\n")
    shutil.copytree(TOP / "crates/lexical", room / "crates/lexical", ignore=shutil.ignore_patterns("must-fail"))
    folder = room / "crates/pieces"
    for name, kept in FILES.items():
        (folder / name).parent.mkdir(parents=True, exist_ok=True)
        shutil.copy(TOP / "bench/pieces" / kept, folder / name)
    subprocess.run(["rt", "run"], cwd=folder, input=b"", check=True, stdout=subprocess.DEVNULL)
    return folder / "out/pieces"


def instructions(program: pathlib.Path, text: bytes) -> int:
    command = ["valgrind", "--tool=callgrind", "--callgrind-out-file=/dev/null", str(program)]
    run = subprocess.run(command, input=text, check=True, capture_output=True)
    return int(next(line for line in run.stderr.decode().splitlines() if "Collected" in line).split()[-1])


def lexing(program: pathlib.Path, text: bytes) -> int:
    """What it takes to lex the text, without reading it."""
    return instructions(program, text) - instructions(program, NO_PIECE + text)


def main() -> None:
    if len(sys.argv) > 2:
        sys.exit(__doc__)
    with tempfile.TemporaryDirectory() as room:
        program = build(pathlib.Path(room))
        print("Piece | instructions\n---|---:")
        for name, unit in UNITS.items():
            print(f"{name} | {lexing(program, (unit * PIECES).encode()) / PIECES:.0f}")
        if len(sys.argv) == 2:
            files = sorted(pathlib.Path(sys.argv[1]).rglob("*.rs"))[::STRIDE]
            text = b"\n".join(file.read_bytes() for file in files)
            print(f"\n{len(files)} files, {len(text)} bytes: {lexing(program, text) / len(text):.2f} a byte")


if __name__ == "__main__":
    main()
