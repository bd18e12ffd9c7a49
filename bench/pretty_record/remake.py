#!/usr/bin/env python3
"""Makes the record crates/pretty_printer_tests/stdout anew, of what to_pretty_string answers of the streams of stdin
beside it.

Usage: bench/pretty_record/remake.py [COMMIT]

It erases the sources of this checkout, builds the example `pretty_printer_tests` of cargo/proved-tokens over them and
over
those of COMMIT, HEAD if left out, and writes the record. It tells how many of the streams, those of this checkout,
moved since COMMIT, and shows ten of them before and after: put that into the message of the commit that changes the
record.

The record detects change and proves nothing right: read what moved.
"""
import os
import pathlib
import re
import subprocess
import sys
import tempfile

TOP = pathlib.Path(__file__).resolve().parents[2]
sys.dont_write_bytecode = True
sys.path.insert(0, str(TOP / "bench"))
from workspace import OLDER, place  # noqa: E402

CRATE = TOP / "crates/pretty_printer_tests"
SHOWN = 10


def built(package: pathlib.Path, target: pathlib.Path) -> pathlib.Path:
    """The example of this package, built below the folder."""
    words = ["cargo", "build", "--offline", "--quiet", "--release", "--features", "pretty_printer",
             "--example", "pretty_printer_tests"]
    subprocess.run(words, cwd=package, check=True, env={**os.environ, "CARGO_TARGET_DIR": str(target)})
    return target / "release/examples/pretty_printer_tests"


def answers(program: pathlib.Path, *words: str) -> str:
    """What the program writes of the streams."""
    with open(CRATE / "stdin", "rb") as streams:
        done = subprocess.run([program, *words], stdin=streams, stdout=subprocess.PIPE, check=True)
    return done.stdout.decode()


def rows(written: str) -> dict[str, str]:
    """The answer to each stream, by its number."""
    parts = re.split(r"^== (\d+)\b", written, flags=re.M)
    return dict(zip(parts[1::2], (part.strip() for part in parts[2::2])))


def main() -> None:
    if len(sys.argv) > 2 or sys.argv[1:2] in (["-h"], ["--help"]):
        sys.exit(__doc__)
    commit = sys.argv[1] if len(sys.argv) > 1 else "HEAD"
    subprocess.run([sys.executable, TOP / place("dev/erase")], check=True, stderr=subprocess.DEVNULL)
    with tempfile.TemporaryDirectory() as folder:
        room = pathlib.Path(folder)
        # A commit from before the folder cargo/ has the package where it was then.
        here = there = place("cargo/proved-tokens")
        if subprocess.run(["git", "cat-file", "-e", f"{commit}:{here}"], cwd=TOP, stderr=subprocess.DEVNULL).returncode:
            there = OLDER["cargo/proved-tokens"]
        archive = ["git", "archive", commit, f"{there}/src"]
        sources = subprocess.run(archive, cwd=TOP, stdout=subprocess.PIPE, check=True).stdout
        subprocess.run(["tar", "-x", "-C", room], input=sources, check=True)
        for name in ("Cargo.toml", "tests"):
            subprocess.run(["cp", "-r", TOP / here / name, room / there], check=True)
        now = built(TOP / here, room / "now")
        record, after = answers(now), rows(answers(now, "whole"))
        before = rows(answers(built(room / there, room / "then"), "whole"))
    (CRATE / "stdout").write_bytes(record.encode())
    moved = [number for number in after if before.get(number) != after[number]]
    print(f"{len(moved)} of {len(after)} streams moved since {commit}")
    for number in moved[:SHOWN]:
        print(f"\nStream {number}, before:\n{before.get(number, '')}\nafter:\n{after[number]}")


if __name__ == "__main__":
    main()
