#!/usr/bin/env python3
"""Feeds texts to three sides, and reports what they answer otherwise.

Usage: dev/fuzz.py --twin TWIN, and the words of bench/fuzz.py

The sides are `tokens` and `conformance` as cargo builds them of cargo/tokens and cargo/proved-tokens, the same programs
as Rattle built them, in crates/tokens/out and, if it is there, crates/conformance/out, or where `--tokens` and
`--conformance` say, and TWIN, over the Rust crate. bench/fuzz.py makes the texts and compares cargo's builds with the
twin: all that it says goes for this too. Besides, each answer of cargo's builds that isn't Rattle's, byte for byte, is
told as `builds differ`.
"""
import os
import pathlib
import subprocess
import sys
import tempfile

sys.dont_write_bytecode = True
TOP = pathlib.Path(__file__).resolve().parent.parent
sys.path.insert(0, str(TOP / "bench"))

import fuzz
from fuzzing import sides


class Builds(sides.Sides):
    """Cargo's builds and the twin, with Rattle's builds beside cargo's."""

    def __init__(self, erased: sides.Sides, built: sides.Sides):
        super().__init__(erased.tokens, erased.conformance, erased.twin)
        self.built, self.differing, self.compared = built, 0, 0

    def run_both(self, text: bytes) -> dict:
        ran = super().run_both(text)
        for word, (here, _) in ran.items():
            self.compare(here, self.run(self.built.tokens, word), f"{word} of {sides.short(text)}")
        return ran

    def compare_lines(self, lines: list[str], failed: list) -> tuple[list, list]:
        answers, differing = super().compare_lines(lines, failed)
        if self.built.has_lines():
            ran = [sides.run_on(program, [], answers) for program in (self.conformance, self.built.conformance)]
            self.compare(*ran, f"{len(answers)} lines, of which the first is {answers[:1]}")
        return answers, differing

    def compare(self, here: sides.Ran, there: sides.Ran, what: str) -> None:
        self.compared += 1
        if not here.is_same(there):
            self.differing += 1
            print(f"builds differ: {what}: cargo's {here}; Rattle's {there}", flush=True)


def erased(room: str) -> tuple[pathlib.Path, pathlib.Path]:
    """`tokens` and `conformance`, built by cargo in this folder."""
    build = ["cargo", "build", "--release", "--offline", "--quiet"]
    environment = {**os.environ, "CARGO_TARGET_DIR": room}
    subprocess.run([*build, "--bin", "tokens"], cwd=TOP / "cargo/tokens", env=environment, check=True)
    subprocess.run([*build, "--example", "conformance"], cwd=TOP / "cargo/proved-tokens", env=environment, check=True)
    return pathlib.Path(room, "release/tokens"), pathlib.Path(room, "release/examples/conformance")


def main() -> int:
    asked = fuzz.arguments()
    with tempfile.TemporaryDirectory() as room:
        here = sides.Sides(*erased(room), asked.twin)
        builds = Builds(here, sides.Sides(asked.tokens, asked.conformance, asked.twin))
        status = fuzz.run(asked, builds)
    print(f"{builds.compared:,} answers of both builds compared, {builds.differing} differ")
    return 1 if builds.differing else status


if __name__ == "__main__":
    sys.exit(main())
