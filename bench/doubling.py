#!/usr/bin/env python3
"""Counts the instructions of each command of `tokens` and of each call on texts of each shape, and on texts twice as
long.

Usage: bench/doubling.py [--named] [--jobs N] [--size BYTES] [--only NAME..]

The programs are the commands of `tokens`, of cargo/tokens, the calls those of the program in bench/doubling, over
cargo/proved-tokens: both as Cargo builds them, into CARGO_TARGET_DIR where that is set. bench/doubling/shapes.py has
the shapes. `--named` takes the named shapes alone, on `pretty`, `outline` and eleven calls; `--only` takes the commands
and calls of these names. BYTES is 50,000 if left out. All take about two hours of one processor, the named shapes a
minute.

valgrind counts: of a program, by cachegrind with no caches, all that it runs less what it runs on an empty text; of a
call, by callgrind, what is within it, on a heap on which no count depends on what was freed before. libc is set so that
it copies and frees in one way whatever the size. A row is over the limit if twice the text takes more than 2.1 times
the instructions; one that takes fewer than one a byte grows by nothing that can be told. Rows over the limit are
printed, and the last line is `N passed, M failed`. The status is 1 if any failed.
"""
import argparse
import concurrent.futures
import glob
import os
import pathlib
import re
import subprocess
import sys
import tempfile

HERE = pathlib.Path(__file__).resolve().parent
sys.path.insert(0, str(HERE / "doubling"))
from shapes import shapes, text_of  # noqa: E402
from workspace import TOP, package, place  # noqa: E402

LIMIT = 2.1
# libc copies and frees in another way from some size on, and counts would take a step there that is no growth. Set so
# it keeps to one way: no lists of small blocks that are joined later, and no copies by one instruction, of which
# valgrind counts each byte.
LIBC = {"GLIBC_TUNABLES": "glibc.malloc.mxfast=0:glibc.cpu.x86_rep_movsb_threshold=0x10000000"
                          ":glibc.cpu.x86_rep_stosb_threshold=0x10000000"}
# The words after `tokens`; `-` is the text's path, and with none the text is standard input.
PROGRAMS = {
    "print": ["print"], "spans": ["spans"], "pretty": ["pretty", "-"], "indent": ["indent", "-"],
    "check": ["check", "-"], "same": ["same", "-", "-"], "highlight html": ["highlight", "html", "-"],
    "highlight term": ["highlight", "term", "-"], "outline": ["outline", "-"],
    "outline --json": ["outline", "--json", "-"], "outline --ctags": ["outline", "--ctags", "-"],
    "find": ["find", "a", "-"],
}
# What `--named` takes.
QUICK = ["pretty", "to_pretty_string", "text_with", "from_str", "reprint", "place_trees", "token_buffer", "explain",
         "relayout", "with_doc_comments", "quote_parse", "quote_finish", "outline"]


def build() -> pathlib.Path:
    """Builds the programs and the calls, and answers the folder that they are in."""
    target = os.environ.get("CARGO_TARGET_DIR", str(HERE / "doubling/target"))
    with tempfile.TemporaryDirectory() as room:
        for folder in (package("bench/doubling", room), TOP / place("cargo/tokens")):
            subprocess.run(["cargo", "build", "--offline", "--quiet", "--release"], cwd=folder, check=True,
                           env={**os.environ, "CARGO_TARGET_DIR": target})
    return pathlib.Path(target) / "release"


def total(path: str) -> int:
    """The instructions that an output of valgrind tells."""
    return int(re.search(r"^(?:summary|totals): (\d+)", pathlib.Path(path).read_text(), re.M)[1])


def run(words: list[str], standard_input: str, output: str) -> str:
    """Runs words under valgrind, and answers what they print."""
    with open(standard_input, "rb") as text:
        done = subprocess.run(["valgrind", "--quiet", *words], stdin=text, stdout=subprocess.PIPE,
                              stderr=subprocess.PIPE, env={**os.environ, **LIBC})
    if not glob.glob(output + "*"):
        sys.exit(f"{' '.join(words)}: {done.stderr.decode()}")
    return done.stdout.decode(errors="replace")


class Table:
    """The rows, each of a program or a call and of a shape."""

    def __init__(self, built: pathlib.Path, room: str, rows: list, size: int):
        self.built, self.room, self.size = built, room, size
        self.names = [row[0] for row in rows]
        self.paths, self.empty = [], f"{room}/empty"
        pathlib.Path(self.empty).write_text("")
        for at, row in enumerate(rows):
            for times in (1, 2):
                self.paths.append(f"{room}/{at}.{times}.rs")
                pathlib.Path(self.paths[-1]).write_text(text_of(row, times * size))

    def program(self, name: str) -> list[tuple[str, str, int, int]]:
        """The counts of a program on each shape."""
        counts = []
        for at, path in enumerate([self.empty, *self.paths]):
            output = f"{self.room}/{name.replace(' ', '_')}.{at}"
            words = [path if word == "-" else word for word in PROGRAMS[name]]
            run(["--tool=cachegrind", "--cache-sim=no", f"--cachegrind-out-file={output}",
                 f"{self.built}/tokens", *words], path, output)
            counts.append(total(output))
            os.unlink(output)
        return self.rows(name, [count - counts[0] for count in counts[1:]])

    def call(self, name: str) -> list[tuple[str, str, int, int]]:
        """The counts of a call on each shape whose texts it takes."""
        output = f"{self.room}/{name}"
        reply = run(["--tool=callgrind", f"--callgrind-out-file={output}", "--toggle-collect=*measured*",
                    "--dump-after=doubling::calls::measured*", f"{self.built}/doubling", name, *self.paths],
                   self.empty, output)
        counts, made = [], 0
        for line in reply.split():
            made += int(line)
            counts.append(total(f"{output}.{made}") if line == "1" else 0)
        return self.rows(name, counts)

    def rows(self, name: str, counts: list[int]) -> list[tuple[str, str, int, int]]:
        """The rows of which something was counted."""
        found = zip(self.names, counts[::2], counts[1::2], strict=True)
        return [(name, shape, once, twice) for shape, once, twice in found if twice]

    def is_over(self, once: int, twice: int) -> bool:
        """Whether a row is over the limit."""
        return twice > 2 * self.size and twice > LIMIT * once


def main() -> None:
    parser = argparse.ArgumentParser(description=__doc__, formatter_class=argparse.RawDescriptionHelpFormatter)
    parser.add_argument("--named", action="store_true")
    parser.add_argument("--jobs", type=int, default=1)
    parser.add_argument("--size", type=int, default=50_000)
    parser.add_argument("--only", nargs="*")
    words = parser.parse_args()
    built = build()
    calls = subprocess.run([built / "doubling"], stdout=subprocess.PIPE, check=True).stdout.decode().split()
    names = words.only or (QUICK if words.named else [*PROGRAMS, *calls])
    passed = failed = 0
    with tempfile.TemporaryDirectory() as room, concurrent.futures.ThreadPoolExecutor(words.jobs) as pool:
        table = Table(built, room, shapes(words.named), words.size)
        for rows in pool.map(lambda name: (table.program if name in PROGRAMS else table.call)(name), names):
            over = [row for row in rows if table.is_over(*row[2:])]
            for name, shape, once, twice in over:
                print(f"{name}, {shape}: {once} and {twice} instructions, {twice / max(1, once):.2f} times")
            passed, failed = passed + len(rows) - len(over), failed + len(over)
            print(f"{rows[0][0] if rows else 'a call'}: {len(rows)} rows, {len(over)} over {LIMIT}", flush=True)
    print(f"{passed} passed, {failed} failed")
    sys.exit(1 if failed else 0)


if __name__ == "__main__":
    main()
