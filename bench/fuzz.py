#!/usr/bin/env python3
"""Feeds texts to `tokens` and to the twin over the Rust crate, side by side, and reports what they answer otherwise.

Usage: bench/fuzz.py --twin TWIN [--sources FOLDER] [--seconds N | --rounds N] [--seed TEXT] [--first ROUND]
                     [--keep FOLDER] [--tokens FILE] [--conformance FILE]
       bench/fuzz.py --twin TWIN --characters
       bench/fuzz.py --twin TWIN --beginnings

TWIN is the program that bench/twin/build.sh builds, FOLDER one of Rust files that are broken. Build `tokens` and
`conformance` first; without `conformance` texts are asked by runs alone. Rounds go on for N seconds (60 if left out) or
are so many. Each makes short texts of the grammar's pieces and of near misses, texts of literals and of their contents,
and broken parts of the files. Most are asked as lines of recorded answers, many of them a run (fuzzing/sides.py says
how), and some each by a run of `print` and of `spans` of both programs. A round depends on the seed and its number
alone, so `--first` and `--rounds 1` repeat it.

`--characters` asks about each character alone, after `a`, `1`, `'`, `"`, `'a` and `r#`, between quotes, in a doc
comment, and as the value of a string. `--beginnings` asks about every beginning of every text that the recorded
answers have, and of raw strings with 255 and 256 hash signs.

Told are: each text that is answered otherwise, cut down to what still is; each run that a signal stops or whose status
is none of 0, 1 and 2; each that takes over 0.1 seconds and 5 times what the twin takes, five times in a row; and at
the end figures. Differences that docs/DIFFERENCES.md names are told apart by rule (fuzzing/known.py) and counted.
`--keep` writes the others to files. The status is 1 if there is any.
"""
import argparse
import collections
import pathlib
import random
import sys
import time
import typing

sys.dont_write_bytecode = True

from fuzzing import known, sides, texts

TOP = pathlib.Path(__file__).resolve().parent.parent

STREAM = ("tree", "print", "spans")
LITERAL = ("literal", "str_value", "byte_str_value", "cstr_value")
CONTENT = ("string", "character", "byte_string", "c_string", "unescape_str", "unescape_byte_str", "unescape_c_str",
           "check_raw_str", "check_raw_byte_str", "check_raw_c_str", "unescape_char", "unescape_byte", "errors_Char",
           "errors_Byte", "errors_Str", "errors_RawStr", "errors_ByteStr", "errors_RawByteStr", "errors_CStr",
           "errors_RawCStr")

# Around a character: what is asked, and the text before and after it.
AROUND = [
    ("tree", "", ""), ("tree", "a", ""), ("tree", "1", ""), ("tree", "'", ""), ("tree", '"', ""), ("tree", "'a", ""),
    ("tree", "r#", ""), ("tree", '"', '"'), ("tree", "'", "'"), ("tree", 'c"', '"'), ("tree", "///", ""),
    ("string", "", ""),
]

# What stands before a character in the texts that tell how it is classed: alone, in a name, and in a doc comment.
CLASSES = ("", "a", "///")

# How many characters are asked about at a time.
CHUNK = 1 << 13

# How many differences are cut down. The others are told whole.
MOST_CUT = 50


class Other(typing.NamedTuple):
    """A text that is answered otherwise: what the answer is of, the text, the twin's answer and the one here."""

    kind: str
    text: str
    there: str
    here: str


class Fuzzer:
    def __init__(self, both: sides.Sides, keep: "pathlib.Path | None"):
        self.both, self.keep = both, keep
        self.figures = collections.Counter()
        self.classed = {}

    def ask(self, asked: list, where: str) -> list[Other]:
        """Those of the texts, each with what is asked of it, that are answered otherwise."""
        failed = []
        lines = dict.fromkeys(f"{kind}\t{sides.escaped(text)}\t" for kind, text in asked)
        answers, differing = self.both.compare_lines(list(lines), failed)
        kinds = collections.Counter(line[:line.index("\t")] for line in answers)
        self.figures["lines"] += len(answers)
        self.figures["texts accepted"] += kinds["tree"]
        self.figures["texts refused"] += kinds["fault"]
        for side, line, ran in failed:
            self.tell("crashed", f"{where}: {side} at the line {line!r}: {ran}", line.encode())
        columns = [(line.split("\t"), here) for line, here in differing]
        return [Other(kind, sides.unescaped(text), there, here) for (kind, text, there), here in columns]

    def answered_otherwise(self, kind: str, text: str) -> "str | None":
        """What is said here of a text of which the twin's answer was of this kind; None where it says the same."""
        asked = {"fault": "tree", "refused": "literal"}.get(kind, kind)
        others = self.ask([(asked, text)], "again")
        return others[0].here if others else None

    def is_classed_otherwise(self, c: str) -> bool:
        """Whether both class the character otherwise by the known rules."""
        if c not in self.classed:
            found = [self.both.run_both((before + c).encode())["print"] for before in CLASSES]
            differing = [not here.is_same(there) for here, there in found]
            written = found[-1][1].out.decode() if differing[-1] else ""
            self.classed[c] = any(differing) and known.explains(c, written)
        return self.classed[c]

    def is_known(self, text: str, otherwise: typing.Callable[[str], "str | None"]) -> bool:
        """Whether the text is answered otherwise by the known rules alone."""
        text, here = known.escaped_where_refused(text, otherwise)
        if here is None:
            return True
        by_rule = {c for c in set(text) if c > "\x7f" and self.is_classed_otherwise(c)}
        others = known.replaced(text, by_rule)
        return bool(others) and all(known.escaped_where_refused(other, otherwise)[1] is None for other in others)

    def judge(self, text: str, output: str, otherwise: typing.Callable[[str], "str | None"]) -> None:
        """Counts a text that is answered otherwise, and tells it where the known rules don't explain it."""
        def is_new(text: str) -> bool:
            return otherwise(text) is not None and not self.is_known(text, otherwise)

        if self.is_known(text, otherwise):
            self.figures["known differences"] += 1
            return
        least = shrunk(text, is_new) if self.figures["differs"] < MOST_CUT else text
        self.tell("differs", f"{output}, of {least!r}", text.encode())

    def lines(self, asked: list, where: str) -> None:
        """Asks of these texts as lines."""
        for other in self.ask(asked, where):
            output = f"{where}: the twin says {other.kind} {other.there}, {other.here}"
            self.judge(other.text, output, lambda text: self.answered_otherwise(other.kind, text))

    def runs(self, text: bytes, where: str) -> None:
        """Runs both programs on the text, with both words."""
        self.figures["runs"] += 4
        self.figures["characters of runs"] += len(text.decode(errors="replace"))
        for word, (here, there) in self.both.run_both(text).items():
            self.figures[f"texts of runs with status {there.status} of {word}"] += 1
            for side, ran in (("tokens", here), ("the twin", there)):
                if ran.status not in (0, 1, 2):
                    self.tell("crashed", f"{where}: {side} {word} of {sides.short(text)}: {ran}", text)
            if sides.is_slow(here, there) and all(sides.is_slow(*self.both.run_both(text)[word]) for _ in range(4)):
                self.tell("slow", f"{where}: {word} took {here.seconds:.2f} s, the twin {there.seconds:.2f} s", text)
            if not here.is_same(there):
                self.judge_runs(text, word, f"{where}: {word}: {here}; the twin: {there}")

    def judge_runs(self, text: bytes, word: str, output: str) -> None:
        def otherwise(text: str) -> "str | None":
            here, there = self.both.run_both(text.encode())[word]
            return None if here.is_same(there) else here.err.decode()

        try:
            self.judge(text.decode(), output, otherwise)
        except UnicodeDecodeError:
            self.tell("differs", f"{output}, of {sides.short(text)}", text)

    def tell(self, what: str, output: str, text: bytes) -> None:
        self.figures[what] += 1
        print(f"{what}: {output}", flush=True)
        if self.keep:
            (self.keep / f"{what}-{self.figures[what]}").write_bytes(text)

    def round(self, seed: str, files: list[str]) -> None:
        draw = random.Random(seed)
        asked = [(kind, text) for text in many(texts.short_text, draw, 6000) for kind in STREAM]
        asked += [(kind, text) for text in many(texts.literal_text, draw, 1500) for kind in ("tree", *LITERAL)]
        contents = [(kind, text) for text in many(texts.content, draw, 400) for kind in CONTENT]
        # Of a text with a NUL no C string can be made, so nothing is asked of the crate.
        asked += [(kind, text) for kind, text in contents if kind != "c_string" or "\0" not in text]
        parts = [texts.broken_file(draw, files) for _ in range(60)] if files else []
        asked += [(kind, text) for text in parts[:40] if len(text) <= 1000 for kind in STREAM]
        if self.both.has_lines():
            self.figures["characters"] += sum(len(text) for kind, text in asked if kind in ("tree", CONTENT[0]))
            self.lines(asked, seed)
        for text in [*many(texts.short_text, draw, 40), *parts[40:]]:
            self.runs(text.encode(), seed)
            if draw.random() < 0.2:
                self.runs(texts.broken_bytes(draw, text.encode()), seed)

    def characters(self) -> None:
        """Asks about every character, and tells those that both class otherwise where no rule explains it."""
        every = list(known.every_character())
        self.figures["characters"] = len(every)
        for begin in range(0, len(every), CHUNK):
            asked = {before + c + after: c for c in every[begin:begin + CHUNK] for _, before, after in AROUND}
            found = self.ask([(kind, before + c + after) for c in every[begin:begin + CHUNK]
                              for kind, before, after in AROUND], "characters")
            differing = collections.defaultdict(list)
            for other in found:
                differing[asked[other.text]].append(other)
            for c, others in differing.items():
                self.judge_character(c, others)

    def judge_character(self, c: str, others: list[Other]) -> None:
        """Counts the texts of a character that are answered otherwise, and tells them where no rule explains them."""
        written = "".join(sides.unescaped(other.there) for other in others if other.kind == "string")
        if known.explains(c, written):
            self.figures["characters that both class otherwise"] += 1
            self.figures["known differences"] += len(others)
            return
        for other in others:
            output = f"U+{ord(c):04X}: the twin says {other.kind} {other.there}, {other.here}"
            self.judge(other.text, output, lambda text: self.answered_otherwise(other.kind, text))

    def beginnings(self) -> None:
        """Asks about every beginning of the recorded answers' texts."""
        columns = [line.split("\t") for line in (TOP / "crates/conformance/stdin").read_text().split("\n")[:-1]]
        wholes = {sides.unescaped(text) for kind, text, *_ in columns if kind in (*STREAM, "fault")}
        wholes |= {f'r{"#" * hashes}""{"#" * hashes}' for hashes in (255, 256)}
        every = sorted({text[:end] for text in wholes for end in range(len(text) + 1)})
        self.figures["characters"] = sum(map(len, every))
        self.lines([(kind, text) for text in every for kind in STREAM], "beginnings")

    def report(self) -> int:
        for name, count in sorted(self.figures.items()):
            print(f"{name}: {count:,}")
        wrong = sum(self.figures[what] for what in ("differs", "crashed", "slow"))
        print(f"{wrong} differences, crashes and slow inputs")
        return 1 if wrong else 0


def many(make: typing.Callable[[random.Random], str], draw: random.Random, count: int) -> list[str]:
    return [make(draw) for _ in range(count)]


def shrunk(text: str, keeps: typing.Callable[[str], bool]) -> str:
    """The text without parts that it can lose and still be kept."""
    size = len(text) // 2
    while size:
        i = 0
        while i < len(text):
            shorter = text[:i] + text[i + size:]
            if keeps(shorter):
                text = shorter
            else:
                i += size
        size //= 2
    return text


def files_below(folder: "pathlib.Path | None") -> list[str]:
    found = []
    for file in sorted(folder.rglob("*.rs")) if folder else []:
        try:
            found.append(file.read_bytes().decode())
        except UnicodeDecodeError:
            pass
    return found


def arguments() -> argparse.Namespace:
    parser = argparse.ArgumentParser(usage=__doc__)
    parser.add_argument("--twin", type=pathlib.Path, required=True)
    parser.add_argument("--tokens", type=pathlib.Path, default=TOP / "crates/tokens/out/tokens")
    parser.add_argument("--conformance", type=pathlib.Path, default=TOP / "crates/conformance/out/conformance")
    parser.add_argument("--sources", type=pathlib.Path)
    parser.add_argument("--seconds", type=float, default=60)
    parser.add_argument("--rounds", type=int, default=sys.maxsize)
    parser.add_argument("--first", type=int, default=0)
    parser.add_argument("--seed", default="0")
    parser.add_argument("--keep", type=pathlib.Path)
    parser.add_argument("--characters", action="store_true")
    parser.add_argument("--beginnings", action="store_true")
    return parser.parse_args()


def run(asked: argparse.Namespace, both: sides.Sides) -> int:
    """Asks both sides what the words of the command ask for. The status is 1 if a difference was told."""
    known.check_tables()
    if asked.keep:
        asked.keep.mkdir(parents=True, exist_ok=True)
    fuzzer = Fuzzer(both, asked.keep)
    if asked.characters or asked.beginnings:
        fuzzer.characters() if asked.characters else fuzzer.beginnings()
        return fuzzer.report()
    files, begin, number = files_below(asked.sources), time.monotonic(), asked.first
    end = begin + (asked.seconds if asked.rounds == sys.maxsize else float("inf"))
    while time.monotonic() < end and number - asked.first < asked.rounds:
        fuzzer.round(f"{asked.seed}:{number}", files)
        number += 1
    fuzzer.figures["rounds"] = number - asked.first
    fuzzer.figures["seconds"] = int(time.monotonic() - begin)
    return fuzzer.report()


def main() -> int:
    asked = arguments()
    return run(asked, sides.Sides(asked.tokens, asked.conformance, asked.twin))


if __name__ == "__main__":
    sys.exit(main())
