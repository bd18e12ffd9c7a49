"""The two sides: `tokens` and `conformance` of this repository, and the twin over the Rust crate.

A text is asked of both in one of two ways. As a run of its own: `tokens print` and `tokens spans` beside the same
words of the twin. Or many at once as lines of recorded answers: `conformance` compares with the twin's
answers to them, and reports each that differs. A line may be of any kind that crates/conformance/README.md has.
"""
import dataclasses
import os
import pathlib
import re
import resource
import signal
import subprocess

# What a run may take: processor seconds, and seconds for a list of lines.
SECONDS = 20
SECONDS_OF_LINES = 120

# The least time that is called slow, in seconds, and how many times the other side's time it must be besides.
SLOW = 0.1
TIMES = 5


@dataclasses.dataclass
class Ran:
    """A run: its status, or the negative signal that stopped it; its outputs, and the processor time it took."""

    status: int
    out: bytes
    err: bytes
    seconds: float

    def is_same(self, other: "Ran") -> bool:
        return (self.status, self.out, self.err) == (other.status, other.out, other.err)

    def __str__(self) -> str:
        return f"status {self.status}, output {short(self.out)}, errors {short(self.err)}"


def short(text: bytes) -> str:
    return repr(text) if len(text) <= 300 else f"{text[:280]!r} and {len(text) - 280} more bytes"


def escaped(text: str) -> str:
    """The text as it stands in a column."""
    return "".join(map(ESCAPES.__getitem__, text))


def unescaped(column: str) -> str:
    """The text that stands in a column."""
    return re.sub(r"\\(?:u\{(\w+)\}|(.))", lambda it: chr(int(it[1], 16)) if it[1] else NAMED[it[2]], column)


class Escapes(dict):
    """What stands for a character in a column: itself where it is plain ASCII, and else an escape."""

    def __missing__(self, c: str) -> str:
        self[c] = c if " " <= c <= "~" else f"\\u{{{ord(c):x}}}"
        return self[c]


NAMED = {"n": "\n", "r": "\r", "t": "\t", "\\": "\\"}
ESCAPES = Escapes({c: "\\" + name for name, c in NAMED.items()})


class File:
    """A file in memory, which one run after another writes or reads."""

    def __init__(self, name: str):
        self.number = os.memfd_create(name)

    def put(self, text: bytes) -> None:
        os.ftruncate(self.number, 0)
        os.pwrite(self.number, text, 0)

    def take(self) -> bytes:
        return os.pread(self.number, os.fstat(self.number).st_size, 0)


class Sides:
    """The built programs of both sides."""

    def __init__(self, tokens: pathlib.Path, conformance: pathlib.Path, twin: pathlib.Path):
        self.tokens, self.conformance, self.twin = str(tokens), str(conformance), str(twin)
        self.files = [File(name) for name in ("input", "output", "errors")]

    def has_lines(self) -> bool:
        return pathlib.Path(self.conformance).is_file()

    def run(self, program: str, word: str) -> Ran:
        """The program's run on the input that was put last."""
        given, out, err = self.files
        out.put(b"")
        err.put(b"")
        paths = [f"/proc/self/fd/{file.number}" for file in self.files]
        actions = [(os.POSIX_SPAWN_OPEN, 0, paths[0], os.O_RDONLY, 0)]
        actions += [(os.POSIX_SPAWN_OPEN, i, paths[i], os.O_WRONLY, 0) for i in (1, 2)]
        child = os.posix_spawn(program, [program, word], {}, file_actions=actions)
        resource.prlimit(child, resource.RLIMIT_CPU, (SECONDS, SECONDS))
        _, status, used = os.wait4(child, 0)
        return Ran(os.waitstatus_to_exitcode(status), out.take(), err.take(), used.ru_utime + used.ru_stime)

    def run_both(self, text: bytes) -> dict:
        """The runs of both sides, by the word."""
        self.files[0].put(text)
        return {word: (self.run(self.tokens, word), self.run(self.twin, word)) for word in ("print", "spans")}

    def compare_lines(self, lines: list[str], failed: list) -> tuple[list[str], list[tuple[str, str]]]:
        """The twin's answers to the lines, and each line that is answered otherwise here, with that answer.

        Where a side fails on lines, they are halved until it is one line, which is put into `failed`.
        """
        ran = run_on(self.twin, ["answers"], lines)
        if ran.status != 0:
            return self.compare_halves(lines, "twin", ran, failed)
        answers = list(dict.fromkeys(ran.out.decode().split("\n")[:-1]))
        ran = run_on(self.conformance, [], answers)
        written = ran.out.decode().split("\n")[:-1] or [""]
        if ran.status not in (0, 1) or not written[-1].startswith(f"{len(answers)} answers, "):
            return self.compare_halves(lines, "conformance", ran, failed)
        return answers, reports(written[:-1])

    def compare_halves(self, lines: list[str], side: str, ran: Ran, failed: list) -> tuple[list, list]:
        if len(lines) == 1:
            failed.append((side, lines[0], ran))
            return [], []
        half = len(lines) // 2
        first, second = self.compare_lines(lines[:half], failed), self.compare_lines(lines[half:], failed)
        return first[0] + second[0], first[1] + second[1]


def reports(note: list[str]) -> list[tuple[str, str]]:
    """The lines that are reported, each with what is told of it."""
    found, lines = [], iter(note)
    for line in lines:
        differs = line.removeprefix("differs: ")
        found.append((differs, next(lines)) if differs != line else (line.removeprefix("no recorded answer: "), line))
    return found


def run_on(program: str, words: list[str], lines: list[str]) -> Ran:
    """A run on these lines; after too long a time it counts as stopped by a signal."""
    given = "".join(line + "\n" for line in lines).encode()
    try:
        ran = subprocess.run([program, *words], input=given, capture_output=True, timeout=SECONDS_OF_LINES)
    except subprocess.TimeoutExpired:
        return Ran(-signal.SIGXCPU, b"", b"it took too long", SECONDS_OF_LINES)
    return Ran(ran.returncode, ran.stdout, ran.stderr, 0.0)


def is_slow(here: Ran, there: Ran) -> bool:
    return here.seconds > SLOW and here.seconds > TIMES * there.seconds
