#!/usr/bin/env python3
"""Times single calls of the library beside those of the Rust crate.

Usage: bench/calls.py CRATE IDENT SOURCES [RUNS]
CRATE and IDENT are the folders of the Rust crates proc-macro2 and unicode-ident (each with src/lib.rs), and SOURCES is
a folder of Rust files. Builds the program of bench/calls in a copy of the repository, and the twin. Each run is a
process of its own, which reads a text, makes a call, and counts the processor time of that call alone. Prints for each
call the least time of each program, and the ratio. Ends with an error where a run fails, or where the two answer
differently.
"""
import pathlib
import random
import re
import shutil
import subprocess
import sys
import tempfile

sys.dont_write_bytecode = True
HERE = pathlib.Path(__file__).resolve().parent
from compare import SIZE, source  # noqa: E402
from workspace import TOP, place  # noqa: E402

sys.path.insert(0, str(TOP / place("dev/bugs")))
from try_edits import copy_repository  # noqa: E402

ORDERS = ("forwards", "backwards", "random")
# By its text, the calls that are made on it.
CALLS = {
    "source": ("from_str", "display", "clone", "drop", "into_iter"),
    "short": ("lines",),
    "line": (*(f"{call}-{order}" for call in ("byte_range", "source_text") for order in ORDERS), "extend"),
}
# How many tokens a short text has at most.
FEW = 10
# How many short texts are parsed, each as the next file of one map.
SHORT_TEXTS = 20_000
# How long the one line is, in bytes.
LINE = 1_000_000


def short_texts(text: str) -> str:
    """Lines of the text of one to ten tokens each, of which each is a text by itself, drawn by chance."""
    lines = {line.strip() for line in text.split("\n")}
    kept = sorted(line for line in lines if is_text(line) and len(re.findall(r"\w+|[^\w\s]", line)) <= FEW)
    draw = random.Random(1)
    return "\n".join(draw.choice(kept) for _ in range(SHORT_TEXTS))


def is_text(line: str) -> bool:
    """Whether the line surely has tokens and no fault: no quotes, comments or odd numbers, and matching delimiters."""
    if not line or not line.isascii() or re.search(r"[\"'\\/#`]|\d[\w.]*[A-Za-z_.]", line):
        return False
    open_groups = []
    for c in line:
        if c in "([{":
            open_groups.append(c)
        elif c in ")]}" and (not open_groups or open_groups.pop() + c not in ("()", "[]", "{}")):
            return False
    return not open_groups


def one_line() -> str:
    """A line of names, marks and strings as of minified code, in which one character of three isn't ASCII."""
    draw = random.Random(1)
    parts, length = [], 0
    while length < LINE:
        name = "".join(draw.choice("abxyé語") for _ in range(draw.randint(1, 6)))
        part = draw.choice((f"{name}=", f"({name})", f"{name},", f'"{name} {name}";'))
        parts.append(part)
        length += len(part.encode())
    return "".join(parts)


def build(crate: str, ident: str, room: pathlib.Path) -> dict[str, list[str]]:
    """The programs by name, each with the words before that of a call."""
    copy_repository("tokens", room)
    with open(room / "crates.txt", "a") as crates:
        crates.write("calls: anyhow proc_macro2\n")
    folder = room / "crates/calls"
    (folder / "src").mkdir(parents=True)
    for file in (HERE / "calls").glob("*.rattle"):
        shutil.copy(file, folder / "src" / f"{file.stem}.rt")
    run = ["rt", "run", "--", "from_str", "1"]
    subprocess.run(run, cwd=folder, input=b"a", check=True, stdout=subprocess.DEVNULL)
    subprocess.run([HERE / "twin/build.sh", crate, ident, room / "twin"], check=True, stdout=subprocess.DEVNULL)
    return {"tokens": [str(folder / "out/calls")], "twin": [str(room / "twin/twin"), "call"]}


def measured(program: list[str], call: str, text: pathlib.Path) -> tuple[int, int]:
    """What the call took, in nanoseconds, and its answer."""
    with open(text, "rb") as stdin:
        ran = subprocess.run([*program, call, "1"], stdin=stdin, stdout=subprocess.PIPE, check=True, text=True)
    time, answer = ran.stdout.split()
    return int(time), int(answer)


def report(programs: dict[str, list[str]], call: str, text: pathlib.Path, runs: int) -> None:
    least = {}
    answers = set()
    for _ in range(runs):
        for name, program in programs.items():
            time, answer = measured(program, call, text)
            least[name] = min(time, least.get(name, time))
            answers.add(answer)
    if len(answers) != 1:
        sys.exit(f"the two answer {call} differently: {answers}")
    ours, theirs = least["tokens"] / 1e6, least["twin"] / 1e6
    print(f"| {call} | {ours:.2f} ms | {theirs:.2f} ms | {ours / theirs:.2f} |", flush=True)


def main() -> None:
    if len(sys.argv) not in (4, 5):
        sys.exit(__doc__)
    runs = int(sys.argv[4]) if len(sys.argv) == 5 else 9
    with tempfile.TemporaryDirectory(prefix="calls-") as folder:
        room = pathlib.Path(folder).resolve()
        programs = build(sys.argv[1], sys.argv[2], room)
        whole = source(pathlib.Path(sys.argv[3]), SIZE)
        texts = {"source": whole, "short": short_texts(whole.decode()).encode(), "line": one_line().encode()}
        print("| Call | tokens | Rust crate | ratio |\n|---|---|---|---|")
        for name, calls in CALLS.items():
            (room / name).write_bytes(texts[name])
            for call in calls:
                report(programs, call, room / name, runs)


if __name__ == "__main__":
    main()
