#!/usr/bin/env python3
"""Times `tokens print` and `tokens spans` against the Rust crate's twin, on 10 MB of real source and on its first half.

Usage: bench/compare.py CRATE IDENT SOURCES [RUNS]
CRATE and IDENT are the folders of the Rust crates proc-macro2 and unicode-ident (each with src/lib.rs), and SOURCES is
a folder of Rust files. Builds the program and the twin, runs them in turn, and prints for each word the least user
time, the least processor time (user and system time together), and the most memory of each, with the ratios and the
growth from the half to the whole. Ends with an error where a run fails, or where the last outputs of the two on the
half or on the whole differ.
"""
import multiprocessing
import os
import pathlib
import subprocess
import sys
import tempfile

SIZE = 10_000_000
WORDS = ("print", "spans")
TEXTS = ("half", "whole")
HERE = pathlib.Path(__file__).resolve().parent


def source(folder: pathlib.Path, size: int) -> bytes:
    """The folder's files one after another, over and over, until there are `size` bytes."""
    files = [file.read_bytes() + b"\n" for file in sorted(folder.rglob("*.rs"))]
    files = [text for text in files if is_unmarked_utf8(text)]
    if not files:
        sys.exit(f"no Rust files below {folder}")
    parts, length = [], 0
    while length < size:
        for text in files:
            if length >= size:
                break
            parts.append(text)
            length += len(text)
    return b"".join(parts)


def write_texts(folder: pathlib.Path, out: pathlib.Path) -> None:
    """Writes the two texts."""
    for name, size in zip(TEXTS, (SIZE // 2, SIZE)):
        (out / name).write_bytes(source(folder, size))


def is_unmarked_utf8(text: bytes) -> bool:
    """Whether the text is UTF-8 without a front mark, which stands only at the front of a source."""
    try:
        return not text.decode().startswith("\ufeff")
    except UnicodeDecodeError:
        return False


def build(crate: str, ident: str, out: pathlib.Path) -> dict[str, str]:
    """The programs, by name."""
    tokens = HERE.parent / "crates/tokens"
    with open(tokens / "stdin", "rb") as text:
        subprocess.run(["rt", "run", "--", "print"], cwd=tokens, stdin=text, check=True, stdout=subprocess.DEVNULL)
    subprocess.run([HERE / "twin/build.sh", crate, ident, out], check=True, stdout=subprocess.DEVNULL)
    return {"tokens": str(tokens / "out/tokens"), "twin": str(out / "twin")}


def measured(program: str, word: str, text: pathlib.Path, output: pathlib.Path) -> tuple[float, float, int]:
    """User time and processor time in milliseconds, and peak memory in KB."""
    with open(text, "rb") as source, open(output, "wb") as sink:
        child = subprocess.Popen([program, word], stdin=source, stdout=sink)
        _, status, used = os.wait4(child.pid, 0)
        child.returncode = os.waitstatus_to_exitcode(status)
    if child.returncode != 0:
        sys.exit(f"{program} {word} ended with status {child.returncode}")
    return used.ru_utime * 1000, (used.ru_utime + used.ru_stime) * 1000, used.ru_maxrss


def main() -> None:
    if len(sys.argv) not in (4, 5):
        sys.exit(__doc__)
    runs = int(sys.argv[4]) if len(sys.argv) == 5 else 11
    with tempfile.TemporaryDirectory() as folder:
        out = pathlib.Path(folder)
        programs = build(sys.argv[1], sys.argv[2], out)
        # A process counts the memory of the one that started it too, so the texts are made in another.
        writer = multiprocessing.Process(target=write_texts, args=(pathlib.Path(sys.argv[3]), out))
        writer.start()
        writer.join()
        half, whole = ((out / name).stat().st_size for name in TEXTS)
        print(f"load {os.getloadavg()[0]:.1f}, {os.cpu_count()} processors, the best of {runs} runs in turn")
        for word in WORDS:
            report(word, best(programs, word, runs, out), half, whole)


def best(programs: dict[str, str], word: str, runs: int, out: pathlib.Path) -> dict:
    """The least times and the most memory of each program on each text, whose last outputs must be the same."""
    least = {}
    for _ in range(runs):
        for text in TEXTS:
            for program, path in programs.items():
                found = measured(path, word, out / text, out / f"{program}.{text}")
                old = least.get((program, text), found)
                least[program, text] = (min(found[0], old[0]), min(found[1], old[1]), max(found[2], old[2]))
    for text in TEXTS:
        if (out / f"tokens.{text}").read_bytes() != (out / f"twin.{text}").read_bytes():
            sys.exit(f"the outputs of {word} on the {text} differ")
    return least


def report(word: str, least: dict, half: int, whole: int) -> None:
    for name, size in zip(TEXTS, (half, whole)):
        ours, twin = least["tokens", name], least["twin", name]
        print(f"{word}, {name}, {size} bytes")
        for label, i, unit in (("user time", 0, "ms"), ("processor time", 1, "ms"), ("peak memory", 2, "KB")):
            print(f"  {label}: tokens {ours[i]:.0f} {unit}, twin {twin[i]:.0f} {unit}, ratio {ours[i] / twin[i]:.2f}")
    for program in ("tokens", "twin"):
        user, both = (least[program, "whole"][i] / least[program, "half"][i] for i in (0, 1))
        print(f"{word}, growth of {program} from half to whole: processor time {both:.2f}, of it user time {user:.2f}")
    print(f"growth of the text: {whole / half:.2f}")


if __name__ == "__main__":
    main()
