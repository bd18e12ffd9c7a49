#!/usr/bin/env python3
"""The numbers that users compare, in one table: programs by size of text, calls in Cargo, flat tokens.

Usage: bench/numbers.py CRATE IDENT SOURCES REGISTRY [RUNS]
CRATE and IDENT are the folders of the Rust crates proc-macro2 and unicode-ident, SOURCES is a folder of Rust files, and
REGISTRY is what cargo/packages.sh FOLDER leaves in FOLDER/registry. Programs run in turn with the twin over the Rust
crate, RUNS times (else 3), on 1, 10 and 100 MB of the sources, and the least processor time and the most memory of each
are told, with the growth from 1 to 100 MB. Where valgrind is there, instructions are counted on 1 MB. The rows of Cargo
are those of dev/bench.sh and dev/bench_flat.sh. Ends with an error where a run fails or two outputs differ.
"""
import multiprocessing
import os
import pathlib
import re
import shutil
import subprocess
import sys
import tempfile

import compare
from workspace import place

TOP = pathlib.Path(__file__).resolve().parent.parent
SIZES = (1, 10, 100)
# A process is told to have taken the memory of the Python that started it too, some 15 MB.
LEAST_TOLD = 10
CALLS = {
    "from_str": "from_str of 3 MB",
    "to_string": "to_string of 3 MB",
    "parse_file": "syn::parse_file of 3 MB",
    "quote": "quote! of a file of 3 MB, its text",
    "parse_word": "from_str of a word",
    "quote_small": "a small quote!",
}
# What dev/bench_flat.sh tells of the public crate.
FLAT = {
    "trees_make_and_walk": "flat tokens of 3 MB, beside trees",
    "syn_make_and_walk": "  beside syn's buffer",
}


def write_texts(sources: pathlib.Path, out: pathlib.Path) -> None:
    for size in SIZES:
        (out / f"{size}").write_bytes(compare.source(sources, size * 1_000_000))


def instructions(command: list[str], text: pathlib.Path, out: pathlib.Path) -> float:
    """Instructions a byte of the text, by valgrind; NaN without it."""
    if not shutil.which("valgrind"):
        return float("nan")
    count = ["valgrind", "--tool=callgrind", f"--callgrind-out-file={out}/counted"]
    with open(text, "rb") as source:
        output = subprocess.run(count + command, stdin=source, capture_output=True, check=True)
    return int(re.search(rb"Collected : (\d+)", output.stderr)[1]) / text.stat().st_size


def row(what: str, ours: float, theirs: float, unit: str) -> None:
    ratio = f"{ours / theirs:8.2f}" if theirs else "       –"
    shown = f"{theirs:10.1f}" if theirs else "         –"
    print(f"{what:<36} {ours:10.1f} {shown} {unit:<6} {ratio}", flush=True)


def time_row(what: str, ours: float, theirs: float) -> None:
    """A row of two times in nanoseconds."""
    long = ours > 1_000_000
    row(what, *((value / 1_000_000 if long else value) for value in (ours, theirs)), "ms" if long else "ns")


def programs(crate: str, ident: str, sources: pathlib.Path, runs: int) -> None:
    with tempfile.TemporaryDirectory() as folder:
        out = pathlib.Path(folder)
        built = compare.build(crate, ident, out)
        # A process counts the memory of the one that started it too, so the texts are made in another.
        writer = multiprocessing.Process(target=write_texts, args=(sources, out))
        writer.start()
        writer.join()
        for word in compare.WORDS:
            times = {}
            for size in SIZES:
                least = {}
                for _ in range(runs):
                    for name, path in built.items():
                        _, time, memory = compare.measured(path, word, out / f"{size}", out / name)
                        old = least.get(name, (time, memory))
                        least[name] = (min(time, old[0]), max(memory, old[1]))
                if subprocess.run(["cmp", out / "tokens", out / "twin"]).returncode != 0:
                    sys.exit(f"the outputs of {word} on {size} MB differ")
                times[size] = [least[name][0] for name in ("tokens", "twin")]
                row(f"tokens {word}, {size} MB", *times[size], "ms")
                if size >= LEAST_TOLD:
                    row("  memory", *(least[name][1] / 1000 for name in ("tokens", "twin")), "MB")
            row(f"  growth from {SIZES[0]} MB", *(times[SIZES[-1]][i] / times[SIZES[0]][i] for i in (0, 1)), "times")
            counted = [instructions([built[name], word], out / f"{SIZES[0]}", out) for name in ("tokens", "twin")]
            row("  instructions", *counted, "a byte")
        check = TOP / "crates/rust_check"
        with open(check / "stdin", "rb") as text:
            # Its stored text has a fault, so that its status is 1.
            subprocess.run(["rt", "run"], cwd=check, stdin=text, stdout=subprocess.DEVNULL)
        program = str(check / "out/rust_check")
        seen = [compare.measured(program, "-", out / "10", out / "told") for _ in range(runs)]
        row("rust_check, 10 MB", min(time for _, time, _ in seen), 0, "ms")
        row("  memory", max(memory for _, _, memory in seen) / 1000, 0, "MB")


def output(command: list) -> dict[str, list[float]]:
    """The numbers that a script prints after each name."""
    printed = subprocess.run(command, capture_output=True, text=True, check=True).stdout
    lines = (re.findall(r"\S+", line) for line in printed.splitlines())
    return {name: [float(number) for number in numbers] for name, *numbers in lines if name != "what"}


def calls(crate: str, sources: pathlib.Path, registry: pathlib.Path, runs: int) -> None:
    os.environ["CARGO_REGISTRY"] = str(registry)
    found = output([TOP / place("dev/bench.sh"), crate, sources, str(runs)])
    for name, what in CALLS.items():
        time_row(what, *found[name][:2])
    flat = output([TOP / place("dev/bench_flat.sh"), registry, sources])
    for name, what in FLAT.items():
        time_row(what, flat["flat_make_and_walk"][0], flat[name][0])


def main() -> None:
    if len(sys.argv) not in (5, 6):
        sys.exit(__doc__)
    crate, ident, sources, registry = sys.argv[1:5]
    runs = int(sys.argv[5]) if len(sys.argv) == 6 else 3
    print(f"load {os.getloadavg()[0]:.1f}, {os.cpu_count()} processors, the best of {runs} runs in turn")
    print(f"{'what':<36} {'ours':>10} {'crate':>10} {'':<6} {'ratio':>8}")
    programs(crate, ident, pathlib.Path(sources), runs)
    calls(crate, pathlib.Path(sources), pathlib.Path(registry).resolve(), runs)


if __name__ == "__main__":
    main()
