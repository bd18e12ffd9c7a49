#!/usr/bin/env python3
"""Measures `tokens check` against `tokens print` over the Rust files of a folder.

Usage: bench/check.py TOKENS FOLDER

TOKENS is the program that `cargo build --release` in cargo/tokens makes. Each command is run once for each file, in
turn with the others, five times over. What is printed is the processor time of each over all files, the least of five,
and the ratio.
"""
import os
import pathlib
import resource
import subprocess
import sys


def spent(words, file):
    """The processor time of a run on a file, in seconds."""
    before = resource.getrusage(resource.RUSAGE_CHILDREN)
    with open(file, "rb") as given, open(os.devnull, "wb") as out:
        subprocess.run(words, stdin=given, stdout=out, stderr=out, check=False)
    after = resource.getrusage(resource.RUSAGE_CHILDREN)
    return after.ru_utime - before.ru_utime + after.ru_stime - before.ru_stime


def main(words):
    if len(words) != 2:
        sys.exit(__doc__)
    tokens, folder = words
    files = sorted(pathlib.Path(folder).rglob("*.rs"))
    runs = {f"tokens {words}": [tokens, *words.split()] for words in ("print", "check", "check --hidden")}
    least = dict.fromkeys(runs, float("inf"))
    for _ in range(5):
        total = dict.fromkeys(runs, 0.0)
        for file in files:
            for name, run in runs.items():
                total[name] += spent(run, file)
        least = {name: min(least[name], total[name]) for name in runs}
    print(f"{len(files)} files, {sum(file.stat().st_size for file in files):,} bytes")
    for name, seconds in least.items():
        print(f"{name}: {seconds:.2f} s, {seconds / least['tokens print']:.2f} times tokens print")


if __name__ == "__main__":
    main(sys.argv[1:])
