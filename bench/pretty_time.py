#!/usr/bin/env python3
"""Times `tokens pretty` beside `tokens print` on 10 MB of real source.

Usage: bench/pretty_time.py TOKENS SOURCES [RUNS]
TOKENS is the program that `cargo build --release` in cargo/tokens makes, and SOURCES is a folder of Rust files. Runs
the two commands in turn on its files one after another, and prints the least processor time (user and system time
together) and the most memory of each, with the ratios. Ends with an error where a run fails.
"""
import multiprocessing
import os
import pathlib
import sys
import tempfile

import compare


def main() -> None:
    if len(sys.argv) not in (3, 4):
        sys.exit(__doc__)
    program, sources = sys.argv[1:3]
    runs = int(sys.argv[3]) if len(sys.argv) == 4 else 5
    commands = ("print", "pretty")
    times, peaks = dict.fromkeys(commands, float("inf")), dict.fromkeys(commands, 0)
    with tempfile.TemporaryDirectory() as folder:
        out = pathlib.Path(folder)
        # A process counts the memory of the one that started it too, so the text is made in another.
        writer = multiprocessing.Process(target=compare.write_texts, args=(pathlib.Path(sources), out))
        writer.start()
        writer.join()
        size = (out / "whole").stat().st_size
        print(f"{size} bytes, load {os.getloadavg()[0]:.1f}, the best of {runs} runs in turn")
        for _ in range(runs):
            for word in commands:
                _, time, peak = compare.measured(program, word, out / "whole", out / "output")
                times[word], peaks[word] = min(time, times[word]), max(peak, peaks[word])
    for word in commands:
        print(f"tokens {word}: {times[word]:.0f} ms, {peaks[word] / 1024:.1f} MB")
    first, second = commands
    print(f"ratio: {times[second] / times[first]:.2f} of time, {peaks[second] / peaks[first]:.2f} of memory")


if __name__ == "__main__":
    main()
