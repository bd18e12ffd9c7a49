#!/usr/bin/env python3
"""Times find_calls beside grep: the processor time of each on all files of a folder.

Usage: bench/searches.py SOURCES [NAME..]
       TOKENS=PROGRAM bench/searches.py SOURCES [NAME..]
SOURCES is a folder of Rust files. For each NAME (else `new`, `unwrap`, `clone`, `parse`) it tells the least of 25 runs
in turn, of `find_calls NAME` and of `grep -nE 'NAME *\\('`, which finds calls in comments and literals too. The program
is crates/find_calls, as `rt run` builds it, or `PROGRAM find`, the program of cargo/tokens.
"""
import os
import pathlib
import subprocess
import sys

RUNS = 25
HERE = pathlib.Path(__file__).resolve().parent


def program() -> list[str]:
    if "TOKENS" in os.environ:
        return [os.environ["TOKENS"], "find"]
    crate = HERE.parent / "crates/find_calls"
    with open(crate / "stdin", "rb") as text:
        subprocess.run(["rt", "run", "--", "f"], cwd=crate, stdin=text, stdout=subprocess.DEVNULL, check=True)
    return [str(crate / "out/find_calls")]


def measured(command: list[str]) -> tuple[float, int]:
    """Processor time in milliseconds, and how many lines are written."""
    child = subprocess.Popen(command, stdout=subprocess.PIPE, stderr=subprocess.DEVNULL)
    lines = child.stdout.read().count(b"\n")
    _, status, used = os.wait4(child.pid, 0)
    child.returncode = os.waitstatus_to_exitcode(status)
    if child.returncode > 1:
        sys.exit(f"{command[0]} ended with status {child.returncode}")
    return (used.ru_utime + used.ru_stime) * 1000, lines


def main() -> None:
    if len(sys.argv) < 2:
        sys.exit(__doc__)
    files = sorted(str(path) for path in pathlib.Path(sys.argv[1]).rglob("*.rs"))
    find_calls = program()
    print(f"{'name':<12} {'find_calls':>10} {'grep':>8} {'ratio':>6} {'calls':>7} {'lines':>7}")
    for name in sys.argv[2:] or ["new", "unwrap", "clone", "parse"]:
        commands = ([*find_calls, name, *files], ["grep", "-nE", name + r" *\(", *files])
        runs = [[measured(command) for command in commands] for _ in range(RUNS)]
        ours, theirs = (min(run[i] for run in runs) for i in (0, 1))
        print(f"{name:<12} {ours[0]:10.1f} {theirs[0]:8.1f} {ours[0] / theirs[0]:6.2f} {ours[1]:7} {theirs[1]:7}")


if __name__ == "__main__":
    main()
