#!/usr/bin/env python3
"""Says which functions take the prover longest.

Usage: bench/function_cost.py [--test] [-n COUNT] CRATE ..
Proves each crate from nothing in a copy, over the libraries below it as `rt check` last built them, and prints the
slowest functions with the processor seconds between the line `checked FUNCTION` before theirs and their own. With
--test the crate's tests are proved with it. A file of definitions or of lemmas counts for the first function that needs
it, and what every check has to load counts for the crate alone.

After a name, `steps` are the seconds for the table of the function's steps, which grow with its code and its data, and
`proof` are those in which its goals were proved. They are seconds by the clock, so other work makes them larger.
"""
import argparse
import os
import re
import subprocess
import sys
import tempfile
from pathlib import Path

sys.dont_write_bytecode = True
from workspace import TOP, place  # noqa: E402

sys.path.insert(0, str(TOP / place("dev/bugs")))
from try_edits import copy_repository  # noqa: E402

TICK = os.sysconf("SC_CLK_TCK")


def time_of_provers(folder):
    """The processor seconds so far of the processes that prove in the folder, and of those that they waited for."""
    seconds = 0.0
    for pid in filter(str.isdigit, os.listdir("/proc")):
        try:
            if os.readlink(f"/proc/{pid}/cwd") == str(folder) and os.readlink(f"/proc/{pid}/exe").endswith("/rattle"):
                stat = Path(f"/proc/{pid}/stat").read_text()
                seconds += sum(map(int, stat[stat.rindex(")") + 2 :].split()[11:15])) / TICK
        except OSError:
            pass
    return seconds


# What rattle keeps of a function. A file is written when it is done, and `Lts` is the table of steps.
PARTS = re.compile(
    r"Rattle-\w+-proofs\.(.+?)\.(Code|Named|Layout|Kinds|Lts|Statement|Reads|Tie|Goals|Answers|Proof)\.oantt"
)


def parts_of(folder):
    """The seconds for the steps and for the proof of each function, by the times at which the files of a check were
    written. A file counts from the one before it of the same function."""
    written = {}
    for file in folder.glob("out/incremental/*/Rattle-*"):
        named = PARTS.fullmatch(file.name)
        if named:
            written.setdefault(named[1], []).append((file.stat().st_mtime, named[2]))
    found = {}
    for function, files in written.items():
        files.sort()
        spent = {part: now - before for (before, _), (now, part) in zip(files, files[1:])}
        found[function.replace(".", "::")] = spent.get("Lts", 0.0), spent.get("Proof", 0.0)
    return found


def times_of(crate, tests):
    """The seconds of each function of the crate, those of its parts, and those of the whole check."""
    with tempfile.TemporaryDirectory(prefix="functions-") as room:
        copy_repository(crate, Path(room), keeps=False)
        folder = Path(room).resolve() / "crates" / crate
        command = ["rt", "check", "--jobs", "1", *["--test"] * tests]
        found, last, output = {}, 0.0, []
        with subprocess.Popen(command, cwd=folder, stdout=subprocess.PIPE, stderr=subprocess.STDOUT, text=True) as ran:
            for line in ran.stdout:
                output.append(line)
                now = max(time_of_provers(folder), last)
                checked = re.match(r"checked (\S+), \d+ of \d+$", line)
                if checked:
                    found[checked[1]] = now - last
                if checked or line.startswith("so far:"):
                    last = now
        if ran.returncode:
            sys.exit("".join(output[-12:]) + f"{crate} is not proved")
        begun = [line for line in output if line.startswith(f"rt: {crate}: begins with what a check kept")]
        if begun:
            sys.exit(f"{begun[0]}So not all of {crate} was proved here. Remove the folder `out` of the crate there.")
        return found, parts_of(folder), now


def main():
    form = argparse.RawDescriptionHelpFormatter
    words = argparse.ArgumentParser(prog="bench/function_cost.py", description=__doc__, formatter_class=form)
    words.add_argument("--test", action="store_true", help="proves the tests of the crates too")
    words.add_argument("-n", "--count", type=int, default=20, help="how many functions to print (20)")
    words.add_argument("crates", nargs="+", metavar="CRATE")
    given = words.parse_args()
    all_times, all_parts = {}, {}
    for crate in given.crates:
        found, parts, whole = times_of(crate, given.test)
        print(f"{crate}: {whole:.0f} s for {len(found)} functions", flush=True)
        all_times |= found
        all_parts |= {f"{crate}::{name}": spent for name, spent in parts.items()}
    for name in sorted(all_times, key=all_times.get, reverse=True)[: given.count]:
        steps, proof = all_parts.get(name, (0.0, 0.0))
        print(f"{all_times[name]:6.1f} s  {name}  (steps {steps:.1f}, proof {proof:.1f})")


if __name__ == "__main__":
    main()
