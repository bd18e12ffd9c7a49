#!/usr/bin/env python3
"""Times clean builds of syn and quote over the Cargo package and over the public crate.

Usage: bench/build_times.py REGISTRY [--runs N] [--crate FOLDER] [--only BUILD..] [--modules]

REGISTRY is a folder of unpacked crates, as cargo/packages.sh makes it: syn 2, quote, unicode-ident and the public
crate, or FOLDER has that. The builds are `check`, `dev` and `release`, each of proc-macro2 alone, and with quote and
syn, with syn's features `full`, `extra-traits`, `visit` and `visit-mut`; each from nothing, by one job. The two sides
are built in turn, N times each, 5 if left out. Printed are the least user seconds, of each build and of each crate in
it. With more load than processors all times grow, and their ratios are less certain, so the load is printed too.

With `--modules` the library cargo/proved-tokens is built alone, with one module more each time, lowest first. Printed
is what each adds.
"""
import argparse
import os
import pathlib
import re
import shutil
import subprocess
import sys
import tempfile

from workspace import place

TOP = pathlib.Path(__file__).resolve().parent.parent
BUILDS = {"check": ["check"], "dev": ["build"], "release": ["build", "--release"]}
FEATURES = '["full", "extra-traits", "visit", "visit-mut"]'
MANIFEST = """[package]
name = "empty"
version = "0.1.0"
edition = "2021"

[workspace]

[dependencies]
proc-macro2 = "1"
"""
CLIENTS = f'quote = "1"\nsyn = {{ version = "2", features = {FEATURES} }}\n'
# A compiler that writes the user seconds of each crate into a file.
WRAPPER = """#!/bin/bash
name=-
for ((i = 1; i < $#; i++)); do
    [ "${!i}" = --crate-name ] && i=$((i + 1)) && name=${!i}
done
TIMEFORMAT="$name %U"
{ time "$@" --cap-lints allow 2>&3; } 3>&2 2>> "$BUILD_TIMES"
"""
# Variables that would change what is built, or how.
CHANGING = ("RUSTFLAGS", "CARGO_ENCODED_RUSTFLAGS", "CARGO_BUILD_RUSTFLAGS", "CARGO_INCREMENTAL", "CARGO_TARGET_DIR")


def built(room: pathlib.Path, words: list[str]) -> dict[str, float]:
    """The user seconds of a build from nothing in this room, in all and by crate."""
    shutil.rmtree(room / "target", ignore_errors=True)
    times = room / "times"
    times.write_text("")
    kept = {name: value for name, value in os.environ.items()
            if name not in CHANGING and not name.startswith("CARGO_PROFILE")}
    kept |= {"RUSTC_WRAPPER": str(room.parent / "wrapper"), "BUILD_TIMES": str(times), "CARGO_TARGET_DIR": "target"}
    child = subprocess.Popen(["cargo", *words, "--offline", "--quiet", "-j1"], cwd=room, env=kept)
    _, status, used = os.wait4(child.pid, 0)
    child.returncode = os.waitstatus_to_exitcode(status)
    if child.returncode:
        sys.exit(f"the build in {room} ended with status {child.returncode}")
    seconds = {"in all": used.ru_utime}
    for line in times.read_text().splitlines():
        name, _, time = line.rpartition(" ")
        if name not in ("-", "___"):
            seconds[name] = seconds.get(name, 0) + float(time)
    return seconds


def laid_out(room: pathlib.Path, registry: pathlib.Path, proc_macro2: pathlib.Path, clients: str) -> pathlib.Path:
    """A room with an empty crate over this proc-macro2, and over these clients of it."""
    (room / "src").mkdir(parents=True)
    (room / "src/lib.rs").write_text("")
    (room / "Cargo.toml").write_text(MANIFEST + clients)
    (room / ".cargo").mkdir()
    (room / ".cargo/config.toml").write_text(
        f'[source.crates-io]\nreplace-with = "here"\n[source.here]\ndirectory = "{registry}"\n'
        f'[patch.crates-io]\nproc-macro2 = {{ path = "{proc_macro2}" }}\n')
    return room


def compare(room: pathlib.Path, registry: pathlib.Path, sides: dict[str, pathlib.Path], builds: list[str],
            runs: int) -> None:
    """Prints the least times of both sides, proc-macro2 alone and with its clients."""
    print(f"{'build':<8} {'crate':<24} " + " ".join(f"{side:>8}" for side in sides) + f" {'ratio':>6}")
    for build in builds:
        for what, clients in (("alone", ""), ("with quote and syn", CLIENTS)):
            rooms = {side: laid_out(room / f"{build}-{bool(clients)}" / side, registry, path, clients)
                     for side, path in sides.items()}
            for path in rooms.values():
                shutil.copy(room / "wrapper", path.parent)
            least: dict[str, dict[str, float]] = {side: {} for side in sides}
            for _ in range(runs):
                for side, path in rooms.items():
                    for name, seconds in built(path, BUILDS[build]).items():
                        least[side][name] = min(seconds, least[side].get(name, seconds))
            names = list(dict.fromkeys(name for side in sides for name in least[side]))
            for name in names:
                row = [least[side].get(name) for side in sides]
                shown = " ".join(f"{'–' if time is None else format(time, '.2f'):>8}" for time in row)
                ratio = "" if None in row or not row[1] else f"{row[0] / row[1]:6.2f}"
                label = what if name == "in all" else f"  {name}"
                print(f"{build:<8} {label:<24} {shown} {ratio}", flush=True)


def modules(room: pathlib.Path, builds: list[str], runs: int) -> None:
    """Prints what each module of the library adds to its build, without features."""
    library = room / "library"
    ignored = shutil.ignore_patterns("target", "Cargo.lock", "tests")
    shutil.copytree(TOP / place("cargo/proved-tokens"), library, ignore=ignored)
    manifest = library / "Cargo.toml"
    name = re.search(r'(?m)^name = "(.*)"', manifest.read_text())[1].replace("-", "_")
    # The examples and tests are left out.
    manifest.write_text(re.sub(r"(?ms)^(# For [^\n]*\n)?\[\[(example|test)\]\]\n.*?(\n\n|\Z)", "", manifest.read_text())
                        + "\n[workspace]\n")
    # What is after the modules names their items, so it is left out.
    front, entries, _ = re.split(r"(?ms)^erased! \{\n(.*?)^\}\n", (library / "src/lib.rs").read_text())
    # Each module with its attributes.
    entries = re.findall(r"(?m)^(?:    #\[.*\]\n)*    \w+\n", entries)
    entries = [entry for entry in entries if "cfg(feature" not in entry]
    print(f"{'module':<24} " + " ".join(f"{build:>8}" for build in builds))
    before = dict.fromkeys(builds, 0.0)
    for count in range(len(entries) + 1):
        shown = "".join(entries[:count])
        (library / "src/lib.rs").write_text(f"{front}erased! {{\n{shown}}}\n")
        row = []
        for build in builds:
            least = min(built(library, BUILDS[build])[name] for _ in range(runs))
            row.append(least - before[build])
            before[build] = least
        what = entries[count - 1].split()[-1] if count else "shim and tables"
        print(f"{what:<24} " + " ".join(f"{time:8.2f}" for time in row), flush=True)
    print(f"{'in all':<24} " + " ".join(f"{before[build]:8.2f}" for build in builds))


def main() -> None:
    parser = argparse.ArgumentParser(description=__doc__, formatter_class=argparse.RawDescriptionHelpFormatter)
    parser.add_argument("registry", type=pathlib.Path)
    parser.add_argument("--runs", type=int, default=5)
    parser.add_argument("--crate", type=pathlib.Path)
    parser.add_argument("--only", nargs="*", choices=BUILDS, default=list(BUILDS))
    parser.add_argument("--modules", action="store_true")
    asked = parser.parse_args()
    registry = asked.registry.resolve()
    public = asked.crate or next(iter(sorted(registry.glob("proc-macro2-1*"))), None)
    if not public:
        sys.exit(f"no proc-macro2 in {registry}")
    print(f"load {os.getloadavg()[0]:.1f}, {os.cpu_count()} processors, {asked.runs} runs in turn")
    with tempfile.TemporaryDirectory() as folder:
        room = pathlib.Path(folder)
        (room / "wrapper").write_text(WRAPPER)
        (room / "wrapper").chmod(0o755)
        if asked.modules:
            modules(room, asked.only, asked.runs)
        else:
            sides = {"package": TOP / place("cargo/proc-macro2"), "public": public.resolve()}
            compare(room, registry, sides, asked.only, asked.runs)
    print(f"load {os.getloadavg()[0]:.1f} at the end")


if __name__ == "__main__":
    main()
