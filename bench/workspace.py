"""Packages of this repository as members of one workspace in a folder of their own, which Cargo builds for release.

In a workspace no path of the folder gets into the code, so that what is built is the same in each folder.
"""
import os
import pathlib
import re
import shutil
import subprocess
import sys

TOP = pathlib.Path(__file__).resolve().parent.parent
# Variables that would change what is built.
CHANGING = ("RUSTFLAGS", "CARGO_ENCODED_RUSTFLAGS", "CARGO_BUILD_RUSTFLAGS", "CARGO_INCREMENTAL")
# By what is in cargo/ and dev/, where it was before there were these folders. bench/ may be laid over such a checkout.
OLDER = {"cargo/proved-tokens": "rust/proved", "cargo/tokens": "rust/tools", "cargo/": "rust/", "dev/bugs": "bugs",
         "dev/checks": "checks", "dev/": "rust/"}
IS_OLDER = not (TOP / "cargo").is_dir()


def place(name: str) -> str:
    """Where this checkout has a file or folder that is in cargo/ or dev/ now."""
    if not IS_OLDER:
        return name
    return next((old + name.removeprefix(new) for new, old in OLDER.items() if name.startswith(new)), name)


def package(name: str, room: str) -> pathlib.Path:
    """A package of bench/ to build: where it is, or in an older checkout a copy that names the older places."""
    if not IS_OLDER:
        return TOP / name
    copy = shutil.copytree(TOP / name, pathlib.Path(room, name), ignore=shutil.ignore_patterns("target", "Cargo.lock"))
    manifest = (copy / "Cargo.toml").read_text()
    named = re.sub(r"(?:\.\./)+(cargo/[\w-]+)", lambda path: str(TOP / place(path[1])), manifest)
    (copy / "Cargo.toml").write_text(named)
    return copy


def lay_out(room: pathlib.Path, members: list[str], others: list[str] = (), library: pathlib.Path = TOP) -> None:
    """Copies these packages and the library of a checkout, cargo/proved-tokens, to the same places in a room.

    The library of another checkout is made of its proved sources by this checkout's dev/erase, so that both have the
    same calls. The others are files and folders that no member of the workspace is in, but that the members name.
    """
    proved = place("cargo/proved-tokens")
    for name in [*map(place, members), *map(place, others), proved]:
        source = TOP / name
        if name == proved and library != TOP:
            subprocess.run([sys.executable, TOP / place("dev/erase"), "--library", library, room / name], check=True)
        elif source.is_dir():
            shutil.copytree(source, room / name, ignore=shutil.ignore_patterns("target", "Cargo.lock"))
        else:
            shutil.copy(source, room / name)
    for manifest in room.rglob("Cargo.toml"):
        text = manifest.read_text().replace("\n[workspace]\n", "\n")
        manifest.write_text(re.sub(r"(?<=\.\./)(?:cargo|dev)/[\w-]+", lambda named: place(named[0]), text))
    names = ", ".join(f'"{place(name)}"' for name in members)
    (room / "Cargo.toml").write_text(f'[workspace]\nresolver = "2"\nmembers = [{names}]\n')


def build(room: pathlib.Path, packages: list[str]) -> pathlib.Path:
    """Builds packages, each by itself, so that none gets another's features. Answers the folder of the programs."""
    kept = {name: value for name, value in os.environ.items()
            if name not in CHANGING and not name.startswith("CARGO_PROFILE")}
    kept["CARGO_TARGET_DIR"] = "target"
    for package in packages:
        command = ["cargo", "build", "--release", "--offline", "--quiet", "-p", package]
        subprocess.run(command, cwd=room, env=kept, check=True)
    return room / "target/release"


def plant(room: pathlib.Path, module: str, pattern: str, planted: str) -> int:
    """Replaces each match of a pattern in a module of the library, and answers how many there were."""
    source = room / place("cargo/proved-tokens/src") / module
    found = 0
    for path in sorted(source.rglob("*.rs")):
        text, number = re.subn(pattern, planted, path.read_text())
        found += number
        path.write_text(text)
    return found


def workloads(bench: pathlib.Path) -> list[tuple[str, str, list[str]]]:
    """Name, crate and words of each workload."""
    lines = [line.split() for line in (bench / "workloads.txt").read_text().splitlines()]
    return [(words[0], words[1], words[2:]) for words in lines if words]
