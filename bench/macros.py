#!/usr/bin/env python3
"""Measures macros over this library beside macros over syn and quote, and the way of tokens to other crates.

Usage: bench/macros.py REGISTRY [rows | inside | builds | derives].. [--runs N] [--derives N] [--library OTHER]

REGISTRY is a folder of unpacked crates, as cargo/packages.sh makes it: syn 2, quote, proc-macro2 and unicode-ident. The
packages of bench/macros are copied into a folder of their own, and Cargo builds them there, over the packages of this
checkout or of OTHER. Without a word all is done:

    rows     Instructions of a call, and of one of its 75 tokens, by callgrind: what a process takes for 300 calls, less
             what one takes for 100. The package is built for release, and its tokens are the public crate's own: this
             is how a build script or a test uses them. The answers are dropped, which is counted too.
    inside   The same calls in a macro inside the compiler, whose tokens proc-macro2 then hands on. Counted is all that
             rustc takes for 600 calls less what it takes for 200, so the compiler's side of each token is counted too.
             The macro is built with optimisations and, in the second column, as cargo builds macros by default.
    builds   User seconds of `cargo build` of macros from nothing, by one job: those of cargo/examples and the same ones
             over syn and quote, with the features of syn that they need. The least of N runs by turns, 5 if left out.
             This library is built without parts that are kept for a next build, as cargo builds packages of a registry.
    derives  User seconds of `cargo check` of a crate with 2000 structs of 8 fields, each with a derive, less those of
             the same crate without the derives. The macros are built before, as cargo does by default. The least of N
             runs by turns, with the shares of the least runs.

Instructions do not depend on the load; user seconds do a little, so the load is printed with them.
"""
import argparse
import concurrent.futures
import os
import pathlib
import re
import shutil
import subprocess
import sys
import tempfile

sys.dont_write_bytecode = True
import workspace  # noqa: E402

TOP = pathlib.Path(__file__).resolve().parent.parent
PACKAGES = ["cargo/proved-tokens", "cargo/proved-macros", "cargo/examples/names", "cargo/examples/traced",
"bench/macros"] WORDS = ("rows", "inside", "builds", "derives") TOKENS = 75
# How many derives are counted: what rustc takes for the second number less what it takes for the first.
FEW, MANY = 50, 150
# How many processes run at once where instructions are counted.
AT_ONCE = 2
# The folder of each macro over this library, and over syn and quote.
PAIRS = {"names": ("cargo/examples/names", "bench/macros/syn_names"),
         "traced": ("cargo/examples/traced", "bench/macros/syn_traced")}
GETTERS = {"this library": "bench/macros/getters", "syn and quote": "bench/macros/syn_getters"}
CONFIG = '[source.crates-io]\nreplace-with = "here"\n[source.here]\ndirectory = "{}"\n'
USER = '[package]\nname = "user"\nversion = "0.1.0"\nedition = "2021"\n\n[workspace]\n\n[dependencies]\n'
OPTIMISED = ["--config", "profile.release.build-override.opt-level=3"]


def environment(target: pathlib.Path, **more: str) -> dict[str, str]:
    """The variables for cargo. Packages of a folder would be built by parts, and those of a registry not."""
    kept = {name: value for name, value in os.environ.items()
            if name not in workspace.CHANGING and not name.startswith("CARGO_PROFILE")}
    return kept | {"CARGO_TARGET_DIR": str(target), "CARGO_INCREMENTAL": "0"} | more


def cargo(folder: pathlib.Path, target: pathlib.Path, *words: str) -> float:
    """Runs cargo in a package, and answers the user seconds of all that it ran."""
    child = subprocess.Popen(["cargo", *words, "--offline", "--quiet", "-j1"], cwd=folder, env=environment(target))
    _, status, used = os.wait4(child.pid, 0)
    child.returncode = os.waitstatus_to_exitcode(status)
    if child.returncode:
        sys.exit(f"cargo {' '.join(words)} in {folder} ended with status {child.returncode}")
    return used.ru_utime


def instructions(command: list[str], room: pathlib.Path, **more: str) -> int:
    """How many instructions a command takes."""
    valgrind = ["valgrind", "--tool=callgrind", "--callgrind-out-file=/dev/null"]
    ran = subprocess.run([*valgrind, *command], cwd=room, env=environment(room / "target", **more),
                         capture_output=True, text=True)
    collected = re.search(r"Collected : (\d+)", ran.stderr)
    if ran.returncode or not collected:
        sys.exit(f"{' '.join(command)}: status {ran.returncode}\n{ran.stderr}")
    return int(collected.group(1))


def rustc() -> str:
    """The compiler itself, without what chooses one."""
    shown = subprocess.run(["rustc", "--print", "sysroot"], capture_output=True, text=True, check=True)
    return f"{shown.stdout.strip()}/bin/rustc"


def rows_of(room: pathlib.Path) -> tuple[pathlib.Path, list[str]]:
    """The built program with the rows, and their names. The program checks that all ways give the same tokens."""
    cargo(room / "bench/macros/templates", room / "target", "build", "--release")
    program = room / "target/release/templates"
    return program, subprocess.run([program], capture_output=True, text=True, check=True).stdout.split()


def note(row: str, counts: list[float], public: dict[str, list[float]]) -> None:
    """Prints a row, each count with its share in the one of the public macro for the same template."""
    kind = row.split("_")[0]
    if row.endswith("public_quote"):
        public[kind] = counts
    cells = [f"{count:>9.0f} {count / TOKENS:>7.0f} " +
             (f"{count / public[kind][index]:>6.2f}" if kind in public else " " * 6)
             for index, count in enumerate(counts)]
    print(f"{row:<22}" + "  ".join(cells), flush=True)


def rows(room: pathlib.Path) -> None:
    program, names = rows_of(room)
    print(f"{'outside the compiler':<22}{'a call':>9} {'a token':>7} {'ratio':>6}")
    public: dict[str, list[float]] = {}

    def counted(row: str) -> list[float]:
        few, many = (instructions([str(program), row, calls], room) for calls in ("100", "300"))
        return [(many - few) / 200]

    with concurrent.futures.ThreadPoolExecutor(AT_ONCE) as pool:
        for row, counts in zip(names, pool.map(counted, names)):
            note(row, counts, public)


def inside(room: pathlib.Path) -> None:
    _, names = rows_of(room)
    folder = room / "bench/macros/inside"
    targets = [room / "optimised", room / "default"]
    for target, words in zip(targets, (OPTIMISED, [])):
        cargo(folder, target, "build", "--release", *words)
    (room / "user.rs").write_text("repeats::repeated! {}\n")

    def compiled(target: pathlib.Path, row: str = "user") -> list[str]:
        return [rustc(), "--edition=2021", "--crate-type=lib", "--emit=metadata", "user.rs",
                "-o", f"{row}.rmeta", "--extern", f"repeats={target}/release/librepeats.so"]

    for target in targets:
        subprocess.run(compiled(target), cwd=room, check=True)
    print(f"{'inside the compiler':<22}{'a call':>9} {'a token':>7} {'ratio':>6}  and as built by default")
    public: dict[str, list[float]] = {}
    names = [row for row in names if row.endswith(("public_quote", "by_hand", "back"))]

    def counted(row: str) -> list[float]:
        counts = []
        for target in targets:
            few, many = (instructions(compiled(target, row), room, ROW=row, CALLS=calls) for calls in ("200", "600"))
            counts.append((many - few) / 400)
        return counts

    with concurrent.futures.ThreadPoolExecutor(AT_ONCE) as pool:
        for row, counts in zip(names, pool.map(counted, names)):
            note(row, counts, public)


def by_turns(sides: dict[str, callable], runs: int) -> dict[str, float]:
    """The least of some runs of each side, by turns."""
    least: dict[str, float] = {}
    for _ in range(runs):
        for side, run in sides.items():
            least[side] = min(run(), least.get(side, float("inf")))
    return least


def builds(room: pathlib.Path, runs: int) -> None:
    def built(folder: str) -> float:
        shutil.rmtree(room / "fresh", ignore_errors=True)
        return cargo(room / folder, room / "fresh", "build")

    print(f"user seconds of a build from nothing, the least of {runs}, load {os.getloadavg()[0]:.1f}")
    sides = {folder: lambda folder=folder: built(folder) for pair in PAIRS.values() for folder in pair}
    least = by_turns(sides, runs)
    for name, (own, syn) in PAIRS.items():
        print(f"{name:<8} {least[own]:6.2f} {least[syn]:6.2f} over syn, ratio {least[own] / least[syn]:.2f}")


def structs(derives: int, derive: str) -> str:
    """A crate with so many structs of 8 fields."""
    kinds = ["u8", "String", "Vec<u8>", "&'static str", "Option<(u32, bool)>", "[u16; 4]", "Result<T, u8>", "Box<T>"]
    fields = "".join(f"    field_{index}: {kind},\n" for index, kind in enumerate(kinds))
    items = (f"/// A struct.\n{derive}pub struct Struct{index}<T: Clone> {{\n{fields}}}\n" for index in range(derives))
    return "#![allow(dead_code)]\n" + "".join(items)


def derives(room: pathlib.Path, runs: int, number: int) -> None:
    sides = {}
    for index, (side, folder) in enumerate([*GETTERS.items(), ("no derive", None)]):
        user = room / f"user{index}"
        (user / "src").mkdir(parents=True)
        needs = f'getters = {{ path = "{room / folder}" }}\n' if folder else ""
        (user / "Cargo.toml").write_text(f"{USER}{needs}")
        source = user / "src/lib.rs"
        source.write_text(structs(number, "#[derive(getters::Getters)]\n" if folder else ""))
        cargo(user, user / "target", "check")

        def checked(user: pathlib.Path = user, source: pathlib.Path = source) -> float:
            # Of the package itself nothing is kept; the macro stays built.
            for path in (user / "target/debug").rglob("*user-*"):
                shutil.rmtree(path) if path.is_dir() else path.unlink()
            source.touch()
            return cargo(user, user / "target", "check")

        sides[side] = checked
    print(f"user seconds of checking {number} derives of 8 fields, the least of {runs}, load {os.getloadavg()[0]:.1f}")
    least = by_turns(sides, runs)
    base = least["no derive"]
    for side in GETTERS:
        print(f"{side:<14} {least[side]:6.2f}, so {least[side] - base:.2f} more than without a derive")
    own, syn = (least[side] - base for side in GETTERS)
    print(f"without        {base:6.2f}\nratio of what the derives add: {own / syn:.2f}")
    counted = [derive_counted(room, room / f"user{index}") for index in range(len(GETTERS))]
    print(f"instructions of rustc for a derive and its struct: {counted[0]:.0f} and {counted[1]:.0f}, "
          f"ratio {counted[0] / counted[1]:.2f}")


def derive_counted(room: pathlib.Path, user: pathlib.Path) -> float:
    """How many instructions rustc takes for a struct with its derive."""
    macro = next((user / "target/debug/deps").glob("*getters-*.so"))
    counts = []
    for number in FEW, MANY:
        (room / "few.rs").write_text(structs(number, "#[derive(getters::Getters)]\n"))
        counts.append(instructions([rustc(), "--edition=2021", "--crate-type=lib", "--emit=metadata", "few.rs",
                                    "-o", "few.rmeta", "--extern", f"getters={macro}"], room))
    return (counts[1] - counts[0]) / (MANY - FEW)


def main() -> None:
    parser = argparse.ArgumentParser(description=__doc__, formatter_class=argparse.RawDescriptionHelpFormatter)
    parser.add_argument("registry", type=pathlib.Path)
    parser.add_argument("words", nargs="*", choices=[*WORDS, []], metavar="WORD")
    parser.add_argument("--runs", type=int, default=5)
    parser.add_argument("--derives", type=int, default=2000)
    parser.add_argument("--library", type=pathlib.Path, default=TOP, help="another checkout, whose rust is measured")
    asked = parser.parse_args()
    with tempfile.TemporaryDirectory(prefix="macros-") as folder:
        room = pathlib.Path(folder).resolve()
        for name in PACKAGES:
            source = TOP if name.startswith("bench") else asked.library.resolve()
            shutil.copytree(source / name, room / name, ignore=shutil.ignore_patterns("target", "Cargo.lock"))
        (room / ".cargo").mkdir()
        (room / ".cargo/config.toml").write_text(CONFIG.format(asked.registry.resolve()))
        for word in asked.words or WORDS:
            match word:
                case "rows":
                    rows(room)
                case "inside":
                    inside(room)
                case "builds":
                    builds(room, asked.runs)
                case "derives":
                    derives(room, asked.runs, asked.derives)


main()
