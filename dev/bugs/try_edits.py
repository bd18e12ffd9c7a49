#!/usr/bin/env python3
"""Tries edits that plant bugs: the prover must refuse each.

Name a crate for its edits in dev/bugs/CRATE.txt, `CRATE/NAME` for those of them whose names begin so, a folder
`crates/CRATE/must-fail` for those that the gate tries, or one of its files. With no name all edits of dev/bugs/ are
tried. Each edit is tried in a copy of its crate over what `rt check` keeps in out/, so that only what the edit changes
is proved. A crate that was not checked since it changed is proved first, in the copy.

Edits of functions are tried up to --together at a time in one check, each in a function of its own, and count as
refused where the prover says so of that very function. What it doesn't say so of, and what changes anything else, is
tried alone.

One line an edit: `refused`; `refused for a name alone`, where all that failed is a proof file that cites what the edit
took away, so that it says little of a contract; `NOT REFUSED`; or `BAD EDIT`, which tried no contract. The status is 0
where every edit is refused.
"""
import argparse
import os
import re
import shutil
import signal
import subprocess
import sys
import tempfile
import time
from concurrent.futures import ThreadPoolExecutor, as_completed
from pathlib import Path
from queue import Queue

sys.dont_write_bytecode = True
from planted import TOP, BadEdit, files_of_bugs, of_bugs, of_file, of_gate  # noqa: E402

PARTS = ("src", "specs", "proofs")
REFUSED, BY_NAME, PASSED, BAD = "refused", "refused for a name alone", "NOT REFUSED", "BAD EDIT"

# What the prover says where a proof file cites what is no longer there.
NAME_GONE = re.compile(
    r"(\./)?proofs/.*(has no field|is not in scope|has no `|record `[^`]*` \(nearest: |was not admitted)"
)
# What it says of a text that it can't read, where no statement was tried.
UNREADABLE = re.compile(r"is not in scope|has no field|is no name|operand is missing|expected the end|cannot continue")
PLACE = re.compile(r"(?:note: )?(?:\./)?(\S+?):\d+:\d+: ")
ERROR = re.compile(r"(?:\./)?(\S+?):\d+:\d+: error: (?:(`[^`]*`): )?(.*)")


# ---- the edits


def edits_named(names):
    """The edits that the words of the command line name, by their crates."""
    edits = []
    for name in names or [file.stem for file in files_of_bugs()]:
        path, (crate, _, front) = Path(name), name.partition("/")
        if path.suffix == ".edit" and path.is_file():
            found = [of_file(path)]
        elif path.name == "must-fail" and path.is_dir():
            found = of_gate(path.resolve().parent.name)
        else:
            file = TOP / "dev/bugs" / f"{crate}.txt"
            found = [edit for edit in of_bugs(file) if edit.name.startswith(front)] if file.is_file() else []
        if not found:
            sys.exit(f"there is no edit {name}")
        edits += found
    by_crate, known = {}, libraries()
    for edit in edits:
        if edit.crate not in known:
            sys.exit(f"{edit.place}: crates.txt has no crate {edit.crate}")
        by_crate.setdefault(edit.crate, []).append(edit)
    return by_crate


def apply(edit, crate):
    """Changes the files of the copied crate as the edit says, and returns their paths in it."""
    def read(name):
        if not name.startswith(PARTS) or not (crate / name).is_file():
            raise BadEdit(f"there is no file {name}")
        return (crate / name).read_text(encoding="utf-8")

    texts = edit.changed(read)
    for name, text in texts.items():
        # A new file, so that what the other copies share stays as it was.
        (crate / name).unlink()
        (crate / name).write_text(text, encoding="utf-8")
    return set(texts)


# ---- copies of the repository


def libraries():
    """The repository's libraries that each crate stands on, by crates.txt."""
    uses = {}
    for line in (TOP / "crates.txt").read_text().splitlines():
        name, colon, deps = line.partition("#")[0].partition(":")
        if colon:
            uses[name.split()[0]] = deps.split()
    return {name: [dep for dep in deps if dep in uses] for name, deps in uses.items()}


def below(crate, uses):
    """The repository's libraries below a crate."""
    found = set(uses[crate])
    for dep in uses[crate]:
        found |= below(dep, uses)
    return found


def copy_repository(crate, to, keeps=True):
    """Copies the crates, the kept work of one of them if asked for, and the libraries below it as they were built."""
    shutil.copy(TOP / "crates.txt", to)
    uses = libraries()
    kept = {dep: "out/rlib" for dep in below(crate, uses)}
    if keeps:
        kept[crate] = "out/incremental"
    for name in uses:
        for part in (*PARTS, *([kept[name]] if name in kept else [])):
            if (TOP / "crates" / name / part).is_dir():
                shutil.copytree(TOP / "crates" / name / part, to / "crates" / name / part)


def clone(folder, to):
    """Copies a folder by hard links, in place of what is there. The prover replaces files, and writes into none."""
    shutil.rmtree(to, ignore_errors=True)
    shutil.copytree(folder, to, copy_function=os.link)


def check(repository, crate, jobs=1):
    """Checks the crate of a copied repository, and returns the status and what was said."""
    command = ["rt", "check", "--jobs", str(jobs)]
    how = {"stdin": subprocess.DEVNULL, "stdout": subprocess.PIPE, "stderr": subprocess.STDOUT}
    ran = subprocess.run(command, cwd=repository / "crates" / crate, text=True, errors="replace", **how)
    return ran.returncode, ran.stdout


# ---- the functions that edits change

FUNCTION = re.compile(r"(\s*)(?:pub(?:\([a-z]+\))? )?(?:const |unsafe )*fn (\w+)")


def function_at(text, line):
    """The first line and the name of the function that a line of a source file is in, counted from 1, or nothing."""
    lines = text.split("\n")
    for first in range(line, 0, -1):
        found = FUNCTION.match(lines[first - 1])
        if found:
            end = next((n for n in range(first, len(lines) + 1) if lines[n - 1] == found[1] + "}"), 0)
            return (first, found[2]) if line <= end else None
    return None


def function_of(edit, crate):
    """The file, first line and name of the one function that an edit changes, or nothing."""
    try:
        steps = edit.steps()
    except BadEdit:
        return None
    found = set()
    for name, old, _ in steps:
        file = crate / name
        text = file.read_text(encoding="utf-8") if name.startswith("src/") and file.is_file() else ""
        at = function_at(text, text[: text.index(old)].count("\n") + 1) if text.count(old) == 1 else None
        if not at:
            return None
        found.add((name, *at))
    return found.pop() if len(found) == 1 else None


def batches(edits, crate, most):
    """The edits in lists to be tried together, no two in functions of one name in a file; those to be tried alone."""
    lists, alone = [], []
    for edit in edits:
        of = function_of(edit, crate)
        if not of or most < 2:
            alone.append(edit)
            continue
        fitting = (it for it in lists if len(it) < most and all(known[0::2] != of[0::2] for known in it.values()))
        batch = next(fitting, None)
        if batch is None:
            lists.append(batch := {})
        batch[edit] = of
    return lists, alone


# ---- what a check says of an edit


def unreadable(line, changed):
    """Whether the prover couldn't read a text that the edit changed or that the crate is made of."""
    error = ERROR.match(line)
    if not error or not (error[1] in changed or error[1].startswith(("src/", "specs/"))):
        return False
    return not error[2] or bool(UNREADABLE.search(re.sub(r"`[^`]*`", "", error[3])))


def verdict(status, log, changed):
    """What came of an edit, and the line that shows it."""
    lines = log.splitlines()
    if status == 0:
        return PASSED, "the crate is still proved with it"
    for line in lines:
        if unreadable(line, changed):
            return BAD, f"the prover cannot read the edited text: {line}"
    if not any(line.startswith("logic=not-proved") for line in lines):
        errors = [line for line in lines if "error" in line]
        return BAD, f"it did not reach the prover: {(errors or lines or ['it said nothing'])[0]}"
    notes = [line for line in lines if PLACE.match(line) and (": error" in line or line.startswith("note: "))]
    telling = [line for line in notes if not NAME_GONE.match(line)]
    if notes and not telling:
        return BY_NAME, notes[0]
    return REFUSED, telling[0] if telling else ""


def try_edit(edit, crate, base, repository):
    """Tries one edit in a copied repository, over the kept work of the base."""
    copied = repository / "crates" / crate
    clone(base / "crates" / crate, copied)
    try:
        changed = apply(edit, copied)
    except BadEdit as error:
        return BAD, str(error)
    return verdict(*check(repository, crate), changed)


def shown(log, of, crate):
    """The line that shows the prover refuse the function, or nothing."""
    name, first, function = of
    module = name.removeprefix("src/").removesuffix(".rt").removesuffix("/mod")
    folders = re.compile(rf"(\./)?proofs/{re.escape(module)}/(\w+/)?{function}/\w+\.antt:")
    text = (crate / name).read_text(encoding="utf-8")
    for line in log.splitlines():
        place = re.match(r"note: (?:\./)?(src/\S+?):(\d+):\d+: it is not proved", line)
        if place and place[1] == name and function_at(text, int(place[2])) == (first, function):
            return line
        if folders.match(line) and ": error" in line and not NAME_GONE.match(line):
            return line
    return None


def try_together(batch, crate, base, repository):
    """Tries edits of functions of their own in one check. It answers what shows each refused, of those that are."""
    copied = repository / "crates" / crate
    clone(base / "crates" / crate, copied)
    for edit in list(batch):
        try:
            apply(edit, copied)
        except BadEdit:
            # An edit before it wrote its old text once more, so it is tried alone.
            batch = {other: of for other, of in batch.items() if other is not edit}
    status, log = check(repository, crate)
    if status and any(line.startswith("logic=not-proved") for line in log.splitlines()):
        found = {edit: shown(log, of, copied) for edit, of in batch.items()}
        return {edit: line for edit, line in found.items() if line}
    # One that can't be read hides the others.
    edits = list(batch.items())
    if status and len(edits) > 1:
        half = len(edits) // 2
        return {**try_together(dict(edits[:half]), crate, base, repository),
                **try_together(dict(edits[half:]), crate, base, repository)}
    return {}


def try_crate(crate, edits, lanes, most, room):
    """Tries the edits of one crate, as many at a time as there are lanes, and returns what came of each."""
    base = Path(tempfile.mkdtemp(prefix=f"{crate}-", dir=room))
    copy_repository(crate, base)
    status, log = check(base, crate, lanes)
    if status:
        print(f"{crate} itself is not proved, so none of its {len(edits)} edits was tried:\n{log[-2000:]}", flush=True)
        return [BAD] * len(edits)
    free = Queue()
    for number in range(min(lanes, len(edits))):
        clone(base, room / f"{crate}-lane-{number}")
        free.put(room / f"{crate}-lane-{number}")

    def work(batch):
        """Tries a list of edits, each that isn't shown to be refused once more alone."""
        repository, found = free.get(), []
        try:
            began = time.monotonic()
            refused = try_together(batch, crate, base, repository) if len(batch) > 1 else {}
            share = (time.monotonic() - began) / len(batch)
            for edit in batch:
                began = time.monotonic()
                one = (REFUSED, refused[edit]) if edit in refused else try_edit(edit, crate, base, repository)
                found.append((edit, one, share + time.monotonic() - began))
        finally:
            free.put(repository)
        return found

    lists, alone = batches(edits, base / "crates" / crate, most)
    results, pool = [], ThreadPoolExecutor(lanes)
    try:
        for done in as_completed([pool.submit(work, batch) for batch in lists + [{edit: None} for edit in alone]]):
            for edit, (result, why), seconds in done.result():
                print(f"{result}: {crate}/{edit.name} ({seconds:.0f} s): {why[:200]}", flush=True)
                results.append(result)
    finally:
        # Where this is stopped, the edits that wait are not begun.
        pool.shutdown(cancel_futures=True)
    for folder in room.iterdir():
        shutil.rmtree(folder)
    return results


def main():
    form = argparse.RawDescriptionHelpFormatter
    words = argparse.ArgumentParser(prog="dev/bugs/try.sh", description=__doc__, formatter_class=form)
    words.add_argument("-j", "--lanes", type=int, default=1, metavar="N", help="how many edits to try at a time (1)")
    words.add_argument("--together", type=int, default=24, metavar="N", help="how many edits to try in one check (24)")
    words.add_argument("names", nargs="*", metavar="CRATE | CRATE/NAME | FOLDER | FILE.edit")
    given = words.parse_args()
    # So that the copies are removed where a signal ends this.
    signal.signal(signal.SIGTERM, lambda *_: sys.exit("stopped"))
    results = []
    with tempfile.TemporaryDirectory(prefix="bugs-") as room:
        for crate, edits in edits_named(given.names).items():
            results += try_crate(crate, edits, max(1, given.lanes), given.together, Path(room))
    counts = {kind: results.count(kind) for kind in (REFUSED, BY_NAME, PASSED, BAD)}
    print(", ".join(f"{count} {kind}" for kind, count in counts.items() if count) or "no edits")
    return 0 if counts[REFUSED] + counts[BY_NAME] == len(results) else 1


if __name__ == "__main__":
    sys.exit(main())
