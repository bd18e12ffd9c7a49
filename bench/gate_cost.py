#!/usr/bin/env python3
"""Says where the processor minutes of the gate go, by crate and by phase.

Usage: bench/gate_cost.py [--out FILE] [COMMAND ..]
Runs the command, `rt ci` if none is given, and looks at the processes that it starts five times a second. It adds up
their processor time, user and system, by the crate and the phase that their words tell, and prints a Markdown table.
With --out the table goes to FILE too. The status is that of the command.

The kernel adds the time of a process that ended to that of the process that waited for it. So what a process used after
the last look at it is counted too, under its own crate and phase; what was too short to be seen goes to its parent's.
"""
import argparse
import ctypes
import os
import re
import resource
import subprocess
import sys
import time

PAUSE = 0.2
TICK = os.sysconf("SC_CLK_TCK")
PHASES = ("first proof", "proof of tests", "edits", "LLVM, runs", "rest")
PROOF, TESTS, EDITS, BUILDS, REST = range(len(PHASES))
BUILDERS = re.compile(r"(clang|ld|lld|llvm|rattle-link|rattle-test|opt|llc)\b")


class Process:
    """A process that was seen, and what was counted of it and of those that it started."""

    def __init__(self, parent):
        self.parent = parent
        self.name = ""
        self.kind = ("", REST)
        self.own = 0.0
        self.has_ended = False
        # What was counted of it and of its children, and of those of its children that ended.
        self.counted = 0.0
        self.of_ended = 0.0
        self.last_ended = []


def read(path):
    """A file of /proc, or nothing where the process has ended."""
    try:
        with open(path, "rb") as it:
            return it.read()
    except OSError:
        return b""


def processes():
    """All processes: their parents, names, processor time, and that of the children that they waited for."""
    found = {}
    for name in os.listdir("/proc"):
        stat = read(f"/proc/{name}/stat").decode(errors="replace") if name.isdigit() else ""
        if stat:
            fields = stat[stat.rindex(")") + 2 :].split()
            times = [int(it) / TICK for it in fields[11:15]]
            started = fields[19]
            comm = stat[stat.index("(") + 1 : stat.rindex(")")]
            found[int(name), started] = int(fields[1]), comm, times[0] + times[1], times[2] + times[3]
    return found


def kind_of(pid, inherited):
    """The crate and the phase of a process, by its words and its folder; else those of its parent."""
    words = read(f"/proc/{pid}/cmdline").decode(errors="replace").split("\0")
    try:
        folder = os.readlink(f"/proc/{pid}/cwd")
    except OSError:
        folder = ""
    if "--crate-name" in words:
        crate = words[words.index("--crate-name") + 1]
        if "/rt-edit-" in folder or "/bugs-" in folder:
            return crate, EDITS
        if "--crate-checked" in words:
            return crate, BUILDS
        return crate, TESTS if "--test" in words else PROOF
    ran = re.search(r"/rt-run-[^/]*/bin/(\w+)", " ".join(words))
    if ran:
        return ran[1].removesuffix("_tests"), BUILDS
    if BUILDERS.match(os.path.basename(words[0])):
        place = re.search(r"/crates/(\w+)", " ".join([folder, *words]))
        return place[1] if place else inherited[0], BUILDS
    return inherited


class Cost:
    """What was counted so far."""

    def __init__(self):
        self.top = Process(None)
        self.known = {}
        self.by_kind = {}
        self.edits = {}
        self.ended_before = children_time()

    def add(self, process, kind, seconds):
        """Counts the time of a process, which its ancestors' includes."""
        self.by_kind[kind] = self.by_kind.get(kind, 0.0) + seconds
        while process:
            process.counted += seconds
            process = process.parent

    def parent_of(self, ppid, by_pid):
        return self.top if ppid == os.getpid() else self.known.get(by_pid.get(ppid))

    def look(self):
        """Counts what the command's processes used since the last look."""
        seen = processes()
        by_pid = {pid: (pid, started) for pid, started in seen}
        # A process is younger than its parent, but its number may be lower.
        for key in sorted(seen, key=lambda it: (int(it[1]), it[0])):
            ppid, name, own, _ = seen[key]
            parent = self.parent_of(ppid, by_pid)
            if parent is None:
                continue
            process = self.known.get(key)
            if process is None:
                process = self.known[key] = Process(parent)
            if process.parent is not parent:
                self.move(process, parent)
            if process.name != name:
                # It is new, or another program runs in it.
                process.name, process.kind = name, kind_of(key[0], parent.kind)
                self.note_edit(key[0], process.kind)
            self.add(process, process.kind, own - process.own)
            process.own = own
        self.forget([key for key in self.known if key not in seen])
        for key, process in self.known.items():
            self.settle(process, seen[key][3])
        self.settle(self.top, children_time() - self.ended_before)

    def move(self, process, parent):
        """Takes an orphan to the process that adopted it."""
        above = process.parent
        while above:
            above.counted -= process.counted
            if above.has_ended:
                above.parent.of_ended -= process.counted
            above = above.parent
        process.parent = parent
        while parent:
            parent.counted += process.counted
            parent = parent.parent

    def forget(self, keys):
        """Takes note of processes that ended."""
        parents = {self.known[key].parent for key in keys}
        for parent in parents:
            parent.last_ended = []
        for key in keys:
            process = self.known.pop(key)
            process.has_ended = True
            process.parent.of_ended += process.counted
            process.parent.last_ended.append(process.kind)

    def settle(self, process, by_kernel):
        """Counts what the kernel knows of a process's ended children and no look saw."""
        unseen = by_kernel - process.of_ended
        if unseen <= 0:
            return
        kinds = process.last_ended or [process.kind]
        for kind in kinds:
            self.add(process, kind, unseen / len(kinds))
        process.of_ended = by_kernel

    def note_edit(self, pid, kind):
        if kind[1] == EDITS:
            try:
                self.edits.setdefault(kind[0], set()).add(os.readlink(f"/proc/{pid}/cwd"))
            except OSError:
                pass


def children_time():
    """The processor time of this process's children that ended and were waited for."""
    used = resource.getrusage(resource.RUSAGE_CHILDREN)
    return used.ru_utime + used.ru_stime


def run(command):
    """Runs the command and returns its cost, its status and the seconds that it took."""
    # Orphans come to this process, so that their time is known too.
    ctypes.CDLL(None).prctl(36, 1, 0, 0, 0)
    began = time.monotonic()
    cost = Cost()
    started = subprocess.Popen(command)
    status = None
    while status is None:
        time.sleep(PAUSE)
        cost.look()
        status = ended(started.pid)
    cost.look()
    return cost, status, time.monotonic() - began


def ended(wanted):
    """Waits for all children that ended, and returns the status of the one wanted if it did."""
    status = None
    while True:
        try:
            pid, code = os.waitpid(-1, os.WNOHANG)
        except ChildProcessError:
            return status
        if pid == 0:
            return status
        if pid == wanted:
            status = os.waitstatus_to_exitcode(code)


def table(cost, command, seconds):
    """The cost as a Markdown table, in processor minutes: the proofs, and all with LLVM, runs and the rest. What is
    less than 3 seconds is left out."""
    crates = sorted({crate for crate, _ in cost.by_kind}, key=lambda it: (not it, it))
    rows = {crate: [cost.by_kind.get((crate, phase), 0.0) for phase in range(len(PHASES))] for crate in crates}
    rows["all"] = [sum(column) for column in zip(*rows.values())]
    lines = ["Crate | proof | tests | edits | all", "---" + "|---:" * 4]
    for crate, times in rows.items():
        minutes = [it / 60 for it in (*times[:BUILDS], sum(times))]
        lines.append(" | ".join([crate or "none", *(f"{it:.1f}" if it >= 0.05 else "" for it in minutes)]).rstrip())
    minutes = sum(rows["all"]) / 60
    tried = sum(map(len, cost.edits.values()))
    lines.append("")
    lines.append(f"`{' '.join(command)}`: {minutes:.1f} processor minutes in {seconds / 60:.1f} minutes,")
    lines.append(f"{tried} edits tried, on {len(os.sched_getaffinity(0))} processors, on {time.strftime('%Y-%m-%d')}.")
    return "\n".join(lines) + "\n"


def main():
    form = argparse.RawDescriptionHelpFormatter
    words = argparse.ArgumentParser(prog="bench/gate_cost.py", description=__doc__, formatter_class=form)
    words.add_argument("--out", metavar="FILE", help="writes the table there too")
    words.add_argument("command", nargs=argparse.REMAINDER, metavar="COMMAND ..")
    given = words.parse_args()
    command = given.command or ["rt", "ci"]
    cost, status, seconds = run(command)
    text = table(cost, command, seconds)
    print(text, end="")
    if given.out:
        with open(given.out, "w", encoding="utf-8") as it:
            it.write(text)
    return status


if __name__ == "__main__":
    sys.exit(main())
