#!/usr/bin/env python3
"""Makes c/pm_c.h of the sources of crates/pm_c, or compares it with them.

Usage: dev/header.py [--check [ARCHIVE]]

The codes are those of src/codes.rt, the records those of src/records.rt, the faults of literals those of
specs/Faults.antt, the reasons those of specs/Reasons.antt, and the calls and their comments those of src/lib.rt. The
codes that a call may answer are those of its record in specs/Calls.antt. With --check nothing is written, and the
status is 1 where pm_c.h is another, where tests.c has no row for some code, or where ARCHIVE, the static library,
exports other calls.
"""
import pathlib
import re
import subprocess
import sys
import textwrap

TOP = pathlib.Path(__file__).resolve().parent.parent
CRATE = TOP / "crates/pm_c"
HEADER = TOP / "c/pm_c.h"
# Rises with each change that a caller sees.
VERSION = 3
TYPES = {"u8": "uint8_t", "u32": "uint32_t", "usize": "size_t", "bool": "bool"}
FRONT = """\
/* Token streams of Rust, read, listed, printed, made and looked up by a proved library. dev/header.py makes this
 * file of the sources of crates/pm_c.
 *
 * Link libpm_c.a and three functions of a heap: the toolchain's liblibc_c.a, or heap.c beside this file.
 *
 * Texts are UTF-8, and a text is given as its bytes and their number. Positions count characters: the first text of a
 * session begins at 1, and each later one a position behind the end of the one before. A span goes from `lo` up to
 * `hi`. All numbers of bytes are named so.
 *
 * A session holds the texts and streams that it read, and what it prints, lists or makes until the next such call:
 * records of trees, records of pieces, a text, and bytes. Its handle goes into a call by value and comes back by
 * `back`, so that `pm_parse(s, &s, ..)` is the usual form. Use one session on one thread at a time, and always on the
 * same one. Sessions share nothing, so each thread may have its own. Nothing here is for signal handlers.
 *
 * No pointer may be null, not even to no bytes, and what one points to overlaps with nothing else of the call. All else
 * is answered by a code. A call that isn't PM_DONE leaves the session live and as it was, but for these: PM_NO_MEMORY
 * and, of pm_list, PM_TOO_LONG may leave other records and another text; PM_FAULT and PM_TOO_LONG of pm_parse, and
 * PM_NO_LITERAL of pm_read_literal, leave the text that was read as a file of the session; PM_NO_MEMORY of pm_parse may
 * leave it. A buffer is written only where it is PM_DONE.
 */
#ifndef PM_C_H
#define PM_C_H
#include <stdbool.h>
#include <stddef.h>
#include <stdint.h>

/* Rises with each change that a caller sees. */
#define PM_VERSION %d

#ifdef __cplusplus
extern "C" {
#endif

/* A session. {0} is none: it isn't live and owns nothing. Copies of a handle are one session. */
typedef struct pm_session {
    void *at;
    bool live;
} pm_session;
"""
BACK = """
#ifdef __cplusplus
}
#endif
#endif
"""


def snake(name: str) -> str:
    return re.sub(r"(?<=.)([A-Z])", r"_\1", name).lower()


def comment(text: str, indent: str = "") -> str:
    """A comment of C, of lines of at most 120 columns. Codes get their prefix, and they and calls lose the quotes."""
    codes = set(re.findall(r"pub const (\w+): u32", (CRATE / "src/codes.rt").read_text()))
    text = re.sub(r"`(pm_\w+)`", r"\1", " ".join(text.split()))
    text = re.sub(r"`(\w+)`", lambda m: f"PM_{m[1]}" if m[1] in codes else m[0], text)
    lines = textwrap.wrap(f"/* {text} */", 120 - len(indent), subsequent_indent=" * ", break_long_words=False)
    if lines[-1].strip() == "* */":
        lines[-1:] = [" */"]
    return "\n".join(indent + line for line in lines)


def codes() -> str:
    found = re.findall(r"((?:///[^\n]*\n)+)pub const (\w+): u32 = (\d+);", (CRATE / "src/codes.rt").read_text())
    rows = [f"{comment(output.replace('///', ''), '    ')}\n    PM_{name} = {number}," for output, name,
            number in found]
    return "\n/* The codes. */\nenum {\n" + "\n".join(rows).rstrip(",") + "\n};\n"


def numbered(output: str, name: str, file: str, function: str) -> str:
    """An enum of the values that a function of specs/ numbers."""
    found = re.findall(rf"{function} \(?\w+\.(\w+)(?: \w+\))? = (\d+)", (CRATE / "specs" / file).read_text())
    rows = [f"    {name.upper()}_{snake(value).upper()} = {number}" for value, number in found]
    return f"\n/* {output} */\nenum {name} {{\n" + ",\n".join(rows) + "\n};\n"


def faults() -> str:
    output = "The faults of a literal's content, in the order of EscapeError."
    return numbered(output, "pm_escape", "Faults.antt", "fault_number")


def reasons() -> str:
    return numbered("Why a text doesn't parse.", "pm_reason", "Reasons.antt", "reason_number")


def records() -> str:
    made = ""
    structs = r"((?:///[^\n]*\n)+)#\[repr\(C\)\]\n#\[derive\(Clone, Copy\)\]\npub struct (\w+) \{\n(.*?)\n\}"
    for output, name, fields in re.findall(structs, (CRATE / "src/records.rt").read_text(), re.S):
        rows = re.findall(r"((?: *///[^\n]*\n)+) *pub (\w+): (\w+),", fields + "\n")
        lines = [
            f"{comment(text.replace('///', ''), '    ')}\n    {TYPES[kind]} {field};" for text, field, kind in rows
        ]
        made += f"\n{comment(output.replace('///', ''))}\ntypedef struct {snake(name)} {{\n" + "\n".join(lines)
        made += f"\n}} {snake(name)};\n"
    return made


def codes_of(name: str, clauses: str) -> list[str]:
    """The codes that the call may answer, as its clauses or their record list them."""
    listed = re.search(r"ensures codes \{ IsAmong \(([^)]*)\)", clauses)
    if not listed:
        record = re.search(r"\b(\w+Answer)\b", clauses)[1]
        calls = (CRATE / "specs/Calls.antt").read_text()
        listed = re.search(rf"pub record {record}\b.*?pub codes : IsAmong \(([^)]*)\)", calls, re.S)
    return [code.strip() for code in listed[1].split("∷") if code.strip() not in ("[]", "DONE")]


def parameter(name: str, kind: str) -> str:
    if kind == "PmSession":
        return f"pm_session {name}"
    if kind == "&mut PmSession":
        return f"pm_session *{name}"
    slices = re.fullmatch(r"&(mut )?\[(\w+)\]", kind)
    if slices:
        of = TYPES.get(slices[2]) or snake(slices[2])
        count = "bytes" if slices[2] == "u8" else "count"
        return f"{'' if slices[1] else 'const '}{of} *{name}, size_t {count}"
    return f"{TYPES[kind]} {name}"


def calls() -> tuple[str, list[str]]:
    """The prototypes with their comments, and the names."""
    made, names, note = "", [], False
    exports = r'((?:///[^\n]*\n)+)#\[unsafe\(no_mangle\)\]\npub extern "C" fn (\w+)\((.*?)\) -> (\w+)\n(.*?)\n\{\n'
    for output, name, given, result, clauses in re.findall(exports, (CRATE / "src/lib.rt").read_text(), re.S):
        if "HandsBack" in clauses and not note:
            made += "\n/* Every call below that has `back` also answers PM_NOT_LIVE, and then doesn't write it. */\n"
            note = True
        hidden = "NOT_LIVE" if "HandsBack" in clauses else ""
        answers = [f"PM_{code}" for code in codes_of(name, clauses) if code != hidden]
        text = output.replace("///", "") + (f" Codes: {', '.join(answers)}." if answers else "")
        parts = [part.split(": ", 1) for part in re.split(r",\s+", given.strip().rstrip(",")) if part]
        words = ", ".join(parameter(*part) for part in parts if part[1] != "Global")
        proto = f"{TYPES.get(result) or snake(result)} {name}({words});"
        made += f"\n{comment(text)}\n"
        made += "\n".join(textwrap.wrap(proto, 120, subsequent_indent=" " * (proto.index("(") + 1))) + "\n"
        names.append(name)
    return made, names


def main() -> int:
    prototypes, names = calls()
    header = FRONT % VERSION + codes() + faults() + reasons() + records() + prototypes + BACK
    if sys.argv[1:2] != ["--check"]:
        HEADER.write_text(header)
        return 0
    wrong = []
    if HEADER.read_text() != header:
        wrong.append("pm_c.h isn't what dev/header.py makes of the sources")
    tests = (TOP / "c/tests.c").read_text()
    wrong += [f"tests.c has no row of {code}" for code in re.findall(r"^    (PM_[A-Z_0-9]+) =", codes(), re.M)
              if not re.search(rf"\b{code}\b", tests)]
    wrong += [f"tests.c has no call of {name}" for name in names if f"{name}(" not in tests]
    if len(sys.argv) > 2:
        listed = subprocess.run(["nm", "-g", "--defined-only", sys.argv[2]], capture_output=True, text=True, check=True)
        exported = set(re.findall(r"^[0-9a-f]+ T (pm_\w+)$", listed.stdout, re.M))
        if exported != set(names):
            wrong.append(f"the archive exports others: {sorted(exported ^ set(names))}")
    print("\n".join(wrong))
    return 1 if wrong else 0


if __name__ == "__main__":
    sys.exit(main())
