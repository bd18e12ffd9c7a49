"""The differences that docs/DIFFERENCES.md names, told apart by rule.

Both programs are asked about every character: whether it begins and continues an identifier, and whether a string
literal escapes it. A character that they class otherwise is explained where

- it is unassigned in Unicode 14, whose tables the twin has (Python's `unicodedata` says so), or one of the four that
  those tables leave out of XID_Continue, or
- the crate escapes it though its general category isn't one of those that are escaped here, or the other way round.

A text that both answer otherwise differs by these rules only where it has such a character, and is answered the same
once each of them is replaced: by a letter, by a mark that continues identifiers, and by one that does neither.

The crate takes a bare quote, LF, CR or tab between single quotes, and here no literal stands there. A text differs by
this rule only where it is refused at such a literal, and is answered the same once that one is written by an escape,
and each further one that it is refused at then.
"""
import re
import sys
import typing
import unicodedata

LEFT_OUT = "\u200c\u200d\u30fb\uff65"
HIDDEN = {"Mn", "Me", "Zs", "Zl", "Zp", "Cc", "Cf", "Co", "Cn"}
STAND_INS = "é\u0301\u20ac"
BARE = re.compile(r"b?'(['\n\r\t])'")
ESCAPES = {"'": "'", "\n": "n", "\r": "r", "\t": "t"}


def every_character():
    return (chr(code) for code in range(sys.maxunicode + 1) if not 0xD800 <= code < 0xE000)


def explains(c: str, written: str) -> bool:
    """Whether the rules explain that both class the character otherwise. `written` is the literal of a string
    of it alone that the twin writes, or what it prints of such a doc comment; and empty where that is the same here."""
    category = unicodedata.category(c)
    if category == "Cn" or c in LEFT_OUT:
        return True
    return written != "" and (c not in written) != (category in HIDDEN)


def replaced(text: str, known: set) -> list[str]:
    """The text with each known character replaced, in three ways; none where it has none."""
    if known.isdisjoint(text):
        return []
    return [text.translate({ord(c): stand_in for c in known.intersection(text)}) for stand_in in STAND_INS]


def escaped_where_refused(text: str, otherwise: typing.Callable[[str], "str | None"]) -> tuple[str, "str | None"]:
    """The text with an escape in each literal that the crate takes and that is refused here for what stands between its
    single quotes, and what is said here of that text where the crate says otherwise. `otherwise` tells that of a text.
    """
    here = otherwise(text)
    while here is not None:
        place = place_refused(text, here)
        found = place is not None and BARE.match(text, place)
        if not found:
            break
        text = f"{text[:found.start(1)]}\\{ESCAPES[found[1]]}{text[found.end(1):]}"
        here = otherwise(text)
    return text, here


def place_refused(text: str, here: str) -> "int | None":
    """The place of the fault that is told of the text by line and column, and 0 of a text that is told to be no
    literal; None where neither is told."""
    if here.startswith("here: refused"):
        return 0
    note = re.search(r"fault \"?(\d+):(\d+)", here)
    if not note:
        return None
    before = text.split("\n")[:int(note[1]) - 1]
    return sum(len(line) + 1 for line in before) + int(note[2])


def check_tables() -> None:
    """Ends the program where Python's tables are not those of the twin."""
    if unicodedata.unidata_version != "14.0.0":
        sys.exit(f"Python's tables are of Unicode {unicodedata.unidata_version}, and not 14.0.0")
