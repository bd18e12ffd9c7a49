#!/usr/bin/env python3
"""Lists the functions of Rust files with their lines, by the library for C.

Usage: c/functions.py LIBRARY FILE..

LIBRARY is a shared library of libpm_c.a and heap.c:

    cc -shared -o libpm_c.so -Wl,--whole-archive libpm_c.a -Wl,--no-whole-archive heap.c

Writes a line `FILE:LINE: NAME` for each name after the word `fn`, as the trees of the file have it: what stands in
comments and strings is none. The status is 1 where a file can't be read or has a fault. To write a binding of your own
begin with the class Session: pm_c.h has all calls.
"""
import ctypes
import pathlib
import sys

DONE, FAULT = 0, 1
IDENTIFIER = 1


class Handle(ctypes.Structure):
    _fields_ = [("at", ctypes.c_void_p), ("live", ctypes.c_bool)]


class Answer(ctypes.Structure):
    _fields_ = [("code", ctypes.c_uint32), ("number", ctypes.c_uint32), ("bytes", ctypes.c_size_t)]


class Tree(ctypes.Structure):
    _fields_ = [("kind", ctypes.c_uint8), ("detail", ctypes.c_uint8)]
    _fields_ += [(name, ctypes.c_uint32) for name in ("lo", "hi", "start", "count")]


class LineColumn(ctypes.Structure):
    _fields_ = [("code", ctypes.c_uint32), ("line", ctypes.c_size_t), ("column", ctypes.c_size_t)]


class PmError(Exception):
    """A code that a call wasn't to answer."""


class Session:
    """A session of the library, to be used in a `with`."""

    RESULTS = {"pm_parse": Answer, "pm_list": Answer, "pm_line_column_of": LineColumn}

    def __init__(self, path: str):
        self.library = ctypes.CDLL(path)
        self.handle = Handle()

    def __enter__(self) -> "Session":
        self.expect(self.library.pm_session_new(ctypes.byref(self.handle)))
        return self

    def __exit__(self, *_: object) -> None:
        self.library.pm_session_free.argtypes = [Handle]
        self.expect(self.library.pm_session_free(self.handle))

    def expect(self, code: int) -> None:
        if code != DONE:
            raise PmError(f"code {code}")

    def call(self, name: str, *words):
        """What a call of the session answers."""
        function = getattr(self.library, name)
        function.restype = self.RESULTS.get(name, ctypes.c_uint32)
        return function(self.handle, ctypes.byref(self.handle), *words)

    def line(self, position: int) -> int:
        """The line of a position."""
        found = self.call("pm_line_column_of", ctypes.c_uint32(position))
        self.expect(found.code)
        return found.line

    def names(self, text: bytes) -> list[tuple[str, int]]:
        """The names of the text in reading order, each with its position. A SyntaxError has the line of a fault."""
        parsed = self.call("pm_parse", text, ctypes.c_size_t(len(text)))
        if parsed.code == FAULT:
            raise SyntaxError(f"{self.line(parsed.number)}: no token stands here, or a delimiter has no match")
        self.expect(parsed.code)
        listed = self.call("pm_list", ctypes.c_uint32(parsed.number))
        self.expect(listed.code)
        trees, texts = (Tree * listed.number)(), (ctypes.c_uint8 * listed.bytes)()
        self.expect(self.call("pm_copy_trees", trees, ctypes.c_size_t(listed.number)))
        self.expect(self.call("pm_copy_text", texts, ctypes.c_size_t(listed.bytes)))
        self.expect(self.call("pm_stream_free", ctypes.c_uint32(parsed.number)))
        whole = bytes(texts)
        return [(whole[t.start : t.start + t.count].decode() if t.kind == IDENTIFIER else "", t.lo) for t in trees]


def main() -> int:
    if len(sys.argv) < 3:
        sys.exit(__doc__)
    status = 0
    with Session(sys.argv[1]) as session:
        for path in sys.argv[2:]:
            try:
                names = session.names(pathlib.Path(path).read_bytes())
            except (OSError, PmError, SyntaxError) as error:
                print(f"{path}: {error}", file=sys.stderr)
                status = 1
                continue
            for (word, _), (name, position) in zip(names, names[1:]):
                if word == "fn" and name:
                    print(f"{path}:{session.line(position)}: {name}")
    return status


if __name__ == "__main__":
    sys.exit(main())
