"""Texts to feed to a lexer: pieces of the grammar put together by chance, near misses among them, and broken files."""
import random

NAMES = "a b c r br cr rb x e E f u o _ __ _1 self Self super crate dyn fn u8 i32 f32 e1 E9 x0".split()
NAMES += ["é", "ß", "变量", "𝒳", "ñ0", "e\u0301", "a\u0301"]

MARKS = "~!@#$%^&*-=+|;:,<.>/?'"

WHITE = ["", "", "", "", " ", " ", " ", "\n", "\n", "\t", "\r\n", "\r", "\x0b", "\x0c", "\x85", "\xa0", "\u1680",
         "\u2003", "\u200e", "\u200f", "\u2028", "\u2029", "\u3000"]

# Characters that stand for themselves nowhere but in comments and quotes, or that look like others.
ODD = ["\0", "\r", "\ufeff", "\x85", "\u2028", "\u0301", "\u20dd", "\u200d", "\u200c", "\uff65", "\u30fb",
       "\U0010ffff", "\ue000", "\u2018", "\u2019", "\u201c", "\u201d", "\uff02", "\uff07", "\u02bc", "\u2215",
       "\uff0f", "\u037e", "\x7f", "\x1b", "\x80", "\ufffd", "\U0001f600", "\U000e0001", "`", "\\", "²", "½", "٣",
       "Ⅷ", "゛", "ͺ"]

# What stands between quotes, or ends them.
UNITS = r"""a 0 7 \n \r \t \\ \0 \' \" \x41 \x7f \x80 \xff \x00 \x4 \xg0 \u{41} \u{0} \u{10FFFF} \u{110000}
    \u{d800} \u{dfff} \u{1_2__} \u{_1} \u{} \u{1234567} \u{12 \u \u{ \x \a \ ' " # "# "## // /* */ { } é""".split()
UNITS += [" ", "\t", "\n", "\r\n", "\r", "\\\n", "\\\r\n", "\\\n \n  x", "\\\n\u00a0", "\\\r", "\\ ", "\0", "\x86",
          "\u0301", "\u2028", "\U0001f600"]

# Pieces, and what is nearly one.
NEAR = r"""b''' ''' '' ' b' b'\' r#" r# r## r##""# br# cr#" b" c"\0" 1e 1e+ 1e_ 1e+_ 1e-_1 0x 0x_ 0xg 0b2 0b12
    0o8 0o 0b_1 1. 1.. 1..2 1.e 1.e1 1.0.0 1._ 0.0f 1_.5 1.5é 1u8 1é 0x1p 0b1e3 1f32.5
    9999999999999999999999999999999999999999 '\u{ '\u{}' '\u{41}' '\x7f' '\x80' b'\xff' b'é' 'a 'a' 'a'b 'ab'
    'a# 'r#a 'r#a' 'r#_ 'r#a#b '1 '_ '_' ''a '\ '\' 'b"x" 'b'x' 'r"x" 'c"x" 'br#"x"# r#_ r#self r#1 r#a r#fn#
    (/*ERROR*/) (/*ERROR*/ (/*ERROR*/)x /*/ /**/ /***/ /*/*/ /*//*/ */ /* /*! /** /*!*/ // /// //// //! //!! #!
    #![a] br"é" b"é" c"\xff" "a"s "a"_ 'a's b'a's""".split()
NEAR += ["c\"\0\"", "cr\"\0\"", "1\u0301", "1.5\u0301", "' a", "'\n'", "'\r'", "'\t'", "'\u0301'", "'e\u0301'",
         "(/* ERROR*/)", "/* /* */", "/* /* */ */", "/** */", "/*! \r */", "/** \r\n */", "//\r", "///\r",
         "/// \r\n", "///\r \n", "//\n", "/// d\n", "#!/bin/sh\n", "\"\\\n  \r x\"", "\"\r\"", "r\"\r\"",
         "r\"\r\n\""]

PAIRS = {"(": ")", "[": "]", "{": "}"}
SOUPS = ["'\"\\#rbc a", "/*!\n\r d", "0123456789._eExob+-f", "r#\"b c\\'", "([{}])/*ERROR*/ ", "'ab#\" _r\u0301",
         "\"\\xu{}0019aAfF_\n\r ", "~!@#$%^&*-=+|;:,<.>/?' a", " \n\r\t\x0b\x85\u200e\ufeffa/", "cb'\"\\x\0é0",
         "1.e_+0f\u0301a"]


def pick(draw: random.Random, options):
    return options[int(draw.random() * len(options))]


def number(draw: random.Random) -> str:
    """Something like a number: a base, digits, a point, an exponent and a suffix, each there or not."""
    def digits(some: str) -> str:
        return "".join(pick(draw, some) for _ in range(draw.randrange(5)))

    parts = [pick(draw, ["", "", "", "0x", "0o", "0b", "0", "0X"]), pick(draw, "0123456789"), digits("0123456789_abf")]
    if draw.random() < 0.4:
        parts += [pick(draw, [".", ".", "..", "._", ".e"]), digits("0123456789_")]
    if draw.random() < 0.4:
        parts += [pick(draw, "eE"), pick(draw, ["", "+", "-", "_", "_+", "+_", "--"]), digits("0123456789_")]
    if draw.random() < 0.3:
        parts.append(pick(draw, NAMES))
    return "".join(parts)


def content(draw: random.Random) -> str:
    """What may stand between quotes."""
    return "".join(pick(draw, UNITS) for _ in range(int(draw.random() * draw.random() * 9)))


def quoted(draw: random.Random) -> str:
    """Something like a quoted literal, at times without its end."""
    front = pick(draw, ["", "", "b", "c", "r", "br", "cr", "rb", "R", "'"])
    hashes = "#" * pick(draw, [0, 0, 1, 1, 2, 3]) if "r" in front else ""
    quote = "'" if draw.random() < 0.3 and not hashes else "\""
    body = pick(draw, UNITS) if quote == "'" and draw.random() < 0.8 else content(draw)
    end = quote + hashes if draw.random() < 0.85 else pick(draw, ["", quote, hashes, hashes[1:]])
    return front + hashes + quote + body + end + (pick(draw, NAMES) if draw.random() < 0.15 else "")


def comment(draw: random.Random) -> str:
    some = ["a", " ", "*", "/", "/*", "*/", "\n", "\r", "\r\n", "\"", "'", "é", "\0", "!", "(", "\u0301"]
    body = "".join(pick(draw, some) for _ in range(draw.randrange(8)))
    if draw.random() < 0.4:
        return pick(draw, ["//", "///", "//!", "////"]) + body + pick(draw, ["\n", "\r\n", "", "\r"])
    return pick(draw, ["/*", "/**", "/*!", "/***"]) + body + pick(draw, ["*/", "*/", "*/", "**/", "*", "/", ""])


def mark(draw: random.Random) -> str:
    return "".join(pick(draw, MARKS) for _ in range(1 + draw.randrange(4)))


def name(draw: random.Random) -> str:
    return pick(draw, ["", "", "", "'", "r#", "'r#"]) + pick(draw, NAMES)


def group(draw: random.Random) -> str:
    opener = pick(draw, "([{")
    closer = PAIRS[opener] if draw.random() < 0.93 else pick(draw, [")", "]", "}", ""])
    return opener + pieces(draw, draw.randrange(4)) + closer


KINDS = [name, name, number, quoted, quoted, comment, mark, mark, group, lambda draw: pick(draw, NEAR),
         lambda draw: pick(draw, NEAR), lambda draw: pick(draw, ODD)]


def pieces(draw: random.Random, count: int) -> str:
    """So many pieces, each with its white space, or none, before it."""
    parts = []
    for _ in range(count):
        parts += [pick(draw, WHITE), pick(draw, KINDS)(draw)]
    return "".join(parts) + pick(draw, WHITE)


def soup(draw: random.Random) -> str:
    """Characters of a small alphabet."""
    alphabet = pick(draw, SOUPS)
    return "".join(pick(draw, alphabet) for _ in range(1 + draw.randrange(12)))


def short_text(draw: random.Random) -> str:
    """A short text of pieces, of near misses, or of characters, broken once at times."""
    chance = draw.random()
    if chance < 0.25:
        return soup(draw)
    text = pieces(draw, 1 + int(draw.random() * draw.random() * 8))
    return broken(draw, text, [text]) if chance < 0.5 else text


def literal_text(draw: random.Random) -> str:
    """A text that is a literal, or nearly."""
    kinds = [number, quoted, quoted, quoted, lambda draw: "-" + number(draw), lambda draw: pick(draw, NEAR)]
    made = pick(draw, kinds)(draw)
    return made if draw.random() < 0.9 else made + pick(draw, WHITE + ODD)


def broken(draw: random.Random, text: str, others: list[str]) -> str:
    """The text after one change: characters gone, doubled, swapped, put in, cut off, or spliced with another text."""
    i = draw.randrange(len(text) + 1)
    j = min(len(text), i + 1 + int(draw.random() ** 4 * 40))
    chance = draw.randrange(9)
    if chance == 0:
        return text[:i] + text[j:]
    if chance == 1:
        return text[:j] + text[i:]
    if chance == 2:
        return text[:i] + text[i + 1:i + 2] + text[i:i + 1] + text[i + 2:]
    if chance == 3:
        return text[:i] + pick(draw, ODD) + text[i:]
    if chance == 4:
        return text[:i] + pick(draw, NEAR) + text[i:]
    if chance == 5:
        return text[:i] + pick(draw, MARKS + "()[]{}\"\\/*#") + text[i + 1:]
    if chance == 6:
        return text[:i]
    if chance == 7:
        return text[i:]
    other = pick(draw, others)
    k = draw.randrange(len(other) + 1)
    return text[:i] + other[k:k + j - i + draw.randrange(60)] + text[j:]


def broken_file(draw: random.Random, files: list[str]) -> str:
    """A file, or a part of one, after some changes."""
    text = pick(draw, files)
    size = pick(draw, [40, 200, 200, 1000, 5000, len(text)])
    begin = draw.randrange(max(1, len(text) - size))
    text = text[begin:begin + size]
    for _ in range(draw.randrange(4)):
        text = broken(draw, text, files)
    return text


def broken_bytes(draw: random.Random, text: bytes) -> bytes:
    """The bytes after one change of a byte, which are mostly no UTF-8 any more."""
    some = [b"", b"\xff", b"\x80", b"\xc3", b"\xc0\x80", b"\xed\xa0\x80", b"\xf4\x90\x80\x80", b"\0"]
    i = draw.randrange(len(text) + 1)
    return text[:i] + pick(draw, some) + text[i + 1:]
