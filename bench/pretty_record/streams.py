#!/usr/bin/env python3
"""Makes the streams of crates/pretty_printer_tests/stdin: of a grammar of Rust, of items and statements whose names
have 1 to
40 letters, of lists and chains of each length, of shapes that grow, of words one after another, of the items in
bench/items.txt, and of texts that were laid out wrongly once.

Usage: bench/pretty_record/streams.py PROGRAM > crates/pretty_printer_tests/stdin

PROGRAM is the example `pretty_printer_tests` of cargo/proved-tokens, which says what is no stream. choices.txt has
what is
chosen from. The numbers are those of a seed, so that the streams are the same each time.
"""
import pathlib
import random
import re
import subprocess
import sys

HERE = pathlib.Path(__file__).resolve().parent
ITEMS = HERE.parent / "items.txt"
# How many streams are written whole, and how many as digests; of the first, how many have Joint marks.
WHOLE, DIGESTS, JOINT = 100, 900, 15
# How deep a rule nests, and how many rules are applied, before only the first choice of each is taken.
DEEPEST, LONGEST = 9, 60
CLOSERS = {"(": ")", "[": "]", "{": "}"}


def read_choices() -> dict[str, list[str]]:
    """The choices of each section."""
    sections, rows = {}, []
    for line in (HERE / "choices.txt").read_text().split("\n"):
        if line.startswith("[") and line.endswith("]") and re.fullmatch(r"\[%?\w+\]", line):
            rows = sections[line[1:-1]] = []
        elif line.startswith("  "):
            rows[-1] += line[1:]
        elif line and not line.startswith("-- "):
            rows.append(line)
    plain = lambda row: re.sub(r"\\(.)", lambda found: {"n": "\n"}.get(found[1], found[1]), row)
    return {name: [plain(row) for row in rows] for name, rows in sections.items()}


class Maker:
    """Makes texts."""

    def __init__(self):
        self.draw = random.Random(2026)
        self.choices = read_choices()
        self.real = [text.strip() for text in ITEMS.read_text().split("\n\n") if 40 < len(text) < 1500]

    def of_rule(self, rule: str) -> str:
        """A text that the rule of the grammar stands for."""
        words, work, applied = [], [(rule, 0)], 0
        while work:
            symbol, depth = work.pop()
            if symbol in ("%n", "%l", "%w", "%o"):
                words.append(self.draw.choice(self.choices[symbol]))
            elif symbol.startswith("%") and len(symbol) > 1:
                applied += 1
                rows = self.choices[symbol]
                chosen = rows[0] if depth > DEEPEST or applied > LONGEST else self.draw.choice(rows)
                work += [(word, depth + 1) for word in reversed(chosen.split(" "))]
            elif symbol != "%":
                words.append(symbol)
        return " ".join(words)

    def tokens(self, count: int) -> str:
        """Tokens one after another, in groups that nest 6 deep."""
        text, opened = "", []
        for _ in range(self.draw.randrange(count)):
            chance = self.draw.randrange(16)
            if chance < 8:
                text += " " + self.draw.choice(self.choices["%w" if chance < 4 else "%n" if chance < 6 else "%l"])
            elif chance < 12:
                text += self.draw.choice(self.choices["%o"]) + self.draw.choice(["", " ", " "])
            elif chance < 14 and len(opened) < 6:
                opened.append(self.draw.choice("([{"))
                text += opened[-1]
            elif chance >= 14 and opened:
                text += CLOSERS[opened.pop()]
        return text + "".join(CLOSERS[opener] for opener in reversed(opened))

    def named(self, text: str, letters: int, only: int | None) -> str:
        """The text with names of so many letters, or with one such name among others of four letters."""
        parts = text.split("@")
        sizes = [letters if only is None or only == at else 4 for at in range(len(parts))]
        return "".join(part + "z" * size for part, size in zip(parts, sizes))[:-sizes[-1]]

    def sized(self, section: str) -> str:
        """An item or a statement some times, with names of other lengths."""
        text = self.draw.choice(self.choices[section])
        if section == "statements" and self.draw.randrange(2):
            text = "impl A { fn f() { for a in b { " + text + " } } }"
        only = self.draw.choice([None, 0, 1])
        return "\n".join(self.named(text, letters, only) for letters in sorted(self.draw.sample(range(1, 41), 5)))

    def listed(self, section: str) -> str:
        """Lists or chains of some parts, whose names have some letters."""
        before, part, between, after = self.draw.choice(self.choices[section]).split("\t")
        texts = []
        for _ in range(5):
            letters = self.draw.randrange(1, 26)
            count = min(30, max(1, round(self.draw.uniform(0.5, 1.5) * self.draw.choice([60, 96]) / (letters + 3))))
            texts.append(before + between.join([part.replace("@", "z" * letters)] * count) + after)
        return "\n".join(texts)

    def nested(self) -> str:
        """A call within blocks."""
        opener, closer = self.draw.choice(self.choices["blocks"]).split("\t")
        levels, name = self.draw.randrange(25), "z" * self.draw.randrange(1, 30)
        return opener * levels + f"{name}(a, {name})" + closer * levels

    def grown(self) -> str:
        """A shape that grows."""
        before, part, inside, closing, after = self.draw.choice(self.choices["grown"]).split("\t")
        count = self.draw.randrange(1, 14)
        return before + part * count + inside + closing * count + after

    def soup(self) -> str:
        """Words of one kind, or some of these, one after another."""
        words = self.choices[self.draw.choice(["soup_if", "soup_chain", "soup_where", "soup_call", "soup_call"])]
        if self.draw.randrange(3):
            words = self.draw.choices(words, k=self.draw.randrange(3, 12))
        text = begin = self.draw.choice(self.choices["soup_begin"]).replace("%", "")
        for _ in range(self.draw.randrange(1, 70)):
            word = self.draw.choice(words)
            apart = text[-1:].isalnum() and word[0].isalnum() or self.draw.randrange(3) == 0
            text += " " + word if apart else word
        text += "".join(CLOSERS[character] for character in reversed(begin) if character in CLOSERS)
        return text + self.draw.choice(["", ";", ",{g}", "{h}"])

    def text(self) -> str:
        """A text of any kind."""
        makers = [lambda: self.of_rule("%items"), lambda: self.of_rule("%stmts"), lambda: self.tokens(80),
                  lambda: self.sized("items"), lambda: self.sized("statements"), lambda: self.listed("lists"),
                  lambda: self.listed("expressions"), self.nested, self.grown, self.soup,
                  lambda: self.draw.choice(self.real)]
        shares = [12, 12, 8, 7, 11, 6, 7, 3, 8, 30, 10]
        return self.draw.choices(makers, shares)[0]()


def row(word: str, text: str) -> str:
    """A row: its word, and the text as the content of a string literal."""
    escaped = text.replace("\\", "\\\\").replace('"', '\\"').replace("\n", "\\n").replace("\r", "\\r")
    return f"{word} {escaped}\n"


def main() -> None:
    if len(sys.argv) != 2:
        sys.exit(__doc__)
    maker = Maker()
    texts = list(maker.choices["chosen"])
    while len(texts) < 4 * (WHOLE + DIGESTS):
        text = maker.text()
        if text.strip() and len(text) < 2500 and text not in texts:
            texts.append(text)
    rows = "".join(row("digest", text) for text in texts).encode()
    output = subprocess.run([sys.argv[1]], input=rows, stdout=subprocess.PIPE).stdout.decode()
    wrong = {int(number) for number in re.findall(r"^== (\d+) is no row$", output, re.M)}
    texts = [text for number, text in enumerate(texts, 1) if number not in wrong]
    whole = [text for text in texts if len(text) < 500 and text not in maker.choices["chosen"]][:WHOLE]
    digests = [text for text in texts if text not in whole][:DIGESTS]
    words = ["text"] * (WHOLE - JOINT) + ["joint"] * JOINT
    rows = [row(word, text) for word, text in zip(words, whole)] + [row("digest", text) for text in digests]
    rows += [row("text", text) for text in maker.choices["layouts"]]
    sys.stdout.buffer.write("".join(rows).encode())


if __name__ == "__main__":
    main()
