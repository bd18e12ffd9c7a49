#!/usr/bin/env python3
"""Draws what the programs write for a terminal, as the pictures of their READMEs and of the gallery.

Usage: bench/pictures.py PROGRAM..

Each PROGRAM is a build, known by its file's name. A picture is what it writes of a file in a temporary folder, drawn
colour for colour: of rust_check as docs/rust_check-NAME.svg, else with the files and the command as
docs/gallery-NAME.svg. Pictures of programs that aren't given stay.
"""
import html
import pathlib
import re
import subprocess
import sys
import tempfile
import unicodedata

DOCS = pathlib.Path(__file__).resolve().parents[1] / "docs"

# A text by the name of its picture: its file, and what stands there.
MESSAGES = {
    "closer": ("area.rs", "fn area(shape: &Shape) -> f64 {\n    match shape {\n"
                          "        Shape::Disc(r) => PI * (r * r],\n        Shape::Square(a) => a * a,\n    }\n}\n"),
    "escape": ("greet.rs", "fn greet() {\n\tprintln!(\"\u3053\u3093\u306b\u3061\u306f, \\u{1F44BB}{}!\", name);\n}\n"),
    "digit": ("mask.rs", "const MASK: u8 = 0b0102_0000;\n"),
}

POINT = "/// A point.\n#[derive(Clone)]\npub struct Point {\n    pub x: i32, // across\n    y: i32,\n}\n"
ONE_LINE = "impl P{fn len(&self)->f64{let sum=self.x*self.x;if sum==0{return 0.0;}sum.sqrt()}}\n"
MACRO = "html! {\n<ul>\n{ for items(\nnames,\n) }\n</ul>\n}\n"
SHAPES = ("pub struct Disc(f64);\n\nimpl Area for Disc {\n    fn area(&self) -> f64 {\n        PI * self.0 * self.0\n"
          "    }\n}\n\nmod tests {\n    #[test]\n    fn no_area() {}\n}\n")
CALLS = "fn main() {\n    // read(1) is no call\n    let all = read::<u8>(path);\n    log!(\"read(2)\", read(3));\n}\n"

# The command of each picture of the gallery by its program, and the files that it reads.
COMMANDS = {
    "tokens": ("tokens spans < point.rs", {"point.rs": "fn f(x: u8) {}\n"}),
    "pretty": ("pretty < one_line.rs", {"one_line.rs": ONE_LINE}),
    "find_calls": ("find_calls read main.rs", {"main.rs": CALLS}),
    "same": ("same old.rs new.rs", {"old.rs": "a + b.c(1)\n", "new.rs": "a\n    + b\n    .d(1)\n"}),
    "indent": ("indent list.rs", {"list.rs": MACRO}),
    "outline": ("outline disc.rs", {"disc.rs": SHAPES}),
    "highlight": ("highlight term point.rs", {"point.rs": POINT}),
    "list_docs": ("list_docs < point.rs", {"point.rs": POINT}),
    "write_getters": ("write_getters < point.rs", {"point.rs": POINT}),
}

# What stands for a terminal's colours, light enough for the dark ground.
COLOURS = {"31": "#ff7b72", "32": "#7ee787", "33": "#e3b341", "34": "#79c0ff", "35": "#d2a8ff", "36": "#76e3ea",
           "39": "#c9d1d9", "90": "#8b949e", "91": "#ffa198", "92": "#aff5b4", "93": "#f2cc60", "94": "#a5d6ff",
           "95": "#e2c5ff", "96": "#b3f0ff", "97": "#f0f6fc", "41": "#f0f6fc"}
WIDE, HIGH, MARGIN = 8.4, 19, 14


def columns(text):
    """How many columns a text takes."""
    return sum(2 if unicodedata.east_asian_width(c) in "WF" else 1 for c in text)


def style_of(codes):
    """How text is drawn after an escape with these codes."""
    fonts = {"1": "font-weight:bold", "3": "font-style:italic"}
    colours = [f"fill:{COLOURS[code]}" for code in codes if code in COLOURS]
    bold = ["fill:#f0f6fc"] if "1" in codes else []
    return ";".join((colours[-1:] or bold) + [fonts[code] for code in codes if code in fonts])


def drawn(written):
    """The picture of what was written for a terminal."""
    lines = written.rstrip("\n").split("\n")
    out, style, most = [], "", 0
    for number, line in enumerate(lines):
        y, column = MARGIN + 14 + number * HIGH, 0
        for part in re.split(r"(\x1b\[[0-9;]*m)", line):
            if part.startswith("\x1b"):
                style = style_of(part[2:-1].split(";"))
            elif part:
                # A text of wide characters is as long as the columns that it takes.
                for piece in re.findall(r" +|[^ ]+", part):
                    if piece.strip():
                        place = f'x="{MARGIN + column * WIDE:.1f}" y="{y}" textLength="{columns(piece) * WIDE:.1f}"'
                        colour = f' style="{style}"' if style else ""
                        out.append(f"<text {place}{colour}>{html.escape(piece)}</text>")
                    column += columns(piece)
        most = max(most, column)
    width, height = round(most * WIDE) + 2 * MARGIN, len(lines) * HIGH + 2 * MARGIN
    return "\n".join([
        f'<svg xmlns="http://www.w3.org/2000/svg" width="{width}" height="{height}" viewBox="0 0 {width} {height}"',
        '  font-family="ui-monospace, Menlo, Consolas, \'DejaVu Sans Mono\', monospace" font-size="14" fill="#c9d1d9">',
        f'<rect width="{width}" height="{height}" rx="6" fill="#0d1117"/>', *out, "</svg>"]) + "\n"


def written(program, words, files, status):
    """What the program writes in a folder with these files, the first of which is its standard input."""
    with tempfile.TemporaryDirectory() as room:
        for name, text in files.items():
            pathlib.Path(room, name).write_text(text)
        with open(pathlib.Path(room, next(iter(files)))) as source:
            run = subprocess.run([program, *words], cwd=room, stdin=source, capture_output=True, text=True, check=False)
    if run.returncode != status or run.stderr:
        sys.exit(f"{program.name}: status {run.returncode}: {run.stderr}")
    return run.stdout


def main(words):
    if not words:
        sys.exit(__doc__)
    for program in [pathlib.Path(word).resolve() for word in words]:
        if program.name == "rust_check":
            for name, (file, text) in MESSAGES.items():
                message = written(program, ["--color=always", file], {file: text}, 1)
                (DOCS / f"rust_check-{name}.svg").write_text(drawn(message))
        else:
            command, files = COMMANDS[program.name]
            arguments = command.partition(" < ")[0].split()[1:]
            output = written(program, arguments, files, 1 if program.name == "same" else 0)
            shown = [] if program.name == "highlight" else [(f"cat {file}", text) for file, text in files.items()]
            session = "".join(f"\x1b[1m$ {line}\x1b[0m\n{text}" for line, text in [*shown, (command, output)])
            (DOCS / f"gallery-{program.name}.svg").write_text(drawn(session))


if __name__ == "__main__":
    main(sys.argv[1:])
