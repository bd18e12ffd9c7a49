#!/usr/bin/env python3
"""Draws how long `tokens print` and the Rust crate's twin take on 0.1 to 10 MB of real source.

Usage: bench/plot.py TOKENS TWIN SOURCES PICTURE [RUNS]
TOKENS and TWIN are the two built programs, and SOURCES is a folder of Rust files. Each size is whole files one after
another, from the first on. The programs run in turn, RUNS times (5) on each size, and the least processor time (user
and system time together) counts. Writes the picture, an SVG, to PICTURE, and a table to standard output. Ends with an
error where a run fails or where the two outputs of a size differ.

Run it on one core, as by `taskset -c 3 bench/plot.py ..`.
"""
import dataclasses
import os
import pathlib
import sys
import tempfile

sys.dont_write_bytecode = True

from compare import measured, source  # noqa: E402

MEGABYTE = 1_000_000
SIZES = (0.1, 0.5, 1, 2, 3, 4, 5, 6, 7, 8, 9, 10)

WIDTH, HEIGHT = 720, 380
LEFT, RIGHT, TOP, BOTTOM = 64, 608, 52, 324


@dataclasses.dataclass
class Line:
    """A line of the picture: its name, its colour, and its points, each a size in bytes and a time in milliseconds."""

    name: str
    colour: str
    points: list


def timed(programs: list, sources: pathlib.Path, runs: int) -> list:
    """The points of each program. Each round takes all sizes, so that a busy minute spoils no size alone."""
    with tempfile.TemporaryDirectory() as folder:
        texts = [pathlib.Path(folder) / f"text{size}" for size in SIZES]
        outputs = [pathlib.Path(folder) / f"output{i}" for i in range(len(programs))]
        lengths = [text.write_bytes(source(sources, int(size * MEGABYTE))) for text, size in zip(texts, SIZES)]
        least = [[float("inf")] * len(SIZES) for _ in programs]
        for _ in range(runs):
            for at, text in enumerate(texts):
                for times, program, output in zip(least, programs, outputs):
                    times[at] = min(times[at], measured(program, "print", text, output)[1])
                if len({output.read_bytes() for output in outputs}) != 1:
                    sys.exit(f"the outputs on {lengths[at]} bytes differ")
    return [list(zip(lengths, times)) for times in least]


def picture(lines: list, longest: int, step: int) -> str:
    """The picture, with a grid line every `step` milliseconds up to `longest`."""
    def x(size: float) -> float:
        return LEFT + size / (SIZES[-1] * MEGABYTE) * (RIGHT - LEFT)

    def y(time: float) -> float:
        return BOTTOM - time / longest * (BOTTOM - TOP)

    parts = [
        f'<svg xmlns="http://www.w3.org/2000/svg" viewBox="0 0 {WIDTH} {HEIGHT}" width="{WIDTH}" height="{HEIGHT}" '
        'font-family="sans-serif" font-size="13" fill="#444">',
        "<title>Processor time of tokens print and of the Rust crate, by input size</title>",
        f'<rect width="{WIDTH}" height="{HEIGHT}" fill="#fff"/>',
        f'<text x="{LEFT}" y="24" font-size="15" fill="#111">Read and print Rust source: processor time, ms</text>',
    ]
    for time in range(0, longest + 1, step):
        parts.append(f'<path d="M{LEFT} {y(time):.1f}H{RIGHT}" stroke="#ddd"/>')
        parts.append(f'<text x="{LEFT - 8}" y="{y(time) + 4.5:.1f}" text-anchor="end">{time}</text>')
    for size in range(0, SIZES[-1] + 1, 2):
        parts.append(f'<path d="M{x(size * MEGABYTE):.1f} {BOTTOM}v5" stroke="#888"/>')
        parts.append(f'<text x="{x(size * MEGABYTE):.1f}" y="{BOTTOM + 21}" text-anchor="middle">{size}</text>')
    parts.append(f'<text x="{(LEFT + RIGHT) / 2}" y="{HEIGHT - 14}" text-anchor="middle">input, MB</text>')
    for line in lines:
        places = [(x(size), y(time)) for size, time in line.points]
        path = " ".join(f"{a:.1f},{b:.1f}" for a, b in places)
        parts.append(f'<polyline points="{path}" fill="none" stroke="{line.colour}" stroke-width="2"/>')
        parts += [f'<circle cx="{a:.1f}" cy="{b:.1f}" r="3" fill="{line.colour}"/>' for a, b in places]
        a, b = places[-1]
        parts.append(f'<text x="{a + 10:.1f}" y="{b + 4.5:.1f}" fill="{line.colour}">{line.name}</text>')
    return "\n".join(parts + ["</svg>", ""])


def table(ours: list, twin: list) -> str:
    """The points as a table, with the ratios."""
    rows = ["| Input | tokens | Rust crate | ratio |", "|---:|---:|---:|---:|"]
    for (size, mine), (_, other) in zip(ours, twin):
        rows.append(f"| {size / MEGABYTE:.2f} MB | {mine:.1f} ms | {other:.1f} ms | {mine / other:.2f} |")
    return "\n".join(rows)


def main() -> None:
    if len(sys.argv) not in (5, 6):
        sys.exit(__doc__)
    tokens, twin, sources, to = sys.argv[1:5]
    runs = int(sys.argv[5]) if len(sys.argv) == 6 else 5
    ours, theirs = timed([tokens, twin], pathlib.Path(sources), runs)
    longest, step = 0, 100
    while longest < max(time for _, time in ours + theirs):
        longest += step
    lines = [Line("Rust crate", "#b4530a", theirs), Line("this one", "#1d5fa8", ours)]
    pathlib.Path(to).write_text(picture(lines, longest, step))
    print(f"load {os.getloadavg()[0]:.1f}, the least of {runs} runs in turn")
    print(table(ours, theirs))


if __name__ == "__main__":
    main()
