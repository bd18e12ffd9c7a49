"""What `links` and `terms` ask of a Markdown page."""
import pathlib
import re
import subprocess

TOP = pathlib.Path(__file__).resolve().parents[2]
LINK = re.compile(r"!?\[((?:[^\[\]]|\[[^\[\]]*\])*)\]\(([^)\s]+)\)")


def pages() -> list[str]:
    """The names of all pages, from the top folder on."""
    listed = subprocess.run(["git", "ls-files", "-z", "*.md"], cwd=TOP, capture_output=True, check=True).stdout.decode()
    return [name for name in listed.split("\0") if name]


def lines_of(match: re.Match) -> str:
    """The line feeds of the text that is left out, so that all lines keep their numbers."""
    return "\n" * match.group().count("\n")


def without_blocks(page: str) -> str:
    """The page without its blocks of code."""
    return re.sub(r"^```.*?^```$", lines_of, page, flags=re.M | re.S)


def without_code(page: str) -> str:
    """The page without its blocks of code and without code in its lines."""
    return re.sub(r"`[^`]*`", lambda code: f"`{lines_of(code)}`", without_blocks(page))


def sections(page: str) -> dict[str, str]:
    """The text below each heading of a page, up to the next one, by the fragments that GitHub makes of headings."""
    found: dict[str, int] = {}
    texts = {}
    parts = re.split(r"^#+ (.*)$", without_blocks(page), flags=re.M)
    for heading, text in zip(parts[1::2], parts[2::2]):
        shown = re.sub(r"\[([^\]]*)\]\([^)]*\)", r"\1", heading).lower()
        name = re.sub(r"[^\w\- ]", "", shown).replace(" ", "-")
        texts[f"{name}-{found[name]}" if name in found else name] = text
        found[name] = found.get(name, 0) + 1
    return texts
