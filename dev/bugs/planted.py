"""The edits that plant bugs: those that the gate tries, and those of the files in this folder."""
import typing
from pathlib import Path

TOP = Path(__file__).resolve().parents[2]


class BadEdit(Exception):
    """Says why an edit can't be applied."""


class Step(typing.NamedTuple):
    """A change of a file of a crate: `old` stands in it once, and `new` takes its place."""

    file: str
    old: str
    new: str


class Edit(typing.NamedTuple):
    """A planted bug: the crate, the name `MODULE.FUNCTION.BUG`, the lines that say what changes, and their file."""

    crate: str
    name: str
    lines: tuple[str, ...]
    place: Path

    def steps(self) -> list[Step]:
        """What the edit changes, in order."""
        steps, file, old = [], None, None
        for line in self.lines:
            word, _, rest = line.partition(" ")
            if word == "file:":
                file = rest.strip()
            elif word == "old:":
                old = rest
            elif word == "new:":
                if not file or not old:
                    raise BadEdit("a line 'new:' stands before any 'file:' or 'old:'")
                steps.append(Step(file, old, rest))
                old = None
            else:
                raise BadEdit(f"a line begins with neither 'file:' nor 'old:' nor 'new:': {line}")
        if not steps or old is not None:
            raise BadEdit("a line 'old:' has no line 'new:'")
        return steps

    def changed(self, read: typing.Callable[[str], str]) -> dict[str, str]:
        """The texts of the files that the edit changes, by their names. `read` gives the text of a file."""
        texts: dict[str, str] = {}
        for name, old, new in self.steps():
            text = texts.get(name)
            text = read(name) if text is None else text
            if text.count(old) != 1:
                times = text.count(old)
                raise BadEdit(f"{name} has the text of a line 'old:' {times} times, and not once: {old.strip()}")
            texts[name] = text.replace(old, new)
        return texts


def of_gate(crate: str) -> list[Edit]:
    """The edits of a crate that the gate tries."""
    return [of_file(file) for file in sorted((TOP / "crates" / crate / "must-fail").glob("*.edit"))]


def of_file(file: Path) -> Edit:
    """The edit that is a file of a folder `crates/CRATE/must-fail`."""
    return Edit(file.resolve().parent.parent.name, file.stem, tuple(file.read_text().splitlines()), file)


def of_bugs(file: Path) -> list[Edit]:
    """The edits of a file `dev/bugs/CRATE.txt`: blocks of lines, the first of which is the name."""
    blocks = [block.split("\n") for block in file.read_text().strip("\n").split("\n\n")]
    return [Edit(file.stem, name, tuple(lines), file) for name, *lines in blocks]


def files_of_bugs() -> list[Path]:
    """The files of bugs, one for each crate that has any."""
    return sorted((TOP / "dev/bugs").glob("*.txt"))
