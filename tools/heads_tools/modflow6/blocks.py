"""Files of MODFLOW 6 by blocks: BEGIN NAME, lines, END NAME."""
from __future__ import annotations

from dataclasses import dataclass, field
from pathlib import Path
from typing import Callable

from ..common.spelling import quoted_words
from ..common.text import Problem, on_disk, read_text
from ..deck.names import missing
from ..deck.sources import OLD_ENDS, Report
from .numbers import whole

COMMENTS = ("#", "!", "//")
REPEATED = ("PERIOD", "SOLUTIONGROUP")
OPEN = "OPEN/CLOSE"
BINARY = "a binary file isn't read: write it as text (FloPy does)"


class Fault(Problem):
    """What can't be read or can't be said exactly, with its file and line (0: the file as a whole)."""

    def __init__(self, file: str, line: int, text: str):
        super().__init__(f"{file}{f', line {line}' if line else ''}: {text}")
        self.file, self.line, self.text = file, line, text


class Noted(Fault):
    """A fault that is among the refusals already."""


@dataclass(frozen=True)
class Line:
    """A line of a file, whose continuations are joined to it."""

    file: str
    number: int
    text: str

    @property
    def words(self) -> list[str]:
        return quoted_words(self.text)

    def fault(self, text: str) -> Fault:
        return Fault(self.file, self.number, text)

    def word(self, at: int, what: str) -> str:
        """A word of the line, counted from 0."""
        found = self.words
        if at >= len(found) or found[at][0] in "#!":
            raise self.fault(f"{what} is due here, and the line ends")
        return found[at]

    def whole(self, at: int, what: str) -> int:
        word = self.word(at, what)
        try:
            return whole(word, what)
        except Problem as error:
            raise self.fault(str(error)) from None

    def demand_end(self, count: int) -> None:
        """Raises a fault where more words stand here than this count, but for a comment."""
        found = self.words
        if len(found) > count and found[count][0] not in "#!":
            raise self.fault(f"`{found[count]}` isn't read here")

    def file_word(self, at: int) -> str:
        """The file that the line names."""
        return self.word(at, "a file's name")


@dataclass
class Block:
    """A block: its name, its first line, the lines within."""

    name: str
    begin: Line
    lines: list[Line] = field(default_factory=list)


@dataclass
class Folder:
    """The folder of the simulation, from which all names of files count; what was read, and what there is to say;
    `place`: the options that say where the grid lies and when the model starts."""

    path: Path
    report: Report
    read: list[Path] = field(default_factory=list)
    place: dict[str, str] = field(default_factory=dict)

    def lines(self, name: str, at: Line | None = None) -> list[Line]:
        """The lines of a file that stands `at` a line."""
        path = on_disk(self.path, name)
        try:
            if not path.is_file():
                raise Problem(f"there is no file {name}. {missing(name, self.path)}")
            self.read.append(path)
            text = read_text(path)
            if "\0" in text:
                raise Problem(f"{name} isn't text: {BINARY}")
            if "\r" in text and "\n" not in text:
                raise Problem(f"{name}: {OLD_ENDS}")
        except Problem as error:
            raise at.fault(str(error)) if at else Fault(name, 0, str(error)) from None
        return lines_of(name, text)

    def add(self, fault: Problem, file: str = "") -> None:
        """Adds a fault to the refusals."""
        if isinstance(fault, Noted):
            return
        if isinstance(fault, Fault):
            self.report.add("refusals", fault.file, fault.line, fault.text)
        else:
            self.report.add("refusals", file, 0, str(fault))

    def note(self, line: Line, text: str) -> None:
        """Notes a change that the translation makes."""
        self.report.add("needed", line.file, line.number, text)

    def tried(self, call: Callable, *given):
        """What a call returns; None where it has a fault, which is noted."""
        try:
            return call(*given)
        except Problem as fault:
            self.add(fault)
            return None


def lines_of(name: str, text: str) -> list[Line]:
    """The lines of a text without blank lines and comments; one that ends with a backslash goes on in the next."""
    out: list[Line] = []
    goes_on = False
    for n, raw in enumerate(text.split("\n"), 1):
        line = raw.strip(" \t\r\x1a")
        if not goes_on and (not line or line.startswith(COMMENTS)):
            continue
        if line[:1] in ",'\"" and not all(quoted_words(line) or [""]):
            raise Fault(name, n, f"`{line[:40]}` begins with an empty word")
        body = line[:-1].rstrip() if line.endswith("\\") else line
        if goes_on:
            out[-1] = Line(name, out[-1].number, f"{out[-1].text} {body}")
        else:
            out.append(Line(name, n, body))
        goes_on = line.endswith("\\")
        if goes_on and body and not line[:-1].endswith((" ", "\t", ",")):
            raise Fault(name, n, "a backslash right after a word: whether the word goes on isn't known. Write a blank")
    return out


class File:
    """The blocks of a file. `taken`: the names of blocks that are read."""

    def __init__(self, folder: Folder, name: str, taken: tuple[str, ...], at: Line | None = None):
        self.folder, self.name = folder, name
        self.blocks: list[Block] = []
        now: Block | None = None
        for line in folder.lines(name, at):
            first = line.words[0].upper() if line.words else ""
            if first == "BEGIN":
                if now:
                    raise line.fault(f"{now.name} of line {now.begin.number} has no END before this line")
                now = self._begun(line, taken)
            elif first == "END":
                if now is None or line.word(1, "the block's name").upper() != now.name:
                    raise line.fault(f"`{line.text[:40]}` ends no block that was begun")
                self.blocks.append(now)
                now = None
            elif now is None:
                raise line.fault(f"`{line.text[:40]}` stands outside of a block (BEGIN NAME .. END NAME)")
            else:
                now.lines.append(line)
        if now:
            raise now.begin.fault(f"the block {now.name} has no END: was the file cut?")
        for block in self.blocks:
            block.lines = self._opened(block)

    def _begun(self, line: Line, taken: tuple[str, ...]) -> Block:
        name = line.word(1, "a block's name").upper()
        if name not in taken:
            raise line.fault(f"the block {name} isn't read")
        if name not in REPEATED and any(b.name == name for b in self.blocks):
            raise line.fault(f"the block {name} stands here once more")
        line.demand_end(3 if name in REPEATED else 2)
        return Block(name, line)

    def _opened(self, block: Block) -> list[Line]:
        """The lines of a block, which OPEN/CLOSE as its first line takes from another file."""
        if not block.lines or block.lines[0].words[0].upper() != OPEN:
            return block.lines
        first = block.lines[0]
        if any(word.upper() == "(BINARY)" for word in first.words[2:]):
            raise first.fault(BINARY)
        first.demand_end(2)
        if len(block.lines) > 1:
            raise block.lines[1].fault(f"a line after {OPEN}, which stands alone in its block")
        return self.folder.lines(first.file_word(1), first)

    def block(self, name: str) -> Block | None:
        return next((b for b in self.blocks if b.name == name), None)

    def begin(self, name: str) -> Line | None:
        """The first line of a block."""
        block = self.block(name)
        return block.begin if block else None

    def lines(self, name: str) -> list[Line]:
        block = self.block(name)
        return block.lines if block else []

    def fault(self, text: str) -> Fault:
        return Fault(self.name, 0, text)

    def dimension(self, name: str) -> int:
        """A whole number of the block DIMENSIONS, 1 or more."""
        found = [line for line in self.lines("DIMENSIONS") if line.words[0].upper() == name]
        if not found:
            raise self.fault(f"{name} is missing in the block DIMENSIONS")
        if len(found) > 1:
            raise found[1].fault(f"{name} stands here once more")
        count = found[0].whole(1, name)
        if count < 1:
            raise found[0].fault(f"{name} is {count}; it is 1 or more")
        return count

    def periods(self, count: int) -> dict[int, Block]:
        """The blocks PERIOD by their numbers, which grow from block to block."""
        out: dict[int, Block] = {}
        for block in (b for b in self.blocks if b.name == "PERIOD"):
            period = block.begin.whole(2, "the number of a period")
            if period < 1 or (out and period <= max(out)):
                raise block.begin.fault(f"PERIOD {period}: the numbers of periods grow from 1 on")
            if period > count:
                self.folder.note(block.begin, f"PERIOD {period} dropped: the last period of TDIS is {count}")
            out[period] = block
        return out
