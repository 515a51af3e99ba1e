"""Arrays of MODFLOW 6's files: CONSTANT, INTERNAL and OPEN/CLOSE, whole or by layers."""
from __future__ import annotations

import bisect
from dataclasses import dataclass, field
from typing import NamedTuple

from ..common.text import Problem
from .blocks import BINARY, OPEN, Block, Fault, File, Line, Noted
from .numbers import number_word, product_word, value_of, whole


class Shape(NamedTuple):
    """The layers (0: none), rows and columns of an array; whether its numbers are whole."""

    layers: int
    rows: int
    cols: int
    is_whole: bool = False


class Part(NamedTuple):
    """The line on which values stand, and their factor."""

    line: Line
    factor: str


@dataclass
class Values:
    """An array as it stands in the files: a word for each value; their parts, and with which value each part starts."""

    name: str
    words: list[str] = field(default_factory=list)
    parts: list[Part] = field(default_factory=list)

    starts: list[int] = field(default_factory=list)

    def add(self, words: list[str], line: Line, factor: str = "") -> None:
        self.parts.append(Part(line, factor))
        self.starts.append(len(self.words))
        self.words += words

    def _part(self, at: int) -> Part:
        return self.parts[bisect.bisect_right(self.starts, at) - 1]

    def line(self, at: int) -> Line:
        """The line on which a value stands."""
        return self._part(at).line

    def fault(self, at: int, text: str) -> Fault:
        return self.line(at).fault(text)

    def text(self, at: int) -> str:
        """The number of a value as a word, its factor multiplied out."""
        part = self._part(at)
        try:
            if part.factor:
                return product_word(self.words[at], part.factor, f"{self.name} times its FACTOR")
            return number_word(self.words[at])
        except Problem as error:
            raise part.line.fault(f"{self.name}: {error}") from None

    def whole(self, at: int) -> int:
        part = self._part(at)
        try:
            return whole(self.words[at], self.name) * (whole(part.factor, "FACTOR") if part.factor else 1)
        except Problem as error:
            raise part.line.fault(str(error)) from None


class Arrays(dict[str, Values]):
    """The arrays of a block by name, and the names of those that have a fault, which is noted."""

    def __init__(self, begin: Line | None, file: File):
        super().__init__()
        self.file, self.begin, self.failed = file, begin, set[str]()

    def due(self, name: str) -> Values:
        """An array that has to be there."""
        if name in self.failed:
            raise Noted(self.file.name, 0, f"{name} can't be read")
        if name not in self:
            raise (self.begin or Line(self.file.name, 0, "")).fault(f"the array {name} is missing")
        return self[name]


class Reading:
    """The reading of the arrays of one block, one after another. `shapes`: those that are read, by name."""

    def __init__(self, file: File, block: Block | None, shapes: dict[str, Shape], passed: tuple[str, ...] = ()):
        self.file, self.shapes, self.passed, self.at = file, shapes, passed, 0
        self.begin, self.lines = (block.begin, block.lines) if block else (None, [])

    def arrays(self) -> Arrays:
        """All arrays of the block; one with a fault is left out, and the fault noted."""
        out = Arrays(self.begin, self.file)
        while self.at < len(self.lines):
            line = self.lines[self.at]
            name = line.words[0].upper()
            self.at += 1
            try:
                if name in self.passed:
                    self._skip()
                elif name not in self.shapes:
                    raise line.fault(f"an array's name is due, and `{line.text[:40]}` is none that is read here")
                elif name in out:
                    raise line.fault(f"the array {name} stands here once more")
                else:
                    out[name] = self._array(name, line)
            except Fault as fault:
                self.file.folder.add(fault)
                out.failed.add(name)
                self._skip()
        return out

    def _skip(self) -> None:
        """Goes to the next line that begins an array."""
        names = {*self.shapes, *self.passed}
        while self.at < len(self.lines) and self.lines[self.at].words[0].upper() not in names:
            self.at += 1

    def _array(self, name: str, line: Line) -> Values:
        shape, out = self.shapes[name], Values(name)
        rest = [word.upper() for word in line.words[1:]]
        is_layered = rest[:1] == ["LAYERED"]
        if not is_layered and rest and rest[0][0] not in "#!":
            raise line.fault(f"`{rest[0]}` after {name} isn't read")
        if is_layered and not shape.layers:
            raise line.fault(f"{name} has no layers")
        if is_layered:
            for _ in range(shape.layers):
                self._record(out, shape.rows, shape.cols, line)
        elif shape.layers:
            self._record(out, 1, shape.layers * shape.rows * shape.cols, line)
        else:
            self._record(out, shape.rows, shape.cols, line)
        return out

    def _record(self, out: Values, rows: int, cols: int, name_line: Line) -> None:
        """The values that one control record says."""
        if self.at >= len(self.lines):
            raise name_line.fault(f"{out.name} ends where CONSTANT, INTERNAL or {OPEN} is due")
        line = self.lines[self.at]
        kind = line.words[0].upper()
        if kind not in ("CONSTANT", "INTERNAL", OPEN):
            raise line.fault(f"{out.name}: CONSTANT, INTERNAL or {OPEN} is due, and here stands `{line.text[:40]}`")
        self.at += 1
        if kind == "CONSTANT":
            out.add([line.word(1, "a number")] * (rows * cols), line)
            return
        factor = factor_of(line, 1 if kind == "INTERNAL" else 2)
        if kind == "INTERNAL":
            self.at = take_rows(out, self.lines, self.at, (rows, cols), factor, line)
            return
        data = self.file.folder.lines(line.file_word(1), line)
        end = take_rows(out, data, 0, (rows, cols), factor, line)
        if end < len(data):
            text = f"more lines follow than {out.name} has values: MODFLOW 6 doesn't read them"
            self.file.folder.report.add("warnings", data[end].file, data[end].number, text)


def factor_of(line: Line, begin: int) -> str:
    """The factor of an array's control record, nothing where there is none. IPRN only prints."""
    at, factor, found = begin, "", line.words
    while at < len(found) and found[at][0] not in "#!":
        word = found[at].upper()
        if word == "(BINARY)":
            raise line.fault(BINARY)
        if word not in ("FACTOR", "IPRN"):
            raise line.fault(f"`{found[at]}` isn't read in an array's record")
        if word == "FACTOR":
            factor = line.word(at + 1, "a factor")
            try:
                is_none = value_of(factor) == 0
            except Problem as error:
                raise line.fault(str(error)) from None
            if is_none:
                raise line.fault("FACTOR is 0: write CONSTANT 0, or take it out")
        at += 2
    return factor


def take_rows(out: Values, lines: list[Line], at: int, shape: tuple[int, int], factor: str, record: Line) -> int:
    """Adds values to an array, whose rows begin on lines of their own; the place of the line after them."""
    rows, cols = shape
    for row in range(rows):
        due = cols
        while due:
            if at >= len(lines):
                found = (row + 1) * cols - due
                raise record.fault(f"{out.name} ends early: of {rows * cols} values {found} are there")
            line = lines[at]
            at += 1
            values = spread(line, due, out.name)
            out.add(values, line, factor)
            due -= len(values)
    return at


def spread(line: Line, due: int, name: str) -> list[str]:
    """The values of a line, repeated ones spread, at most the count that is due."""
    out: list[str] = []
    if line.text.startswith(",") or ",," in line.text.replace(" ", ""):
        raise line.fault(f"{name}: a value is left out (`,,`). Write it")
    for word in line.words:
        if word[0] in "#!" and len(out) == due:
            break
        times, star, value = word.partition("*")
        if star and not (times.isdigit() and int(times) > 0 and value):
            raise line.fault(f"{name}: `{word}` is no repeated number")
        if "/" in word:
            raise line.fault(f"{name}: `{word}` ends the line for MODFLOW 6, and leaves values out")
        if len(out) + (int(times) if star else 1) > due:
            said = f"a row has more numbers than its {due} on this line; each begins on a line of its own"
            raise line.fault(f"{name}: {said}")
        if value_like(value if star else word):
            out += [value] * int(times) if star else [word]
        else:
            raise line.fault(f"{name}: `{word}` is no number, and {due - len(out)} more are due")
    return out


def value_like(word: str) -> bool:
    return word[0] in "+-.0123456789" or word.lower() in ("nan", "inf", "infinity")
