"""Files of a deck in any spelling of the MODFLOW family: their lines, arrays and lists, and what is remarkable in
them."""
from __future__ import annotations

import re
from dataclasses import dataclass, field
from pathlib import Path, PureWindowsPath
from typing import cast

import numpy as np

from ..common.formats import Column, Field, Skip, format_of
from ..common.marks import plain
from ..common.spelling import EXACT, exact, number, quoted_words
from ..common.text import Problem, on_disk, read_raw


KEPT = "MODFLOW-2005 keeps there what it had. Write the values"
ARRAY_RECORDS = ("CONSTANT", "INTERNAL", "EXTERNAL", "OPEN/CLOSE")
COMMENT = "comments stand only before the first item of a file (MODFLOW-2005 stops here, too): take the line out"


@dataclass(frozen=True)
class Remark:
    """A sentence about a place of a deck."""

    file: str
    line: int
    text: str

    def __str__(self) -> str:
        return f"{self.file}{f', line {self.line}' if self.line else ''}: {self.text}"


@dataclass
class Report:
    """What was seen while a deck was read. `refusals`: not inside, and no other spelling helps. `needed`: changes
    without which `heads` refuses the deck or reads another model. `warnings`: where MODFLOW-2005 reads the same file
    otherwise; `blocking` those of them that `plain` can't write. `wide`: what `heads` takes with --wide alone. `due`:
    for a file that couldn't be read to its end, what was being read."""

    refusals: list[Remark] = field(default_factory=list)
    needed: list[Remark] = field(default_factory=list)
    warnings: list[Remark] = field(default_factory=list)
    blocking: list[Remark] = field(default_factory=list)
    wide: list[Remark] = field(default_factory=list)
    precise: int = 0
    first_precise: str = ""
    due: dict[str, str] = field(default_factory=dict)

    def add(self, kind: str, file: str, line: int, text: str, is_first: bool = False) -> None:
        """Adds a remark once; `is_first`: before all others, since it changes the model."""
        remark, where = Remark(file, line, text), getattr(self, kind)
        if remark not in where:
            where.insert(0 if is_first else len(where), remark)


@dataclass(repr=False)
class Array:
    """An array of a deck: the words of its numbers, one for a constant, the factor's word ("0": none), and the file and
    the line on which it begins, where it was read. An array of one cell may have a factor, too."""

    words: list[str]
    factor: str
    shape: tuple[int, int]
    file: str = ""
    line: int = 0

    def __repr__(self) -> str:
        size = " x ".join(map(str, self.shape))
        return f"<array of {size}: {self.words[0] if self.is_constant else f'{len(self.words)} numbers'}>"

    @property
    def is_constant(self) -> bool:
        return len(self.words) == 1 and (self.factor in ("0", "1") or exact(self.factor) in (0, 1))

    def floats(self) -> np.ndarray:
        """The values as doubles, shape (rows, cols)."""
        factor = 1.0 if self.is_constant or not exact(self.factor) else float(exact(self.factor))
        values = np.array([w.replace("D", "E").replace("d", "e") for w in self.words], dtype=float) * factor
        return np.full(self.shape, values[0]) if self.is_constant else values.reshape(self.shape)

    def exact(self, at: int):
        """The value at a place (row * cols + col) as a Decimal."""
        if self.is_constant:
            return exact(self.words[0])
        value = exact(self.words[at])
        return EXACT.multiply(value, exact(self.factor)) if exact(self.factor) else value

    def lines(self) -> list[str]:
        """The array as `heads` reads it."""
        if self.is_constant:
            return [f"CONSTANT {self.words[0]}"]
        cols = self.shape[1]
        rows = (self.words[n : n + cols] for n in range(0, len(self.words), cols))
        return [f"INTERNAL {self.factor} (FREE) -1", *(" ".join(row) for row in rows)]


def odd_bytes(text: str) -> str:
    """What is wrong with a text that isn't plain ASCII, or nothing."""
    if "\0" in text:
        return "it has a byte 0, which is no letter: save the file as ASCII"
    if "\u00e2\u0088\u0092" in text or "\u00e2\u0080\u0093" in text:
        return "it has a minus sign or a dash of a word processor: write `-`"
    if "\u00a0" in text:
        return "it has a blank of a word processor (byte A0), which isn't read as a blank: write a blank"
    return ""


def repeats(word: str) -> int:
    """How many values a word of a free list stands for."""
    times, star, _ = word.partition("*")
    return int(times) if star and times.isdigit() else 1


def find_file(folder: Path, name: str) -> tuple[Path, str]:
    """The file that a name means, and what had to be done to find it (other letters, the last part of a path)."""
    for path in (on_disk(folder, name), folder / PureWindowsPath(name).name):
        if path.is_file():
            return path, "" if path == on_disk(folder, name) else f"`{name}` found as {path.name}"
        near = [
            f
            for f in (sorted(path.parent.iterdir()) if path.parent.is_dir() else [])
            if f.name.lower() == path.name.lower()
        ]
        if near:
            return near[0], f"`{name}` found as {near[0].name}"
    raise Problem(f"there is no file {name} in {folder}")


# Words of numbers without a remark that a file keeps, so that lines of them aren't read word by word.
MOST_KNOWN = 100_000
OLD_ENDS = "its lines end with CR alone, as on old Macintoshes: save it with LF"
BLANK = "a blank line where an item is due: `heads` skips it, MODFLOW-2005 may read it as zeros"


class Source:
    """The lines of a file, taken one after another. `due`: what is being read, for the sentence of an early end;
    `known`: words of which there is nothing to remark, and their numbers."""

    def __init__(self, path: Path, name: str, report: Report):
        content, said = plain(read_raw(path))
        text = content.decode("latin-1")
        self.name, self.report, self.at, self.due, self.has_tab = name, report, 0, "", False
        self.known: dict[str, str] = {}
        if said:
            report.add("needed", name, 1, f"the file {said}: written as plain text")
        if "\r" in text and "\n" not in text:
            report.add("refusals", name, 1, OLD_ENDS)
        if odd_bytes(text) == odd_bytes("\u00a0"):
            found = (n for n, line in enumerate(text.split("\n"), 1) if "\u00a0" in line.partition("#")[0])
            if line := next(found, 0):
                report.add("needed", name, line, "a blank of a word processor (byte A0) written as a blank")
            text = re.sub("\u00c2?\u00a0", " ", text)
        self.lines = [line.rstrip("\r") for line in text.split("\n")]
        if self.lines and not self.lines[-1]:
            self.lines.pop()

    def comments(self, is_blank_taken: bool = False) -> list[str]:
        """The comment lines from here on. A blank line ends them where it may be the first item."""
        begin = self.at
        while self.at < len(self.lines) and (
            self.lines[self.at].startswith("#") or not (is_blank_taken or self.lines[self.at].strip(" \t,"))
        ):
            self.at += 1
        return [line for line in self.lines[begin : self.at] if line.startswith("#")]

    def line(self, is_blank_taken: bool = False, on_blank: str = BLANK) -> str:
        """The next line with a word, or the next one whatever it is. `on_blank`: what there is to say of a blank one
        that is passed over."""
        while self.at < len(self.lines):
            self.at += 1
            line = self.lines[self.at - 1]
            if is_blank_taken or line.strip(" \t,\x1a"):
                return line
            if on_blank:
                self.report.add("warnings", self.name, self.at, on_blank)
        what = f": {self.due}" if self.due else ": too few rows, layers, periods or entries for the counts in DIS?"
        raise Problem(f"{self.name} ends after line {len(self.lines)} where more is due{what}")

    def number(self, word: str) -> str:
        """A number's word as `heads` reads it, with remarks."""
        try:
            seen = number(word)
        except Problem as error:
            raise Problem(f"{self.name}, line {self.at}: {self._no_number(word, str(error))}") from None
        if seen.change:
            self.report.add("needed", self.name, self.at, seen.change)
        if seen.digits > 7:
            self.report.precise += 1
            self.report.first_precise = self.report.first_precise or f"{self.name}, line {self.at}: {word}"
        elif not seen.change and len(self.known) < MOST_KNOWN:
            self.known[word] = seen.text
        return seen.text

    def _no_number(self, word: str, said: str) -> str:
        """Why a word is no number, in a sentence."""
        if word.startswith("#"):
            return COMMENT
        if odd_bytes(word):
            return f"`{word}` is no number: {odd_bytes(word)}"
        if word.upper() in ARRAY_RECORDS:
            return f"{word} begins the next array, so this one ({self.due}) has too few values: count those of its rows"
        return said

    def integer(self, word: str, what: str) -> int:
        try:
            return int(word)
        except ValueError:
            said = f"{what} is `{word}`, where a whole number is due"
            odd = odd_bytes(word)
            said = COMMENT if word.startswith("#") else f"{said}: {odd}" if odd else said
            raise Problem(f"{self.name}, line {self.at}: {said}") from None

    def free_values(self, count: int) -> list[str]:
        """The words of a free list, which begins on a new line."""
        out: list[str] = []
        while len(out) < count:
            line = self.line(on_blank="")
            self._look_for_nulls(line, count - len(out))
            found = quoted_words(line)
            known = list(map(self.known.get, found))
            if len(known) <= count - len(out) and None not in known:
                out += cast("list[str]", known)
                continue
            for word in found:
                if len(out) >= count:
                    break
                times, star, value = word.partition("*")
                if "/" in word or (star and not value):
                    raise Problem(f"{self.name}, line {self.at}: `{word}` leaves values out: {KEPT}")
                if star and (not times.isdigit() or int(times) < 1):
                    raise Problem(f"{self.name}, line {self.at}: `{word}` is no repeated number")
                out += [self.number(value)] * min(int(times), count) if star else [self.number(word)]
        return out[:count]

    def _look_for_nulls(self, line: str, count: int) -> None:
        """Warns where one of the line's first `count` values is left out between two commas."""
        if "," not in line:
            return
        items = [item.strip() for item in line.split(",")]
        taken = 0
        for item in items[:-1] if not items[-1] else items:
            if taken >= count:
                return
            if not item:
                text = f"a value is left out (`,,`): `heads` takes the next one, and {KEPT}"
                self.report.add("blocking", self.name, self.at, text)
                return
            taken += sum(repeats(word) for word in item.split())

    def fixed_values(self, count: int, text: str) -> list[str]:
        """The words of a list in columns of fixed width, which begins on a new line."""
        form = format_of(text)
        if form is None:
            raise Problem(f"the format {text} has no columns")
        out: list[str] = []
        line, at = self._fixed_line(), 0
        for part in form.all_parts():
            if len(out) == count and (part is None or isinstance(part, Field)):
                break
            if isinstance(part, Field):
                out.append(self.number(part.of(line, at)))
                at += part.width
            elif isinstance(part, Skip):
                at += part.width
            elif isinstance(part, Column):
                at = part.at
            else:
                line, at = self._fixed_line(), 0
        return out

    def _fixed_line(self) -> str:
        line = self.line(is_blank_taken=True)
        if "\t" in line and not self.has_tab:
            self.has_tab = True
            text = "a tab in columns of fixed width, here one letter: MODFLOW-2005 may count it otherwise"
            self.report.add("warnings", self.name, self.at, text)
        return line


def read_binary(path: Path, count: int, at: int, is_rest: bool) -> tuple[np.ndarray, int]:
    """An array of MODFLOW's unformatted files from a byte on, and the byte after it: singles or doubles, with or
    without a header and Fortran's record marks. `is_rest`: the array is the rest of the file."""
    raw = path.read_bytes()[at:]
    fits = []
    for size, dtype in ((4, "<f4"), (8, "<f8")):
        for marks in (0, 4):
            for header in (0, 36 + 2 * size):
                total = (header + 2 * marks if header else 0) + count * size + 2 * marks
                name = raw[marks + 8 + 2 * size : marks + 24 + 2 * size]
                named = not header or name.isascii() and name.strip().isalpha()
                marked = not marks or raw[:4] == (header or count * size).to_bytes(4, "little")
                if named and marked and (total == len(raw) if is_rest else header and total <= len(raw)):
                    fits.append((size, dtype, total - count * size - marks, total))
    if len({f[1] for f in fits}) != 1:
        raise Problem(f"{path.name}: its {len(raw)} bytes are no array of {count} numbers that can be told for sure")
    size, dtype, skip, total = fits[0]
    values = np.frombuffer(raw, dtype, count, skip)
    if not np.isfinite(values).all():
        raise Problem(f"{path.name}: a value isn't a number")
    return values, at + total


def binary_words(values: np.ndarray) -> list[str]:
    """The shortest decimals that name each value among its kind (9 digits for singles, 17 for doubles)."""
    return [np.format_float_scientific(v, unique=True, trim="0") for v in values]
