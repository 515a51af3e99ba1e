"""Templates of a deck as PEST fills them: text whose marks `@name   @` are replaced by numbers."""
from __future__ import annotations

import csv
import re
from dataclasses import replace
from pathlib import Path

from ..common.kept_files import OUTPUTS, kinds_of, opened
from ..common.spelling import MOST_DIGITS, exact, number
from ..common.text import Problem, read_text
from .deck import Areal, Deck
from .sources import Array
from .writing import package_lines

ENDING = ".tpl"
WIDTH = 24
# The arrays that get a mark: the factor of one that is given cell by cell, the value of a constant one.
MARKED = ("HK", "HANI", "VKA", "SS", "VKCB", "RECH", "EVTR")


def template_of(deck: Deck, kind: str) -> tuple[list[str], dict[str, str]]:
    """A package's file as a template, and the value of each mark in the deck as it is: LPF by layers, RCH and EVT by
    stress periods."""
    values: dict[str, str] = {}

    def marked(name: str, at: int, array: Array) -> Array:
        if name not in MARKED:
            return array
        mark = f"{name.lower()}_{at}"
        text = f"@{mark:<{WIDTH - 2}}@"
        if array.is_constant:
            values[mark] = array.words[0]
            return replace(array, words=[text])
        values[mark] = array.factor if exact(array.factor) else "1"
        return replace(array, factor=text)

    def all_marked(arrays: dict[str, Array], at: int) -> dict[str, Array]:
        return {name: marked(name, at, array) for name, array in arrays.items()}

    copy = replace(deck)
    if kind == "LPF":
        copy.properties = [all_marked(layer, k) for k, layer in enumerate(deck.properties, 1)]
    else:
        areal = deck.areal[kind]
        periods = [(flags, all_marked(arrays, n)) for n, (flags, arrays) in enumerate(areal.periods, 1)]
        copy.areal = {**deck.areal, kind: Areal(areal.option, periods, areal.line)}
    return ["ptf @", *package_lines(copy, kind)], values


class Template:
    """A file that PEST or `ensemble` fills: its first line says with which sign its marks begin and end."""

    def __init__(self, path: Path):
        self.path = path
        first, _, self.text = read_text(path).partition("\n")
        words = first.split()
        if len(words) != 2 or words[0].lower() not in ("ptf", "jtf") or len(words[1]) != 1:
            raise Problem(f"{path} is no template: its first line is `ptf @`, where @ is the sign of its marks")
        sign = re.escape(words[1])
        self.mark = re.compile(f"{sign} *([^{sign}\\n]*?) *{sign}")
        self.names = list(dict.fromkeys(name.lower() for name in self.mark.findall(self.text)))
        if not self.names or "" in self.names:
            raise Problem(f"{path} has no mark `{words[1]}name{words[1]}`, or one without a name")

    @property
    def target(self) -> str:
        """The name of the file that it makes."""
        if self.path.suffix.lower() != ENDING:
            raise Problem(f"{self.path}: a template's name is that of its file with {ENDING}, as m.lpf{ENDING}")
        return self.path.stem

    def filled(self, values: dict[str, str]) -> str:
        """The text with numbers in place of the marks, each as wide as its mark where it fits."""
        return self.mark.sub(lambda found: values[found[1].lower()].ljust(len(found[0])), self.text)


def read_samples(path: Path, names: list[str]) -> dict[str, dict[str, str]]:
    """The samples of a table: a name each (the column `name`, else their numbers), and the numbers of all marks."""
    lines = [line for line in read_text(path).splitlines() if line.strip() and not line.startswith("#")]
    if len(lines) < 2:
        raise Problem(f"{path} has no sample: its first line names the marks, each other line is a sample")
    comma = ";" if ";" in lines[0] else ","
    header = [word.strip().strip('"').lower() for word in lines[0].split(comma)]
    for kind, found in (("lacks", set(names) - set(header)), ("has", set(header) - set(names) - {"name"})):
        if found:
            why = "which a template marks" if kind == "lacks" else "which no template marks"
            raise Problem(f"{path} {kind} the column {sorted(found)[0]}, {why}")
    out: dict[str, dict[str, str]] = {}
    for n, row in enumerate(csv.reader(lines[1:], delimiter=comma), 1):
        if len(row) != len(header):
            raise Problem(f"{path}, sample {n}: {len(row)} values, and {len(header)} are due")
        values = dict(zip(header, (word.strip().replace(",", ".") for word in row)))
        name = re.sub(r"[^\w.-]", "_", values.pop("name", "") or f"{n:04d}")
        if name in out or name.startswith("."):
            raise Problem(f"{path}, sample {n}: the name {name} stands twice, or begins with a point")
        out[name] = {mark: checked(path, n, word) for mark, word in values.items()}
    return out


def checked(path: Path, n: int, word: str) -> str:
    try:
        seen = number(word)
    except Problem as error:
        raise Problem(f"{path}, sample {n}: {error}") from None
    if seen.digits > MOST_DIGITS:
        raise Problem(f"{path}, sample {n}: {word} has more than {MOST_DIGITS} digits")
    return seen.text


def files_of_deck(nam: Path) -> list[Path]:
    """The files of a deck, as paths from the name file's folder. One that lies elsewhere can't be copied with it."""
    found = [path for path, kind in kinds_of(nam).items() if kind not in OUTPUTS and path.is_file()]
    out = []
    for path in [nam.resolve(), *found, *sorted(opened(nam))]:
        try:
            out.append(path.relative_to(nam.resolve().parent))
        except ValueError:
            said = f"{path} lies outside of the folder of {nam.name}, so copies of the deck can't have it"
            raise Problem(said) from None
    return list(dict.fromkeys(out))
