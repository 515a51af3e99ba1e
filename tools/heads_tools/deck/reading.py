"""The reading of a deck: its files, where each was read up to, and what is remarkable."""
from __future__ import annotations

import re
from pathlib import Path

from ..common.spelling import quoted_words
from ..common.text import Problem
from .deck import Deck
from .names import missing
from .sources import Report, Source, find_file

MOST_LETTERS = 200


class Reading:
    """The reading of one deck. `at`: the file that is read."""

    def __init__(self, nam: Path, as_modflow: bool = False, any_size: bool = False, has_convertible: bool = False):
        self.any_size, self.has_convertible = any_size, has_convertible
        self.report, self.deck, self.folder, self.as_modflow = Report(), Deck(nam), nam.parent, as_modflow
        self.sources: dict[str, Source] = {}
        self.binary_at: dict[str, int] = {}
        self.option_line = 0
        # The files MULT, ZONE and PVAL by their kinds, what was read of them, and whether some parameter was.
        self.parameter_files: dict[str, str] = {}
        self.parameter_tables: dict[str, dict] = {}
        self.has_parameters = False
        self.at: Source | None = None

    @property
    def now(self) -> Source:
        """The file that is read."""
        if self.at is None:
            raise Problem("no file is read")
        return self.at

    def refuse_text(self, kind: str, text: str) -> None:
        file = self.deck.files.get(kind, kind)
        here = self.at
        if here is not None and here.due:
            self.report.due.setdefault(here.name, here.due)
        if here is not None and text.startswith(here.name):
            self.report.add("refusals", here.name, here.at, re.sub(r"^[^:]*, line \d+: |^\S+ ", "", text, count=1))
        else:
            self.report.add("refusals", here.name if here else file, here.at if here else 0, text)

    def refuse(self, text: str) -> None:
        self.report.add("refusals", self.now.name, self.now.at, text)

    def need(self, text: str) -> None:
        self.report.add("needed", self.now.name, self.now.at, text)

    def want_wide(self, faults: list[str]) -> None:
        """Notes what is within the wide limits alone."""
        if faults:
            self.report.add("wide", self.now.name, self.now.at, "without --wide `heads` takes " + "; ".join(faults))

    def warn(self, text: str) -> None:
        self.report.add("warnings", self.now.name, self.now.at, text)

    def open(self, name: str) -> Source:
        try:
            path, how = find_file(self.folder, name)
        except Problem:
            raise Problem(f"there is no file {name}. {missing(name, self.folder)}") from None
        source = Source(path, name, self.report)
        if how:
            self.report.add("needed", self.deck.path.name, 0, how)
        return source

    def start(self, kind: str) -> Source:
        self.at = None
        self.at = source = self.open(self.deck.files[kind])
        self.deck.comments[kind] = source.comments(is_blank_taken=kind == "BAS6")
        return source

    def unit(self, word: str) -> Source:
        """The file of a unit, where it was read up to."""
        name = self.deck.units.get(word)
        if name is None:
            raise Problem(f"unit {word} isn't in the name file")
        if name == self.now.name:
            return self.now
        if name not in self.sources:
            self.sources[name] = self.open(name)
        return self.sources[name]

    def fields(self, source: Source, line: str, count: int) -> list[str]:
        """The first words of a line: parted by blanks, or by columns of 10 in a deck without FREE. Missing ones are
        0."""
        if self.deck.is_free:
            w = quoted_words(line)
            if len(line) > MOST_LETTERS and w[:count] != quoted_words(line[:MOST_LETTERS])[:count]:
                text = f"MODFLOW-2005 cuts the line at {MOST_LETTERS} letters, `heads` reads all of it"
                self.report.add("warnings", source.name, source.at, text)
        else:
            w = [line[k : k + 10].replace(" ", "") or "0" for k in range(0, 10 * count, 10)]
            self.report.add("needed", source.name, 0, "columns of fixed width written free")
        return w[:count] + ["0"] * (count - len(w))

    def counts(self, source: Source, count: int, what: str) -> list[str]:
        """The counts or flags that begin a stress period, or zeros for a blank line where it is read as MODFLOW
        does."""
        source.due = what
        if not self.as_modflow:
            return self.fields(
                source,
                source.line(
                    on_blank=f"a blank line where {what} is due: MODFLOW-2005 reads zeros, `heads` takes the next line"
                ),
                count,
            )
        line = source.line(is_blank_taken=True)
        if not line.strip(" \t,\x1a"):
            zeros = " ".join(["0"] * count)
            self.report.add(
                "needed",
                source.name,
                source.at,
                (
                    f"a blank line where {what} is due written as `{zeros}`, "
                    "which MODFLOW-2005 reads there; `heads` skips it"
                ),
                is_first=True,
            )
            return ["0"] * count
        return self.fields(source, line, count)
