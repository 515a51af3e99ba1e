"""The page of a listing: one file of HTML beside its pictures, which opens from disk. Its template is page.html."""
from __future__ import annotations

from dataclasses import dataclass, field
from pathlib import Path
from typing import Union

from ..common.whole_files import whole_file
from .templates import rendered

NOTE = (
    "Pictures, rounded numbers and this page are made by heads-tools, which isn't proved; "
    "it rounds lower numbers down and upper ones up. "
    "Certified pairs enclose every exact solution of the deck's equations; they say nothing of the aquifer itself."
)


@dataclass
class Figure:
    """A picture, its SVG beside it where there is one; folded under the line `fold` where that is given."""

    name: str
    caption: str
    svg: str = ""
    fold: str = ""
    kind: str = "figure"


@dataclass
class Table:
    """A table, which scrolls by itself where the window is narrow. `is_sorted`: a click on the head of a column sorts
    its rows."""

    head: list[str]
    rows: list[list[str]]
    is_sorted: bool = False
    fold: str = ""
    kind: str = "table"


@dataclass
class Link:
    """A link to another page, and what it shows."""

    name: str
    text: str
    about: str
    fold: str = ""
    kind: str = "link"


@dataclass
class Sentence:
    """A paragraph."""

    text: str
    fold: str = ""
    kind: str = "sentence"


Part = Union[Figure, Table, Link, Sentence]


@dataclass
class Page:
    """What a page shows: a verdict under its title (good, bad or neither), facts, sentences, parts by rooms, and the
    names of the files that were written beside it."""

    title: str
    sentences: list[str] = field(default_factory=list)
    rooms: dict[str, list[Part]] = field(default_factory=dict)
    note: str = ""
    verdict: str = ""
    is_good: bool | None = None
    facts: list[tuple[str, str]] = field(default_factory=list)
    has_svg: bool = False
    files: list[str] = field(default_factory=list)

    def say(self, text: str) -> None:
        self.sentences.append(text)

    def picture(self, room: str, name: str, caption: str, fold: str = "") -> None:
        svg = name.rsplit(".", 1)[0] + ".svg" if self.has_svg else ""
        self.add(room, Figure(name, caption, svg, fold))

    def table(
        self, room: str, head: list[str], rows: list[list[str]], fold: str = "", is_sorted: bool = False
    ) -> None:
        self.add(room, Table(head, rows, is_sorted, fold))

    def text(self, room: str, text: str) -> None:
        self.add(room, Sentence(text))

    def map(self, room: str, name: str, about: str) -> None:
        """A link to the interactive map."""
        self.add(room, Link(name, "A map to point at", about))

    def add(self, room: str, part: Part) -> None:
        self.rooms.setdefault(room, []).append(part)


def write_page(page: Page, folder: Path) -> None:
    """Writes index.html."""
    rooms = {room: parts for room, parts in page.rooms.items() if parts}
    has_sorted = any(isinstance(part, Table) and part.is_sorted for parts in rooms.values() for part in parts)
    note = f"{page.note} {NOTE}".strip()
    with whole_file(folder / "index.html") as file:
        file.write(rendered("page.html", page=page, rooms=rooms, note=note, has_sorted=has_sorted))
