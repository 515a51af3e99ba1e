"""between: two decks of one shape in a folder, from one deck, ranges of factors and shifts, and the packages of another
plan. They are what `heads run from.nam --to to.nam` and MODFLOW-2005 read."""
from __future__ import annotations

import os
from dataclasses import dataclass, field
from pathlib import Path

from ..common.spelling import quoted_words
from ..common.text import Problem, on_disk
from ..common.whole_files import copy_whole, whole_file, whole_folder
from .deck import COLUMNS, KINDS, PASSED, Deck
from .names import plain_name
from .packages import read_deck
from .pairing import pair
from .ranges import Range, Stresses
from .writing import package_lines

STRESSES = (*COLUMNS, "RCH", "EVT")
FIRST, SECOND, BOTH = "from", "to", "both"
OUTPUTS = {"LIST", "DATA", "DATA(BINARY)"}
DATA = {
    "WEL": "wells",
    "RIV": "rivers",
    "DRN": "drains",
    "GHB": "general heads",
    "CHD": "given heads",
    "RCH": "recharge",
    "EVT": "evapotranspiration",
}
FREE_UNIT = 20
NOTES = "between.txt"


@dataclass
class Ranges:
    """What differs between the two decks: factors of pumping and of recharge, shifts of river stages, and the files of
    the second plan's packages."""

    wells: Range = Range("1", "1")
    recharge: Range = Range("1", "1")
    stage: Range = Range("0", "0")
    packages: list[Path] = field(default_factory=list)

    def stresses(self) -> tuple[Stresses, Stresses]:
        """What the first deck has, and what the second one has."""
        first = Stresses(self.wells.first, self.recharge.first, self.stage.first)
        return first, Stresses(self.wells.second, self.recharge.second, self.stage.second)


def write_between(nam: Path, folder: Path, ranges: Ranges) -> list[str]:
    """Writes both decks into a folder; what there is to say of them."""
    if folder.resolve() == nam.resolve().parent:
        raise Problem("the two decks go into another folder than the deck's own")
    others = kinds_of(ranges.packages, nam)
    first, second = whole(nam, {}), whole(nam, others)
    refuse_idle(first, second, ranges)
    pair(first, second, set(others))
    for deck, stresses in zip((first, second), ranges.stresses()):
        stresses.change(deck)
    texts = [{kind: package_lines(grown(deck), kind) for kind in kinds_in(deck)} for deck in (first, second)]
    differing = [kind for kind in KINDS if kind in texts[0] and texts[0][kind] != texts[1][kind]]
    with whole_folder(folder, is_own=(folder / NOTES).is_file()) as new:
        write_packages(new, texts, differing)
        taken = copy_passed(first, new)
        for deck, word in ((first, FIRST), (second, SECOND)):
            write_lines(new / f"{word}.nam", name_lines(deck, word, differing, taken))
        write_lines(new / NOTES, told(folder, differing))
    return told(folder, differing)


def kinds_of(packages: list[Path], nam: Path) -> dict[str, str]:
    """The second plan's files by package, which their endings say, as names seen from the deck's folder."""
    out: dict[str, str] = {}
    for path in packages:
        kind = path.suffix[1:].upper()
        if kind not in STRESSES:
            endings = ", ".join(f".{each.lower()}" for each in STRESSES)
            raise Problem(f"{path}: a package of the second plan ends with one of {endings}: other data are the same")
        if kind in out:
            raise Problem(f"{path}: --package names a second file of {kind}")
        out[kind] = os.path.relpath(path.resolve(), nam.resolve().parent)
    return out


def whole(nam: Path, others: dict[str, str]) -> Deck:
    """A deck that was read whole, with other files of some packages."""
    deck, report = read_deck(nam, as_modflow=True, others=others)
    wrong = report.blocking + report.refusals
    if wrong:
        raise Problem(f"{wrong[0]} (`heads-tools inside` says all of the deck itself)")
    return deck


def refuse_idle(one: Deck, two: Deck, ranges: Ranges) -> None:
    """Refuses a range of a package that neither deck has."""
    for name, kind, span in (
        ("--wells", "WEL", ranges.wells),
        ("--recharge", "RCH", ranges.recharge),
        ("--stage", "RIV", ranges.stage),
    ):
        if span.first != span.second and kind not in one.files and kind not in two.files:
            raise Problem(f"{one.path.name} has no {DATA[kind]}, and {name} is a range of them")


def kinds_in(deck: Deck) -> list[str]:
    return [kind for kind in KINDS if kind in ("DIS", "BAS6", "LPF") or kind in deck.lists or kind in deck.areal]


def grown(deck: Deck) -> Deck:
    """The deck with an option line in each list and array package, whose greatest count is that of its entries at
    least: MODFLOW-2005 stops where a list has more."""
    for kind, lists in deck.lists.items():
        most, *rest = quoted_words(deck.options.get(kind, "0 0"))
        deck.options[kind] = " ".join([str(max(int(most), *(len(each or []) for each in lists))), *rest])
    for kind, areal in deck.areal.items():
        deck.options.setdefault(kind, f"{areal.option} 0")
    return deck


def write_packages(folder: Path, texts: list[dict[str, list[str]]], differing: list[str]) -> None:
    for word, lines in zip((FIRST, SECOND), texts):
        for kind, text in lines.items():
            write_lines(folder / file_of(kind, word, differing), text)


def file_of(kind: str, word: str, differing: list[str]) -> str:
    """The file of a package: one for both decks where they have the same."""
    return f"{word if kind in differing else BOTH}.{kind.lower().rstrip('6')}"


def write_lines(path: Path, lines: list[str]) -> None:
    with whole_file(path, binary=True, is_own=True) as file:
        file.write(("\n".join(lines) + "\n").encode("latin-1", "replace"))


def copy_passed(deck: Deck, folder: Path) -> set[str]:
    """Copies the files that MODFLOW-2005 reads beside the packages, as OC and PCG; their names."""
    names = {words[2] for words in map(quoted_words, deck.name_lines) if is_passed(words)}
    found = {name for name in names if on_disk(deck.path.parent, name).is_file()}
    for name in found:
        copy_whole(on_disk(deck.path.parent, name), folder / plain_name(name))
    return found


def is_passed(words: list[str]) -> bool:
    return len(words) > 2 and words[0].upper() in PASSED - OUTPUTS


def name_lines(deck: Deck, word: str, differing: list[str], taken: set[str]) -> list[str]:
    """The name file: packages by their new files, the outputs of MODFLOW-2005 by names of this deck's own."""
    out, units = [], {"0"}
    for line in deck.name_lines:
        words = quoted_words(line)
        if line.startswith("#") or len(words) < 3:
            out.append(line.rstrip())
            continue
        kind, unit, name, *rest = words
        units.add(unit)
        if kind.upper() in KINDS:
            out.append(f"{kind} {unit} {file_of(kind.upper(), word, differing)}")
        elif kind.upper() in OUTPUTS:
            out.append(" ".join([kind, unit, f"{word}_{plain_name(name)}", *rest]))
        elif name in taken:
            out.append(" ".join([kind, unit, plain_name(name), *rest]))
    named = {line.split()[0].upper() for line in out if line.split()}
    for kind in kinds_in(deck):
        if kind not in named:
            unit = next(str(n) for n in range(FREE_UNIT, 10_000) if str(n) not in units)
            units.add(unit)
            out.append(f"{kind} {unit} {file_of(kind, word, differing)}")
    return out


def told(folder: Path, differing: list[str]) -> list[str]:
    names = ", ".join(DATA[kind] for kind in differing)
    if not differing:
        return [f"written: {folder / FIRST}.nam and {SECOND}.nam, which are the same deck: no range was named"]
    return [
        f"written: {folder / FIRST}.nam and {SECOND}.nam, alike but for {names}",
        f"bounds of all that lies between: cd {folder} && heads run {FIRST}.nam --to {SECOND}.nam",
    ]
