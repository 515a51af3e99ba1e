"""A base deck, the other end of its weather and a plan, all in the spelling of `heads write`: what may differ between
them, and the wells that the plan adds."""
from __future__ import annotations

from collections import Counter
from dataclasses import dataclass, field, replace
from pathlib import Path

from ..common.spelling import exact, quoted_words
from ..common.text import Problem, counted, read_text
from ..common.whole_files import whole_file
from ..deck.deck import KINDS, Deck, Entry
from ..deck.decks_between import DATA
from ..deck.grid_files import read_dis
from ..deck.name_file import read_names
from ..deck.packages import read_deck
from ..deck.reading import Reading
from ..deck.sources import Report
from ..deck.stress_files import read_list
from ..program.reading import one_spelling, refused, with_time_unit

BASE, HIGH, PLAN = "base", "base_high", "plan"
WELLS_ALONE = "a plan may add wells, or take wells out, and change nothing else"
Wells = list[list[Entry]]


@dataclass
class Spelled:
    """A deck in the spelling of `heads write`: the name of the user's name file, each package's text, and the deck as
    it was read from these."""

    name: str
    texts: dict[str, bytes]
    deck: Deck

    def entries(self, kind: str) -> Wells:
        """A list's entries in each period."""
        out: Wells = []
        for each in self.deck.lists.get(kind) or [[] for _ in self.deck.periods]:
            out.append(out[-1] if each is None else each)
        return out


def spelled(nam: Path, folder: Path, stem: str, has_wide: bool) -> Spelled:
    """The deck as the program itself reads it. Its files are written into `folder` and read from there."""
    files = one_spelling(nam, has_wide)
    if not files:
        said = refused(nam, has_wide) or ["`heads write` puts no deck of it that can be read again"]
        raise Problem(f"{nam.name}: " + " ".join(said))
    files = with_time_unit(files, read_deck(nam)[0].itmuni)
    texts = {kind_of(name): text for name, text in files.items() if name != "p.nam"}
    for kind, text in texts.items():
        write_file(folder / file_of(stem, kind), text)
    write_names(folder, stem, {kind: stem for kind in texts})
    deck, report = read_deck(folder / f"{stem}.nam")
    demand_read(nam.name, report)
    return Spelled(nam.name, texts, deck)


def kind_of(name: str) -> str:
    return {"BAS": "BAS6"}.get(name[2:].upper(), name[2:].upper())


def file_of(stem: str, kind: str) -> str:
    return f"{stem}.{kind.lower().rstrip('6')}"


def write_file(path: Path, text: bytes) -> None:
    with whole_file(path, binary=True, is_own=True) as file:
        file.write(text)


def write_names(folder: Path, stem: str, stems: dict[str, str]) -> None:
    """The name file of packages, each of which is the file of some deck."""
    lines = [f"{kind} {11 + n} {file_of(stems[kind], kind)}" for n, kind in enumerate(KINDS) if kind in stems]
    write_file(folder / f"{stem}.nam", ("\n".join(lines) + "\n").encode())


def demand_read(name: str, report: Report) -> None:
    if wrong := report.blocking + report.refusals:
        raise Problem(f"{name}: {wrong[0]}")


def demand_weather(base: Spelled, high: Spelled) -> None:
    """Refuses two ends of a weather whose aquifers differ. What else has to be alike `heads` itself demands."""
    for kind, what in (("DIS", "the grid, the elevations or the times"), ("LPF", "conductivities or storage")):
        if base.texts[kind] != high.texts[kind]:
            raise Problem(
                f"{high.name} and {base.name} differ in {kind}, {what}: {first_line(base, high, kind)}. The weather may"
                " differ in stresses and STRT alone; of an aquifer that isn't known nothing is said here"
            )


def demand_plan(base: Spelled, plan: Spelled) -> None:
    """Refuses a plan that isn't the base deck but for its wells."""
    for kind in KINDS:
        one, two = base.texts.get(kind), plan.texts.get(kind)
        if kind == "WEL" or one == two:
            continue
        if one is None or two is None:
            has, lacks = (plan, base) if one is None else (base, plan)
            raise Problem(f"{has.name} has {DATA[kind]} ({kind}) and {lacks.name} has none: {WELLS_ALONE}")
        raise Problem(f"{plan.name} and {base.name} differ in {kind}: {first_line(base, plan, kind)}. {WELLS_ALONE}")


def first_line(one: Spelled, two: Spelled, kind: str) -> str:
    """The first line in which two files differ, in the spelling of `heads write`."""
    a, b = (each.texts[kind].decode("latin-1").splitlines() for each in (one, two))
    at = next((n for n, (x, y) in enumerate(zip(a, b)) if x != y), min(len(a), len(b)))
    shown = [(lines[at] if at < len(lines) else "the end of the file")[:60] for lines in (b, a)]
    return f"`{shown[0]}` in place of `{shown[1]}` (line {at + 1} of {kind} as `heads write` puts it)"


@dataclass
class Plan:
    """The wells that a plan adds, for each period, and what there is to say of them."""

    name: str
    wells: Wells
    said: list[str] = field(default_factory=list)


def read_plan(path: Path, base: Spelled, folder: Path, has_wide: bool) -> Plan:
    """The plan of a WEL file, whose wells are added, or of a name file, whose deck is the base but for its wells. The
    first word of a WEL file is a number."""
    if is_well_file(path):
        plan = Plan(path.name, *added_in(path, base, folder))
        said = f"{path.name} is a file of WEL: its wells are added to those of {base.name}"
    else:
        other = spelled(path, folder, "other", has_wide)
        demand_plan(base, other)
        plan = Plan(path.name, [more(a, b) for a, b in zip(base.entries("WEL"), other.entries("WEL"))])
        said = f"{path.name} is a name file: the plan is what its wells are more than those of {base.name}"
    if not any(exact(entry.words[0]) for entries in plan.wells for entry in entries):
        raise Problem(f"{path.name} has no well that {base.name} hasn't: there is no plan to look at")
    plan.said = [said, *plan.said, *idle(plan.wells, base)]
    return plan


def is_well_file(path: Path) -> bool:
    """Whether a file is one of WEL, by its first word: a count, or PARAMETER. That of a name file is a package."""
    lines = (line for line in read_text(path).split("\n") if not line.startswith("#"))
    first = next((words[0] for words in map(quoted_words, lines) if words), "")
    return first.isdigit() or first.upper() == "PARAMETER"


def added_in(path: Path, base: Spelled, folder: Path) -> tuple[Wells, list[str]]:
    """The wells of a file of WEL, over the periods of the base deck, and what isn't read as it stands there."""
    reading = Reading(folder / f"{BASE}.nam")
    read_names(reading)
    read_dis(reading)
    reading.deck.is_free = True
    reading.folder, reading.deck.files["WEL"] = path.parent, path.name
    try:
        read_list(reading, "WEL")
    except (IndexError, ValueError) as error:
        raise Problem(f"{path.name} can't be read: {error}") from None
    demand_read(path.name, reading.report)
    rest = [line for line in reading.now.lines[reading.now.at :] if quoted_words(line)]
    if rest:
        count = counted(len(base.deck.periods), "period")
        raise Problem(f"{path.name} goes on with `{rest[0][:60]}` after the {count} of {base.name}")
    return Spelled(path.name, {}, reading.deck).entries("WEL"), [f"CAREFUL: {each}" for each in reading.report.needed]


def more(base: list[Entry], plan: list[Entry]) -> list[Entry]:
    """What a plan's wells are more than the base's: those that it alone has, and those that the base alone has with
    the other sign."""
    key = lambda entry: (entry.cell, exact(entry.words[0]))
    kept, new = Counter(map(key, base)), []
    for entry in plan:
        if kept[key(entry)] > 0:
            kept[key(entry)] -= 1
        else:
            new.append(entry)
    for entry in reversed(base):
        if kept[key(entry)] > 0:
            kept[key(entry)] -= 1
            new.append(replace(entry, words=[turned(entry.words[0])]))
    return [entry for entry in new if exact(entry.words[0])]


def turned(word: str) -> str:
    """The number of a word with the other sign."""
    return word[1:] if word.startswith("-") else "-" + word.lstrip("+")


def idle(wells: Wells, base: Spelled) -> list[str]:
    """Says which of the wells stand where there is no flow, so that they take nothing."""
    cells = sorted({entry.cell for entries in wells for entry in entries})
    found = [cell for cell in cells if ibound(base.deck, cell) <= 0]
    name = lambda cell: "layer {} row {} column {}".format(*cell)
    said = "stands in a cell without an equation: it takes nothing"
    return [f"CAREFUL: the plan's well at {name(cell)} {said}" for cell in found]


def ibound(deck: Deck, cell: tuple[int, int, int]) -> int:
    layer, row, col = cell
    return int(deck.ibound[layer - 1].exact((row - 1) * deck.ncol + col - 1))
