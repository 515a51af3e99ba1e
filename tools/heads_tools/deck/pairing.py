"""Two decks made of one shape: lists with the same entries at the same cells, arrays of the same periods. An entry that
one deck lacks gets the rate or the conductance 0 there. What can't be made alike is refused with file and line."""
from __future__ import annotations

from dataclasses import replace
from typing import Callable

from ..common.text import Problem
from .deck import COLUMNS, EVT_ARRAYS, Areal, Deck, Entry
from .sources import Array

ZEROED = {"WEL": 0, "RIV": 1, "DRN": 1, "GHB": 1}
LAYERS = {"RCH": "IRCH", "EVT": "IEVT"}
Key = tuple[tuple[int, int, int], int]


def pair(one: Deck, two: Deck, kinds: set[str]) -> None:
    """Makes the packages of these kinds alike in both decks."""
    for kind in sorted(kinds):
        if kind in COLUMNS:
            pair_lists(kind, one, two)
        else:
            pair_areal(kind, one, two)


def pair_lists(kind: str, one: Deck, two: Deck) -> None:
    """Gives both decks lists with the same entries at the same cells, in the same order."""
    empty: list[list[Entry] | None] = [[], *[None] * (len(one.periods) - 1)]
    given = [deck.lists.get(kind, empty) for deck in (one, two)]
    held: list[list[Entry]] = [[], []]
    out: list[list[list[Entry] | None]] = [[], []]
    for news in zip(*given):
        held = [old if new is None else new for old, new in zip(held, news)]
        both = (None, None) if news == (None, None) else pair_entries(kind, *held)
        for lists, entries in zip(out, both):
            lists.append(entries)
    one.lists[kind], two.lists[kind] = out


def pair_entries(kind: str, one: list[Entry], two: list[Entry]) -> tuple[list[Entry], list[Entry]]:
    """The entries of both lists at each cell, first those of the first list in its order. The entries of one cell are
    paired by their order."""
    a, b = keyed(one), keyed(two)
    keys = [*a, *(key for key in b if key not in a)]
    pairs = [(a.get(key) or lacking(kind, b[key]), b.get(key) or lacking(kind, a[key])) for key in keys]
    return [own(first) for first, _ in pairs], [own(second) for _, second in pairs]


def own(entry: Entry) -> Entry:
    """The entry with words of its own: a list that holds in several periods is written in each."""
    return replace(entry, words=list(entry.words))


def keyed(entries: list[Entry]) -> dict[Key, Entry]:
    """The entries by cell, and by their place among those of the cell."""
    seen: dict[tuple[int, int, int], int] = {}
    out = {}
    for entry in entries:
        seen[entry.cell] = seen.get(entry.cell, 0) + 1
        out[entry.cell, seen[entry.cell]] = entry
    return out


def lacking(kind: str, entry: Entry) -> Entry:
    """What a deck has in place of an entry that it lacks: the entry with the rate or the conductance 0."""
    if kind not in ZEROED:
        raise Problem(
            f"{entry.file}, line {entry.line}: only one of the decks gives the head of cell {place(entry.cell)}, so the"
            " other has other equations there. Both decks give heads at the same cells"
        )
    words = ["0" if n == ZEROED[kind] else word for n, word in enumerate(entry.words)]
    return Entry(entry.cell, words, entry.file, entry.line)


def pair_areal(kind: str, one: Deck, two: Deck) -> None:
    """Gives both decks the same option and new arrays in the same periods. Recharge that one deck lacks is 0."""
    if kind not in one.areal or kind not in two.areal:
        has, lacks = (one, two) if kind in one.areal else (two, one)
        if kind == "EVT":
            raise Problem(f"{has.files[kind]}, line {has.areal[kind].line}: the other deck has no evapotranspiration")
        lacks.areal[kind] = without_recharge(has.areal[kind])
        return
    a, b = one.areal[kind], two.areal[kind]
    if a.option != b.option:
        raise Problem(
            f"{two.files[kind]}, line {b.line}: the option is {b.option}, and that of {one.files[kind]} is {a.option}"
        )
    names = (("RECH",) if kind == "RCH" else EVT_ARRAYS) + ((LAYERS[kind],) if a.option == 2 else ())
    held: list[dict[str, Array]] = [{}, {}]
    for (flags, arrays), (others, other) in zip(a.periods, b.periods):
        new = [name for name in names if name in arrays or name in other]
        held[0].update(arrays)
        held[1].update(other)
        for name in new:
            refuse_unlike(name, held[0][name], held[1][name])
        flags[:] = others[:] = [0 if name in new else -1 for name in names]
        arrays.update({name: held[0][name] for name in new})
        other.update({name: held[1][name] for name in new})


def without_recharge(areal: Areal) -> Areal:
    zero = lambda name, array: Array(["0"], "1", array.shape) if name == "RECH" else array
    periods = [
        (list(flags), {name: zero(name, array) for name, array in arrays.items()}) for flags, arrays in areal.periods
    ]
    return Areal(areal.option, periods, areal.line)


def refuse_unlike(name: str, one: Array, two: Array) -> None:
    """Refuses an array that has to be the same in both decks, or 0 at the same places, and isn't."""
    tests: dict[str, tuple[Callable[[object, object], bool], str]] = {
        "EVTR": (lambda a, b: (a == 0) != (b == 0), "is 0 in one deck alone"),
        "RECH": (lambda a, b: False, ""),
        "SURF": (lambda a, b: False, ""),
    }
    is_unlike, said = tests.get(name, (lambda a, b: a != b, "has another value"))
    if one is two:
        return
    rows, cols = two.shape
    for at in range(rows * cols):
        if is_unlike(one.exact(at), two.exact(at)):
            cell = f"row {at // cols + 1} column {at % cols + 1}"
            raise Problem(f"{two.file}, line {two.line}: {name} {said} at {cell}, beside {one.file}, line {one.line}")


def place(cell: tuple[int, int, int]) -> str:
    return " ".join(map(str, cell))
