#!/usr/bin/env python3
"""Compares the functions of library.py with the library's own text, on random arguments.

    tests/definitions/check_library.py LIBRARY COUNT

LIBRARY is the toolchain's folder `rattle`. Arithmetic, truth values and numbers as text are taken as Python has them.
The script ends with 1 where one differs.
"""
from __future__ import annotations

import os
import sys
from random import Random
from typing import Any, Callable

sys.path.insert(0, os.path.join(os.path.dirname(os.path.abspath(__file__)), ".."))

from definitions import names  # noqa: E402
from definitions.declared import Definition  # noqa: E402
from definitions.library import LIBRARY, LISTS, NUMBERS, OPTIONS, PROPOSITIONS  # noqa: E402
from definitions.running import Definitions  # noqa: E402
from definitions.values import NONE, Undecided, Unknown, pair, same, some  # noqa: E402

# Where the library defines them.
PLACES = [("core", "Prelude"), ("core", "List"), ("core", "Option"), ("core", "Int"), ("core", "Bool"), ("core", "Str"),
          ("core", "Str.Parse"), ("core", "Result"), ("std_collections", "Map"), ("lib", "ListN"), ("lib", "Chars"),
          ("mathlib", "Core.List"), ("core", "Iterator"), ("core", "Io.KnownBytes"), ("std", "Io.KnownBytes")]
NUMBER = (0, 0, 1, 2, 3, 9, 48, 57, 58, 65, 90, 97, 122, 255)
Draw = Callable[[Random], Any]


def number(draw: Random) -> int:
    return draw.choice(NUMBER)


def numbers(draw: Random) -> tuple[int, ...]:
    return tuple(number(draw) for _ in range(draw.randrange(6)))


def lists(draw: Random) -> tuple[Any, ...]:
    return tuple(numbers(draw) for _ in range(draw.randrange(4)))


def pairs(draw: Random) -> tuple[Any, ...]:
    return tuple(pair(number(draw), number(draw)) for _ in range(draw.randrange(4)))


def maybe(draw: Random) -> Any:
    return some(number(draw)) if draw.random() < 0.6 else NONE


def maybe_list(draw: Random) -> Any:
    return some(numbers(draw)) if draw.random() < 0.6 else NONE


def test(draw: Random) -> Any:
    bound = number(draw)
    return draw.choice([lambda x: x < bound, lambda x: x == bound, lambda x: x % 2 == 0])


def relation(draw: Random) -> Any:
    return draw.choice([lambda a: lambda b: a == b, lambda a: lambda b: a <= b])


def more(draw: Random) -> Any:
    return lambda x: x + 1


def two(draw: Random) -> Any:
    return lambda x: (x, x + 1)


def partly(draw: Random) -> Any:
    passes = test(draw)
    return lambda x: some(x + 1) if passes(x) else NONE


def step(draw: Random) -> Any:
    return lambda a: lambda b: 3 * a + b


ARGUMENTS: dict[str, list[Draw]] = {
    "map": [more, numbers], "filter_map": [partly, numbers], "flat_map": [two, numbers], "concat": [lists],
    "take": [number, numbers], "drop": [number, numbers], "replicate": [number, number], "zip": [numbers, numbers],
    "slice_index_or": [numbers, number, number], "get_or": [numbers, number, number], "slice_index": [numbers, number],
    "slice_get": [numbers, number], "slice_set": [numbers, number, number], "range_with_len": [number, number],
    "onto_first": [number, lists], "join_with_byte": [number, lists], "fold": [step, number, numbers],
    "lookup": [test, pairs], "enumerate_from": [number, numbers], "sum_by": [more, numbers],
    "str_eq_ignore_ascii_case": [numbers, numbers], "all_ascii_digits": [numbers], "length": [numbers],
    "reverse": [numbers], "option_to_list": [maybe], "is_some": [maybe], "option_map": [more, maybe],
    "option_and_then": [partly, maybe], "unwrap_or": [maybe, number], "option_or": [maybe, maybe],
    "option_map_or": [more, maybe, number], "AllZip": [relation, numbers, numbers], "AllPairs": [relation, numbers],
    "Contains": [numbers, number], "IsDistinct": [relation, numbers], "IfSome": [maybe, test],
    "IsSomeAnd": [maybe, test], "Appends": [maybe_list, maybe_list, numbers],
}  # fmt: skip
SEARCHES = ("filter", "list_any", "list_all", "find", "position", "take_while", "prefix_len", "before_first",
            "after_first", "slice_split", "All", "Any")
ARGUMENTS |= {name: [test, numbers] for name in SEARCHES}


def text_of(definitions: Definitions, name: str) -> Definition | None:
    for crate, path in PLACES:
        file = definitions.names.file(crate, path)
        found = file.definitions.get(name)
        if found is None and name in file.imports:
            found = definitions.names.member(*file.imports[name])
        if found is not None and (found.clauses or found.fields):
            return found
    return None


def compare(definitions: Definitions, name: str, count: int) -> str:
    """What came of the comparison."""
    found = text_of(definitions, name)
    if found is None or name not in ARGUMENTS:
        return "not compared"
    own, draw = definitions.get_of(found), Random(name)
    for _ in range(count):
        given = [each(draw) for each in ARGUMENTS[name]]
        try:
            wanted = own(*given)
        except (Undecided, Unknown, TypeError):
            return "not compared"
        if not same(LIBRARY[name][1](*given), wanted):
            print(f"{name} {given}: by hand {LIBRARY[name][1](*given)}, by its text {wanted}")
            return "different"
    return "same"


def main() -> int:
    if len(sys.argv) != 3:
        print(__doc__, file=sys.stderr)
        return 2
    # The text of the library is read in place of what is by hand, but for numbers.
    by_hand = names.by_hand
    names.by_hand = lambda name: None if name in LIBRARY and name not in NUMBERS else by_hand(name)
    top = os.path.join(os.path.dirname(os.path.abspath(__file__)), "..", "..")
    definitions = Definitions(top, sys.argv[1])
    results = {name: compare(definitions, name, int(sys.argv[2])) for name in {**LISTS, **OPTIONS, **PROPOSITIONS}}
    for what in ("same", "different", "not compared"):
        of_kind = [name for name, result in results.items() if result == what]
        print(f"{len(of_kind)} {what}" + (f": {' '.join(of_kind)}" if what != "same" else ""))
    return int("different" in results.values())


if __name__ == "__main__":
    sys.setrecursionlimit(10**6)
    sys.exit(main())
