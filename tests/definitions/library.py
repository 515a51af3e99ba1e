"""The functions of the library std, by hand: how many arguments each takes, and what it gives."""
from __future__ import annotations

from typing import Any, Callable

from .values import NONE, Made, pair, same, some, text

Test = Callable[[Any], bool]
Items = tuple[Any, ...]


def place_of(test: Test, items: Items) -> int:
    """The first place whose item passes, or the length."""
    return next((place for place, item in enumerate(items) if test(item)), len(items))


def parts_between(test: Test, items: Items) -> Items:
    """The parts of a list between the items that pass."""
    parts: list[list[Any]] = [[]]
    for item in items:
        if test(item):
            parts.append([])
        else:
            parts[-1].append(item)
    return tuple(map(tuple, parts))


def fold(step: Any, start: Any, items: Items) -> Any:
    for item in items:
        start = step(start)(item)
    return start


def joined(between: int, texts: Items) -> Items:
    out: list[int] = []
    for place, each in enumerate(texts):
        out += ([between] if place else []) + list(each)
    return tuple(out)


def lower(letters: Items) -> Items:
    return tuple(letter + 32 if 65 <= letter <= 90 else letter for letter in letters)


def div_euclid(a: int, b: int) -> int:
    if b == 0:
        return min(0, max(a, -1))
    return a // b if b > 0 else -(a // -b)


def less(a: int, b: int) -> int:
    return a - b if a > b else 0


def quotient(a: int, b: int) -> int:
    return a // b if b else 0


def remainder(a: int, b: int) -> int:
    return a % b if b else a


def position(test: Test, items: Items) -> Made:
    place = place_of(test, items)
    return some(place) if place < len(items) else NONE


def set_at(items: Items, place: int, value: Any) -> Items:
    return items[:place] + (value,) + items[place + 1 :] if place < len(items) else items


def apart(test: Any, items: Items) -> bool:
    return all(not test(a)(b) for place, a in enumerate(items) for b in items[place + 1 :])


def zip_all(relation: Any, xs: Items, ys: Items) -> bool:
    return len(xs) == len(ys) and all(relation(x)(y) for x, y in zip(xs, ys))


def appends(old: Made, new: Made, added: Items) -> bool:
    return not old.arguments or (bool(new.arguments) and new.arguments[0] == old.arguments[0] + added)


def get_or(items: Items, place: int, otherwise: Any) -> Any:
    return items[place] if place < len(items) else otherwise


def chosen(is_so: bool, yes: Any, no: Any) -> Any:
    return yes if is_so else no


NUMBERS: dict[str, tuple[int, Callable[..., Any]]] = {
    "suc": (1, lambda n: n + 1), "pred": (1, lambda n: max(n - 1, 0)), "pos": (1, lambda n: n),
    "negsuc": (1, lambda n: -n - 1), "neg_ℤ": (1, lambda z: -z), "unsigned_abs": (1, abs), "nat_abs": (1, abs),
    "int_max": (2, max), "int_min": (2, min), "max": (2, max), "min": (2, min), "int_div_euclid": (2, div_euclid),
    "not": (1, lambda b: not b), "cond": (3, chosen), "codes": (1, lambda s: s),
    "decimal": (1, lambda n: text(str(n))), "signed_decimal": (1, lambda n: text(str(n))),
    **{name: (2, lambda a, b: a <= b) for name in ("nat_le", "leb", "int_le")},
    **{name: (2, lambda a, b: a < b) for name in ("nat_lt", "ltb", "int_lt", "lt_z")},
    **{name: (2, lambda a, b: a == b) for name in ("nat_eq", "eqb", "int_eq", "beq", "bytes_eq")},
}

LISTS: dict[str, tuple[int, Callable[..., Any]]] = {
    "length": (1, len), "map": (2, lambda f, xs: tuple([f(x) for x in xs])), "reverse": (1, lambda xs: xs[::-1]),
    "filter": (2, lambda p, xs: tuple([x for x in xs if p(x)])),
    "filter_map": (2, lambda f, xs: tuple([y.arguments[0] for y in map(f, xs) if y.arguments])),
    "flat_map": (2, lambda f, xs: tuple([y for x in xs for y in f(x)])),
    "concat": (1, lambda xs: tuple([y for x in xs for y in x])), "take": (2, lambda n, xs: xs[:n]),
    "drop": (2, lambda n, xs: xs[n:]), "replicate": (2, lambda n, x: (x,) * n), "slice_index_or": (3, get_or),
    "get_or": (3, get_or), "slice_index": (2, lambda xs, i: get_or(xs, i, 0)), "slice_set": (3, set_at),
    "slice_get": (2, lambda xs, i: some(xs[i]) if i < len(xs) else NONE),
    "range_with_len": (2, lambda first, n: tuple(range(first, first + n))),
    "list_any": (2, lambda p, xs: any(p(x) for x in xs)), "list_all": (2, lambda p, xs: all(p(x) for x in xs)),
    "zip": (2, lambda xs, ys: tuple(map(pair, xs, ys))), "position": (2, position), "fold": (3, fold),
    "find": (2, lambda p, xs: next((some(x) for x in xs if p(x)), NONE)),
    "take_while": (2, lambda p, xs: xs[: place_of(lambda x: not p(x), xs)]),
    "prefix_len": (2, lambda p, xs: place_of(lambda x: not p(x), xs)),
    "before_first": (2, lambda p, xs: xs[: place_of(p, xs)]),
    "after_first": (2, lambda p, xs: xs[place_of(p, xs) + 1 :]), "slice_split": (2, parts_between),
    "onto_first": (2, lambda x, xss: ((x,) + xss[0],) + xss[1:] if xss else ((x,),)), "join_with_byte": (2, joined),
    "lookup": (2, lambda p, xs: next((some(x.v_1) for x in xs if p(x.v_0)), NONE)),
    "enumerate_from": (2, lambda n, xs: tuple(pair(n + i, x) for i, x in enumerate(xs))),
    "sum_by": (2, lambda f, xs: sum(f(x) for x in xs)),
    "str_eq_ignore_ascii_case": (2, lambda a, b: lower(a) == lower(b)),
    "all_ascii_digits": (1, lambda xs: all(48 <= x <= 57 for x in xs)),
}

OPTIONS: dict[str, tuple[int, Callable[..., Any]]] = {
    "option_to_list": (1, lambda o: o.arguments), "is_some": (1, lambda o: bool(o.arguments)),
    "option_map": (2, lambda f, o: some(f(o.arguments[0])) if o.arguments else NONE),
    "option_and_then": (2, lambda f, o: f(o.arguments[0]) if o.arguments else NONE),
    "unwrap_or": (2, lambda o, otherwise: o.arguments[0] if o.arguments else otherwise),
    "option_or": (2, lambda a, b: a if a.arguments else b),
    "option_map_or": (3, lambda f, o, otherwise: f(o.arguments[0]) if o.arguments else otherwise),
}

PROPOSITIONS: dict[str, tuple[int, Callable[..., Any]]] = {
    "All": (2, lambda p, xs: all(p(x) for x in xs)), "Any": (2, lambda p, xs: any(p(x) for x in xs)),
    "AllZip": (3, zip_all), "IsDistinct": (2, apart), "Appends": (3, appends),
    "AllPairs": (2, lambda r, xs: all(r(x)(y) for i, x in enumerate(xs) for y in xs[i + 1 :])),
    "Contains": (2, lambda xs, x: any(same(x, y) for y in xs)),
    "IfSome": (2, lambda o, p: p(o.arguments[0]) if o.arguments else True),
    "IsSomeAnd": (2, lambda o, p: bool(o.arguments) and p(o.arguments[0])),
    "IfOk": (2, lambda r, p: p(r.arguments[0]) if r.name == "Ok" else True),
    "MatchOption": (3, lambda o, none, f: f(o.arguments[0]) if o.arguments else none),
}

LIBRARY = {**NUMBERS, **LISTS, **OPTIONS, **PROPOSITIONS}
CONSTRUCTORS = {"Some": 1, "None": 0, "Ok": 1, "Err": 1, "tt": 0}
CONSTANTS = {"true": "True", "false": "False", "zero": "0", "[]": "()", "⊥": "False", "⊤": "True", "Unit": "True"}
