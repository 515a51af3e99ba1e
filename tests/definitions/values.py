"""The values that definitions run on.

A number is an int, a truth value a bool, a list a tuple, a text the tuple of its bytes. A record has a slot for each of
its fields, a pair has the fields 0 and 1, and Made is a constructor with its arguments. A function that is passed on
takes one argument at a time. A proposition is True or False.
"""
from __future__ import annotations

import re
from fractions import Fraction
from functools import lru_cache
from typing import Any, Callable, Iterable


class Undecided(Exception):
    """A proposition about all of something that no sample is given of, or an equation of functions."""


class Unknown(Exception):
    """A name that isn't in scope, or a form that the translator doesn't know."""


class Made:
    """A constructor with its arguments."""

    __slots__ = ("name", "arguments")

    def __init__(self, name: str, arguments: tuple[Any, ...] = ()):
        self.name, self.arguments = name, arguments

    def __repr__(self) -> str:
        return " ".join([self.name, *(f"({each!r})" for each in self.arguments)])


class Record:
    """A record: records with the same fields are of one class."""

    __slots__: tuple[str, ...] = ()

    def __repr__(self) -> str:
        return "{" + ", ".join(f"{slot[2:]} = {getattr(self, slot)!r}" for slot in self.__slots__) + "}"


@lru_cache(maxsize=None)
def python_name(name: str) -> str:
    """The name in Python of a field, a definition or a variable."""
    return "v_" + re.sub(r"[^A-Za-z0-9_]", lambda found: f"_u{ord(found[0]):x}", name)


@lru_cache(maxsize=None)
def class_of(fields: tuple[str, ...]) -> Any:
    """The class of records with these fields, which are sorted."""
    slots = tuple(map(python_name, fields))
    sets = "".join(f"    self.{slot} = {slot}\n" for slot in slots)
    given = ", ".join(f"new[{slot!r}] if {slot!r} in new else self.{slot}" for slot in slots)
    space: dict[str, Any] = {}
    exec(f"def __init__(self, {', '.join(slots)}):\n{sets or '    pass'}", space)
    exec(f"def with_fields(self, new):\n    return type(self)({given})\n", space)
    return type("Fields", (Record,), {"__slots__": slots} | {name: space[name] for name in ("__init__", "with_fields")})


def record_class(fields: Iterable[str]) -> Any:
    return class_of(tuple(sorted(fields)))


def record(**fields: Any) -> Any:
    return record_class(fields)(**{python_name(name): value for name, value in fields.items()})


@lru_cache(maxsize=None)
def pair_class(count: int) -> Any:
    return record_class(map(str, range(count)))


def pair(*items: Any) -> Any:
    """A tuple of two items or more, and fewer than ten: so its fields are in their order."""
    return pair_class(len(items))(*items)


def with_fields(old: Any, new: dict[str, Any]) -> Any:
    """The record with other values in these slots."""
    return old.with_fields(new)


def changed(old: Any, **fields: Any) -> Any:
    return with_fields(old, {python_name(name): value for name, value in fields.items()})


def same(a: Any, b: Any) -> bool:
    """Whether two values are equal. Of functions this isn't known."""
    if a is b:
        return True
    if isinstance(a, int) or isinstance(b, int):
        return type(a) is type(b) and a == b
    if isinstance(a, tuple):
        return isinstance(b, tuple) and len(a) == len(b) and all(map(same, a, b))
    if isinstance(a, Made):
        return isinstance(b, Made) and a.name == b.name and same(a.arguments, b.arguments)
    if isinstance(a, Record):
        return type(a) is type(b) and all(same(getattr(a, slot), getattr(b, slot)) for slot in a.__slots__)
    raise Undecided("an equation of functions")


NONE, TT = Made("None"), Made("tt")


def some(value: Any) -> Made:
    return Made("Some", (value,))


def option(value: Any) -> Made:
    return NONE if value is None else some(value)


def text(words: str) -> tuple[int, ...]:
    return tuple(words.encode())


def curried(function: Callable[..., Any], count: int, *arguments: Any) -> Callable[[Any], Any]:
    """The function as one that takes its last `count` arguments one at a time."""
    if count == 1:
        return lambda last: function(*arguments, last)
    return lambda each: curried(function, count - 1, *arguments, each)


def fraction_of(value: Any) -> Fraction:
    """The number of a record with a numerator, and a denominator less one."""
    return Fraction(value.v_num, value.v_less + 1)


def as_fraction(number: Any) -> Any:
    exact = Fraction(number)
    return record(num=exact.numerator, less=exact.denominator - 1)
