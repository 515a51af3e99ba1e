"""Which definitions of a promise the cases reached, and places in them where a word can be changed for another."""
from __future__ import annotations

import re
import subprocess
from random import Random
from typing import Iterator, NamedTuple

from .declared import Definition
from .running import Definitions

LINE = re.compile(r"^ +\d+ crates/(\w+)/specs/([\w/]+)\.antt: (.*)$", re.MULTILINE)
# Words that stand for each other in a changed definition: of one kind each, and of one type.
ALIKE = (
    "nat_le nat_lt", "true false", "+ -", "+ℤ -ℤ", "* +", "*ℤ +ℤ", "&& ||", "take drop", "rows cols", "stage bottom",
    "int_max int_min", "surface extinction", "first end", "shead ehead", "delr delc", "up down", "floor ceiling",
    "low high", "lo hi", "from to", "hk hani", "surf evtr", "wells generals", "stage elevation", "layers rows",
    "In Out", "before_first after_first", "list_any list_all", "perlen tsmult", "nstp step", "has_bed is_ratio",
    "n p", "a b",
    "is_variable is_constant", "top_at bottom_at", "over times", "plus times", "nrchop nevtop", "BadNumber EndOfFile",
    "OutOfProfile BadGrid", "Same AtMost", "≤ℤ <ℤ", "≤ <", "i j", "k i",
)  # fmt: skip


def of_promise(definitions: Definitions, promise: str) -> Iterator[Definition]:
    """The functions, relations and records that scripts/list_definitions names of a promise, without types of data."""
    script = f"{definitions.names.top}/scripts/list_definitions"
    done = subprocess.run([script, "--of", promise], stdout=subprocess.PIPE, text=True, check=True)
    for crate, path, names in LINE.findall(done.stdout):
        found = definitions.names.file(crate, path.replace("/", ".")).definitions
        for name in names.split():
            made = found.get(name) or found.get(name.strip("◌"))
            if made is not None and not is_type(definitions, made):
                yield made


def is_type(definitions: Definitions, made: Definition) -> bool:
    if made.kind == "data":
        return not definitions.is_relation(made)
    return definitions.is_data(made, ("var", made.name)) if made.kind in ("record", "fun") else False


def runs_of(definitions: Definitions, made: Definition) -> list[int]:
    """How often each clause of a definition ran."""
    place = made.file.crate, made.file.path, made.name
    return [definitions.ran.get((*place, number), 0) for number in range(made.parts())]


def print_reached(definitions: Definitions, promise: str) -> None:
    never, clauses, count, ran = [], [0, 0], 0, 0
    for made in of_promise(definitions, promise):
        runs = runs_of(definitions, made)
        count, ran = count + 1, ran + any(runs)
        clauses = [clauses[0] + len(runs), clauses[1] + sum(map(bool, runs))]
        if not any(runs):
            never.append(f"{made.file.crate}/{made.file.path}.{made.name}")
        elif not all(runs) and made.kind == "fun":
            lines = [str(clause.line) for clause, each in zip(made.clauses, runs) if not each]
            print(f"clauses that never ran: {made.file.crate}/{made.file.path}.{made.name}, lines {' '.join(lines)}")
    for name in never:
        print(f"never ran: {name}")
    print(f"--of {promise}: {ran} of {count} definitions ran, and {clauses[1]} of {clauses[0]} clauses")


class Change(NamedTuple):
    """Another word at a place of a clause or a field of a definition."""

    crate: str
    path: str
    name: str
    part: int
    place: int
    old: str
    new: str

    def make(self, definitions: Definitions) -> None:
        definitions.definition(self.crate, self.path, self.name).bodies()[self.part][self.place].word = self.new

    def __str__(self) -> str:
        return f"crates/{self.crate}/specs/{self.path}.antt: {self.name}: {self.old} -> {self.new}"


def others(word: str) -> list[str]:
    pairs = [pair.split() for pair in ALIKE]
    found = [b if word == a else a for a, b in pairs if word in (a, b)]
    return found + ([str(int(word) + 1)] if word.isdigit() else [])


def changes(definitions: Definitions, promise: str, count: int, seed: int) -> list[Change]:
    """Changes of clauses and fields that ran, drawn from all."""
    found = []
    for made in of_promise(definitions, promise):
        runs = runs_of(definitions, made)
        for number, body in enumerate(made.bodies()):
            words = [token.word for token in body] + [""]
            for place, token in enumerate(body):
                is_field_of_pair = token.word.isdigit() and place > 0 and words[place - 1] == "."
                is_name = token.is_text or words[place + 1] == "=" or is_field_of_pair
                if runs[min(number, len(runs) - 1)] and not is_name:
                    at = made.file.crate, made.file.path, made.name, number, place, token.word
                    found += [Change(*at, other) for other in others(token.word)]
    return Random(seed).sample(found, min(count, len(found)))
