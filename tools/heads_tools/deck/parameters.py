"""Parameters of a deck: values, multiplier arrays and zones, whose exact products and sums are the numbers themselves
(TM 6-A16, chapter 8; files MULT, ZONE, PVAL). What a decimal of 18 digits can't say is refused."""
from __future__ import annotations

from contextlib import contextmanager
from dataclasses import dataclass, field
from decimal import Decimal, Inexact, localcontext
from typing import Any, Iterator

import numpy as np

from ..common.spelling import EXACT, MOST_DIGITS, exact, exact_quotient, exact_word, quoted_words
from ..common.text import Problem, counted
from .array_records import read_array
from .reading import Reading
from .sources import Array, Source

NO_MULTIPLIER, NO_ZONE = "NONE", "ALL"
OPERATIONS = ("+", "-", "*", "/")
ZERO: Any = Decimal(0)
ONE: Any = Decimal(1)


@dataclass
class Cluster:
    """A part of an array's parameter: its layer (0: of RCH or EVT), multiplier array and zones."""

    layer: int
    multiplier: str
    zone_array: str
    zones: list[int]


@dataclass
class Parameter:
    """A parameter: its type, its value, and its clusters or entries, by the names of its instances."""

    name: str
    kind: str
    value: Decimal
    instances: dict[str, list] = field(default_factory=dict)

    def instance(self, names: list[str]) -> list:
        """The clusters or entries that a stress period names."""
        name = names[0].upper() if names and "" not in self.instances else ""
        if name not in self.instances:
            raise Problem(f"the parameter {self.name} has no instance {name or '(none is named)'}")
        return self.instances[name]


class Instances:
    """The names of a parameter's instances, one before each; one without a name where it has none."""

    def __init__(self, source: Source, count: int):
        self.source, self.count = source, count

    def __iter__(self) -> Iterator[str]:
        if not self.count:
            yield ""
        for _ in range(self.count):
            yield quoted_words(self.source.line())[0].upper()


class Tables:
    """The multiplier arrays, zone arrays and values that the name file's MULT, ZONE and PVAL define. Each file is read
    when it is first asked for."""

    def __init__(self, reading: Reading):
        self.reading, self.known = reading, reading.parameter_tables

    def table(self, kind: str) -> dict:
        if kind not in self.known:
            reading, at = self.reading, self.reading.at
            if kind not in reading.parameter_files:
                raise Problem(f"the name file has no file {kind}, and a parameter needs it")
            source = reading.at = reading.open(reading.parameter_files[kind])
            source.comments()
            try:
                self.known[kind] = self.read(kind, source)
            finally:
                reading.at = at
        return self.known[kind]

    def read(self, kind: str, source: Source) -> dict:
        if kind == "MULT":
            return self.read_multipliers(source)
        if kind == "ZONE":
            return self.read_zones(source)
        return self.read_values(source)

    def array(self, what: str, is_whole: bool = False) -> Array:
        return read_array(self.reading, self.reading.deck.nrow, self.reading.deck.ncol, what, is_whole)

    def read_multipliers(self, source: Source) -> dict[str, np.ndarray]:
        """The multiplier arrays as arrays of Decimals. One may be a function of those before it, from left to right."""
        out: dict[str, np.ndarray] = {}
        for _ in range(source.integer(quoted_words(source.line())[0], "the count of multiplier arrays")):
            w = quoted_words(source.line())
            name = w[0].upper()
            is_function = len(w) > 1 and w[1].upper() == "FUNCTION"
            out[name] = self.function(source, out) if is_function else decimals(self.array(f"the multiplier {w[0]}"))
        return out

    def function(self, source: Source, known: dict[str, np.ndarray]) -> np.ndarray:
        words = [word.upper() for word in quoted_words(source.line())]
        where = f"{source.name}, line {source.at}"
        for word in words[:1] + words[2::2]:
            if word not in known:
                if word == words[-1] and word.lstrip("+-").isdigit():
                    continue
                raise Problem(f"{where}: there is no multiplier array {word} before this one")
        out = known[words[0]]
        for operation, name in zip(words[1::2], words[2::2]):
            if operation not in OPERATIONS:
                break
            out = operated(out, operation, known[name], where)
        return out

    def read_zones(self, source: Source) -> dict[str, np.ndarray]:
        out = {}
        for _ in range(source.integer(quoted_words(source.line())[0], "the count of zone arrays")):
            name = quoted_words(source.line())[0]
            out[name.upper()] = self.array(f"the zones {name}", True).floats().astype(int)
        return out

    def read_values(self, source: Source) -> dict[str, Decimal]:
        out = {}
        for _ in range(source.integer(quoted_words(source.line())[0], "the count of values")):
            w = quoted_words(source.line())
            out[w[0].upper()] = exact(source.number(w[1]))
        return out

    def value(self, name: str, own: Decimal) -> Decimal:
        """A parameter's value: that of the file PVAL, where it has one."""
        return self.table("PVAL").get(name.upper(), own) if "PVAL" in self.reading.parameter_files else own

    def factors(self, cluster: Cluster) -> np.ndarray:
        """What a cluster multiplies its parameter's value by at each cell: 0 outside of its zones."""
        deck = self.reading.deck
        shape = deck.nrow, deck.ncol
        name = cluster.multiplier
        if name == NO_MULTIPLIER:
            out = np.full(shape, ONE, dtype=object)
        elif name in self.table("MULT"):
            out = self.table("MULT")[name]
        else:
            raise Problem(f"there is no multiplier array {name}")
        if cluster.zone_array == NO_ZONE:
            return out
        if cluster.zone_array not in self.table("ZONE"):
            raise Problem(f"there is no zone array {cluster.zone_array}")
        return np.where(np.isin(self.table("ZONE")[cluster.zone_array], cluster.zones), out, ZERO)


def decimals(array: Array) -> np.ndarray:
    """An array's values as Decimals."""
    rows, cols = array.shape
    if array.is_constant:
        return np.full(array.shape, array.exact(0), dtype=object)
    return np.array([array.exact(at) for at in range(rows * cols)], dtype=object).reshape(array.shape)


def operated(a: np.ndarray, operation: str, b: np.ndarray, where: str) -> np.ndarray:
    """Two arrays joined cell by cell, exactly."""
    if operation == "/":
        out = [exact_quotient(x, y) for x, y in zip(a.ravel(), b.ravel())]
        if None in out:
            said = f"{where}: a quotient of multiplier arrays is no decimal of {MOST_DIGITS} digits"
            raise Problem(f"{said}: write the array itself")
        return np.array(out, dtype=object).reshape(a.shape)
    with all_digits():
        return a + b if operation == "+" else a - b if operation == "-" else a * b


@contextmanager
def all_digits() -> Iterator[None]:
    """Within the block sums and products of Decimals are exact."""
    with localcontext(EXACT) as context:
        context.traps[Inexact] = True
        yield


def read_parameters(reading: Reading, count: int, kinds: tuple[str, ...], has_layers: bool) -> list[Parameter]:
    """The definitions of a package's array parameters: name, type, value and clusters."""
    out = []
    for _ in range(count):
        it, clusters, instances = read_head(reading, kinds)
        for name in instances:
            it.instances[name] = [read_cluster(reading, has_layers) for _ in range(clusters)]
        out.append(it)
    return out


def read_head(reading: Reading, kinds: tuple[str, ...]) -> tuple[Parameter, int, Instances]:
    """The first line of a parameter; the count of its clusters or entries; the names of its instances, each of which is
    read when it is due."""
    source = reading.now
    source.due = "a parameter's name, type, value and count"
    w = quoted_words(source.line())
    if len(w) < 4:
        raise Problem(f"a parameter is `NAME TYPE VALUE COUNT`, and here stands `{' '.join(w)[:60]}`")
    kind = w[1].upper()
    if kind not in kinds:
        raise Problem(f"the parameter {w[0]} has the type {kind}; {', '.join(kinds)} are read")
    reading.has_parameters = True
    value = Tables(reading).value(w[0], exact(source.number(w[2])))
    count = source.integer(w[3], "a count")
    times = source.integer(w[5], "the count of instances") if len(w) > 5 and w[4].upper() == "INSTANCES" else 0
    reading.need(f"parameter {w[0]} ({kind}, value {value.normalize(EXACT):f}) multiplied out")
    return Parameter(w[0], kind, value), count, Instances(source, times)


def read_cluster(reading: Reading, has_layer: bool) -> Cluster:
    source = reading.now
    source.due = "a cluster: " + "LAYER " * has_layer + "MULTIPLIER ZONES"
    w = quoted_words(source.line())
    layer = source.integer(w[0], "a layer") if has_layer else 0
    if has_layer:
        w = w[1:]
    if len(w) < 2 or layer > reading.deck.nlay or (has_layer and layer < 1):
        raise Problem("a cluster is `" + "LAYER " * has_layer + "MULTIPLIER ZONES`, of a layer of the grid")
    zones = []
    for word in w[2:12]:
        if not word.lstrip("+-").isdigit() or int(word) == 0:
            break
        zones.append(int(word))
    return Cluster(layer, w[0].upper(), w[1].upper(), zones)


def array_of_parameters(reading: Reading, parts: list[tuple[Parameter, list[Cluster]]], what: str) -> Array:
    """The array that parameters make: at each cell the sum of their values times their clusters' factors."""
    deck, tables, at = reading.deck, Tables(reading), reading.now.at
    shape, clusters = (deck.nrow, deck.ncol), [(it.value, each) for it, found in parts for each in found]
    if not clusters:
        raise Problem(f"no parameter defines {what}, and the package has parameters of its type")
    with all_digits():
        parts_of_cells = (value * tables.factors(cluster) for value, cluster in clusters)
        total = sum(parts_of_cells, np.full(shape, ZERO, dtype=object))
    return Array(words_of(total, what), "1", shape, reading.now.name, at)


def words_of(values: np.ndarray, what: str) -> list[str]:
    flat = values.ravel().tolist()
    if all(value == flat[0] for value in flat):
        return [exact_word(flat[0], what)]
    known: dict[Decimal, str] = {}
    for value in flat:
        if value not in known:
            known[value] = exact_word(value, what)
    return [known[value] for value in flat]


def named(reading: Reading, parameters: list[Parameter], count: int) -> list[tuple[Parameter, list]]:
    """The parameters that a stress period names, a line each, and their clusters or entries there."""
    known, out = {it.name.upper(): it for it in parameters}, []
    for n in range(count):
        reading.now.due = f"the name of parameter {n + 1} of {counted(count, 'parameter')} of the period"
        w = quoted_words(reading.now.line())
        if w[0].upper() not in known:
            raise Problem(f"there is no parameter {w[0]} in this file")
        it = known[w[0].upper()]
        out.append((it, it.instance(w[1:])))
    return out
