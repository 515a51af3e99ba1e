"""What all cases share: the definitions, the program beside them, and what was compared."""
from __future__ import annotations

import math
import os
import subprocess
from collections import Counter
from fractions import Fraction
from typing import Any, Callable

from .kept import KeptReadings, KeptSolutions, kept_by_words
from .running import Definitions
from .values import Made, record, some, text

MOST_BYTES, MOST_ROUNDS = 67108864, 1000000
TERMS = ("STORAGE", "CONSTANT HEAD", "WELLS", "DRAINS", "RIVER LEAKAGE", "HEAD DEP BOUNDS", "RECHARGE", "ET")
# Longer texts are cut into lines by hand: the definition goes byte by byte, in squared time.
LONG = 200
# A record of records is False by a field, and by the fields around it.
MOST_NESTED = 3
OK, NOTHING_PUT = Made("Ok"), some(())
Bytes = tuple[int, ...]

# The functions and relations that cases call, by the names that they have here.
CALLED = {
    "order_of_words": ("command_line", "Wants"), "case_of": ("engine", "Cases"), "code_row": ("outside", "Codes"),
    "deck_text": ("model_text", "Written"), "zoned_text": ("model_text", "Written"),
    "times": ("model_types", "Times"), "start_head": ("model_types", "Heads"),
    "constant_head": ("model_types", "Heads"), "is_constant": ("model_types", "Heads"),
    "exact_step": ("flow_equations", "ExactStep"), "balance": ("cell_balance", "Balance"),
    "exact_term": ("budget_bounds", "Exact"), "exact_faces": ("zone_flows", "Faces"),
    "exact_flow": ("zone_flows", "Faces"), "Solves": ("flow_equations", "Histories"),
    "reads": ("model_reader", "Model"), "HeadlineOf": ("engine", "Serving"),
    "Stated": ("engine", "Stated"), "SpanStated": ("engine", "Stated"),
    "AreChoices": ("deck_span", "Choices"), "SolvesChoices": ("deck_span", "Choices"),
    "own_choice": ("deck_span", "Laws"),
}  # fmt: skip


def lines_by_hand(content: Bytes) -> tuple[Bytes, ...]:
    parts = bytes(content).split(b"\n")
    return tuple(map(tuple, parts if parts[-1] else parts[:-1]))


def exact(dec: Any) -> Fraction:
    return (-1 if dec.v_neg else 1) * dec.v_digits * Fraction(10) ** dec.v_exp


# Whole numbers that two conditions of a valid model ask for, by the numbers of the model: thickness, and EXDP.
WITNESSES: dict[str, Callable[..., int]] = {
    "IsThick.floor": lambda top, bottom: math.floor(exact(top) * 10**18),
    "IsThick.ceiling": lambda top, bottom: math.ceil(exact(bottom) * 10**18),
    "IsEvapValid.floor": lambda evap: math.floor(exact(evap.v_surface) * 10**9),
    "IsEvapValid.ceiling": lambda evap: math.ceil(exact(evap.v_depth) * 10**9),
}


class Bench:
    def __init__(self, definitions: Definitions, program: str):
        self.definitions, self.program = definitions, os.path.abspath(program)
        self.counts: Counter[str] = Counter()
        self.different: list[str] = []
        self.numbers_of_zones: set[int] = set()
        self.readings, self.solutions = KeptReadings(), KeptSolutions()
        definitions.replace("command_line", "Wants", "order_of_words", kept_by_words)
        definitions.replace("outside", "Inputs", "file_at", self.readings.file_at)
        definitions.replace("model_reader", "Model", "reads", self.readings.reads)
        definitions.replace("flow_equations", "Histories", "Solves", self.solutions.solves)
        self.called = {name: definitions.get(*place, name) for name, place in CALLED.items()}
        definitions.replace("outside", "Names", "lines", self.lines)
        definitions.replace("zone_pairs", "Pairs", "pairs_below", self.pairs_below)
        # The text of what is left to a shorter way runs too.
        definitions.get("zone_pairs", "Pairs", "pairs_below")(len(CALLED))

    def lines(self, own: Any) -> Any:
        return lambda content: lines_by_hand(content) if len(content) >= LONG else own(content)

    def pairs_below(self, own: Any) -> Any:
        """The pairs of numbers that a cell has: no others share a face, and there are a million."""

        def pairs(count: int) -> Any:
            if count < 1000:
                return own(count)
            near = sorted(number for number in self.numbers_of_zones | {0, 998, 999} if number < count)
            return tuple(record(**{"from": a, "to": b}) for a in near for b in near)

        return pairs

    def __getattr__(self, name: str) -> Any:
        """A definition by its name."""
        if name in CALLED:
            return self.called[name]
        raise AttributeError(name)

    def forget(self) -> None:
        self.definitions.forget()
        self.readings.forget()
        self.solutions.forget()
        self.definitions.samples.clear()
        self.definitions.samples.update(WITNESSES)

    def take(self, **samples: Any) -> None:
        """Samples, by Definition__variable."""
        self.definitions.samples.update({key.replace("__", "."): value for key, value in samples.items()})

    def differ(self, what: str) -> None:
        self.counts["DIFFERENT"] += 1
        self.different.append(what)
        print(f"DIFFERENT {what}", flush=True)

    def agree(self, what: str, wanted: Any, found: Any) -> bool:
        """Counts a comparison, and says where the two differ."""
        self.counts[what.partition(":")[0]] += 1
        if wanted != found:
            self.differ(f"{what}: {str(wanted)[:300]} is not {str(found)[:300]}")
        return bool(wanted == found)

    def holds(self, what: str, found: Any, wanted: bool = True, field: str = "") -> None:
        """Counts a proposition that has to be so; where it has to be False, of a record because of this field."""
        self.agree(what, wanted, found)
        if field and found is False and field not in self.definitions.refuted[-MOST_NESTED:]:
            self.differ(f"{what}: False by {self.definitions.refuted[-1]}, not by {field}")

    def run(self, folder: str, words: list[str]) -> tuple[int, bytes]:
        done = subprocess.run([self.program, *words], cwd=folder, capture_output=True, timeout=120, check=False)
        return done.returncode, done.stdout

    def order(self, words: list[str]) -> Any:
        return self.order_of_words(tuple(map(text, ["heads", *words])))

    def refusal(self, said: Any) -> bytes:
        """The line of a refusal: its code, word, file and line, and its cell."""
        row, cell = self.code_row(said.v_code), said.v_at.arguments
        place = "".join(f" {number}" for number in cell[0]) if cell else ""
        word, file = bytes(row.v_word).decode(), bytes(said.v_file).decode("latin-1")
        return f"REFUSED {row.v_number} {word} {file} {said.v_line}{place}\n".encode("latin-1")


def file_set(files: dict[str, bytes]) -> Any:
    items = tuple(record(name=text(name), bytes=tuple(content)) for name, content in files.items())
    return record(files=items, limit=MOST_BYTES)


def put(content: bytes) -> Any:
    """What was seen of a sink that took these bytes."""
    return some(tuple(content))


