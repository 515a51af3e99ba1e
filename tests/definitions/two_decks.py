"""Two decks of one shape: the promise of a run, of both texts with a listing, and of a check of all that lies between."""
from __future__ import annotations

import tempfile
from fractions import Fraction
from random import Random
from typing import Any, Callable, Optional

from sample_decks import files_of

from .bench import NOTHING_PUT, OK, Bench, file_set, put
from .between import Drawn
from .listed import Values, listed, moved_number, other_label, without_pair
from .one_deck import LISTING, NAME, PLACES, WRITTEN, write_files
from .random_deck import ZONES, Files
from .solved import Fault, History, Solved, Step, active_cells, history_of, model_of, solve_step, zones_of
from .values import option, record, some

SECOND = "b.nam"


def compared(case: Any) -> Any:
    """The case of two decks that are alike."""
    return case.arguments[2] if case.name == "Comparing" else case


class TwoDecks:
    """Two decks in a folder, whose files are written there."""

    def __init__(self, bench: Bench, label: str, folder: str, files: Files, draw: Random):
        self.bench, self.label, self.folder, self.files, self.draw = bench, label, folder, files, draw
        self.set, self.digits = file_set(files), draw.choice([12, 12, 6, 3])

    def words(self, verb: str, *more: str) -> list[str]:
        zones = ["--zones", ZONES] if ZONES in self.files else []
        return [verb, NAME, *more, "--to", SECOND, "--digits", str(self.digits), *zones]

    def compare(self) -> None:
        bench = self.bench
        bench.forget()
        order, answer = bench.order(self.words("run")), bench.run(self.folder, self.words("run"))
        case = bench.case_of(order, self.set)
        bench.counts["pairs of decks"] += 1
        case = compared(case)
        if case.name == "Refuses":
            bench.agree(f"refusals: {self.label} pair", (2, bench.refusal(case.arguments[0])), answer)
            return
        task = case.arguments[0]
        self.first, self.second = task.v_decks.v_first, task.v_decks.v_second.arguments[0]
        if answer[0] != 0:
            bench.counts[f"pairs whose run ends with status {answer[0]}"] += 1
            return
        values = listed(self.first, answer[1])
        history = self.history(values)
        if history is None:
            bench.counts["pairs without a solution that is found"] += 1
            return
        self.take_samples(history)
        self.compare_listings(order, task, values, history)
        self.compare_check(values, answer[1])

    def history(self, values: Values) -> Optional[History]:
        """A history each step of which solves a model that is drawn between the two: its deck is written by the
        definitions, and read and solved by recheck.py and solution.py."""
        drawn = Drawn(self.draw)
        self.start = drawn.model(self.first, self.second)
        self.models = [drawn.model(self.first, self.second) for _ in values]
        first = self.exact(self.start)
        old, steps = list(first.strt), list[Solved]()
        for place, (model, value) in enumerate(zip(self.models, values)):
            exact = self.exact(model)
            step = Step(exact, exact.times[place])
            guess = [Fraction(bound.v_low + bound.v_high, 2 * PLACES) for bound in value.v_heads]
            try:
                heads = solve_step(step, guess, old)
            except (Fault, ZeroDivisionError):
                return None
            for cell, head in step.constant.items():
                heads[cell] = head
            steps.append(Solved(step, heads, old))
            old = heads
        self.zones = zones_of(self.folder, ZONES, first) if ZONES in self.files else []
        self.bench.numbers_of_zones = set(self.zones)
        return history_of(steps, active_cells(first))

    def exact(self, model: Any) -> Any:
        """The model as recheck.py reads its text."""
        files = files_of(bytes(self.bench.deck_text(model)))
        with tempfile.TemporaryDirectory() as folder:
            write_files(folder, files)
            return model_of(folder, WRITTEN)

    def take_samples(self, history: History) -> None:
        """The history's choices: what each model that was drawn gives for its step."""
        grid, bench = self.first.v_grid, self.bench
        cells = range(grid.v_layers * grid.v_rows * grid.v_cols + 2)
        starts = [self.starting(model) for model in (self.start, self.second)]
        bench.take(
            LiesWithin__c=cells, AreSameHeads__c=cells, IsModel__p=range(len(self.first.v_periods) + 2),
            AreChoices__c=cells, IsChoiceBetween__old=tuple(starts),
        )  # fmt: skip
        choices = tuple(bench.own_choice(model, at) for at, model in zip(bench.times(self.first), self.models))
        chosen = {"start": (starts[0],), "xs": (choices,), "d": (history.d,)}
        decks, zones = record(first=self.first, second=self.second), option(tuple(self.zones) or None)
        bench.take(ArePairOf__first=self.first, ArePairOf__second=self.second)
        for name in ("SpanHeadline", "SpanStated", "SpanCertified"):
            given = {"decks": decks, "first": self.first, "second": self.second, "zones": zones, "digits": self.digits}
            given |= chosen | {"history": (history.vectors,)}
            bench.definitions.samples.update({f"{name}.{field}": value for field, value in given.items()})
        of_choices = chosen | {"e": (history.d,), "Xs": (history.vectors,), "Ys": (history.vectors,)}
        bench.take(**{f"ChoicesHaveOne__{field}": value for field, value in of_choices.items()})
        are = bench.AreChoices(self.first, self.second, starts[0], choices)
        bench.holds(f"AreChoices: {self.label}", are)
        holds = bench.SolvesChoices(self.first, starts[0], choices, history.d, history.vectors)
        bench.holds(f"SolvesChoices: {self.label}", holds)

    def starting(self, model: Any) -> Callable[[int], Any]:
        return lambda cell: self.bench.start_head(model, cell)

    def compare_listings(self, order: Any, task: Any, values: Values, history: History) -> None:
        bench, zones = self.bench, option(tuple(self.zones) or None)
        text_of = bench.definitions.get("listing_run", "Listing", "listing")
        end = bench.definitions.get("run_puts", "Runs", "end_line")()
        written = b"".join(bytes(bench.zoned_text(model, zones)) for model in (self.first, self.second))
        kind, wrong = moved_number(values, history, self.digits, self.zones, self.draw)
        listings = [("", "", values), (f" of a moved {kind}", "encloses", wrong)]
        listings.append((" of another label", "at", other_label(values, self.draw)))
        if any(step.v_zones for step in values):
            listings.append((" without a pair of zones", "pairs", without_pair(values, self.draw)))
        for what, field, each in listings:
            content = b"".join(map(bytes, text_of(task, each, end)))
            bench.take(SpanHeadline__values=each, SpanStated__values=each)
            holds = bench.HeadlineOf(order, self.set, OK, NOTHING_PUT, put(content))
            bench.holds(f"SpanHeadline{what}: {self.label}", holds, not field, f"SpanHeadline.{field}" if field else "")
            stated = bench.SpanStated(some(()), some(tuple(written + content)))
            bench.holds(f"SpanStated{what}: {self.label}", stated, not field, f"SpanStated.{field}" if field else "")

    def compare_check(self, values: Values, content: bytes) -> None:
        bench, words = self.bench, self.words("check", LISTING)
        write_files(self.folder, {LISTING: content})
        order, files = bench.order(words), file_set({**self.files, LISTING: content})
        case, answer = compared(bench.case_of(order, files)), bench.run(self.folder, words)
        if bench.agree(f"checks of pairs: {self.label}", ("Checking", (0, b"CERTIFIED\n")), (case.name, answer)):
            bench.take(SpanCertified__steps=case.arguments[3].v_steps)
            holds = bench.HeadlineOf(order, files, OK, NOTHING_PUT, put(answer[1]))
            bench.holds(f"SpanCertified: {self.label}", holds)
