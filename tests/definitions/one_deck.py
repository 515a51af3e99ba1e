"""One deck: each definition beside the program, and beside the exact solution."""
from __future__ import annotations

import os
from fractions import Fraction
from random import Random
from typing import Any, Optional

from spoil import spoilt

from .bench import NOTHING_PUT, OK, Bench, file_set, put
from .listed import Values, listed, moved_number, other_label, with_other_digit, without_pair
from .random_deck import ZONES, Files
from .solved import TERM_NAMES, History, Model, Solved, active_cells, model_of, moved, solution, zones_of
from .values import as_fraction, fraction_of, Made, option, record, some

NAME, LISTING, WRITTEN = "a.nam", "l.txt", "p.nam"
PLACES = 10**9
MOST_CELLS, MOST_STEPS = 60, 12
SPOILT_LISTINGS, CERTIFIED = 0.3, b"CERTIFIED\n"


def write_files(folder: str, files: Files) -> None:
    for name, content in files.items():
        with open(os.path.join(folder, name), "wb") as file:
            file.write(content)


class OneDeck:
    """A deck in a folder, whose files are written there."""

    def __init__(self, bench: Bench, label: str, folder: str, files: Files, draw: Random, name: str = NAME):
        self.bench, self.label, self.folder, self.files, self.draw, self.name = bench, label, folder, files, draw, name
        self.set, self.digits = file_set(files), draw.choice([12] * 6 + [3, 3, 6, 9, 0, 18])
        self.zone_file = ZONES if ZONES in files else None
        self.is_wide, self.is_quick = draw.random() < 0.1, draw.random() < 0.15

    def words(self, verb: str, *more: str) -> list[str]:
        wide = ["--wide"] * self.is_wide
        if verb == "write":
            return [verb, self.name, *wide]
        zones = ["--zones", self.zone_file] if self.zone_file else []
        quick = ["--quick"] * (self.is_quick and verb == "run")
        return [verb, self.name, *more, "--digits", str(self.digits), *zones, *wide, *quick]

    def compare(self, is_exact: bool = True) -> None:
        """`is_exact`: recheck.py reads this spelling."""
        self.bench.forget()
        model = self.compare_writing()
        if model is None:
            return
        self.take_samples(model)
        task = self.compare_run(model)
        if task is not None and is_exact:
            self.compare_exact(model, task)

    def refuses(self, what: str, words: list[str], case: Any, answer: tuple[int, bytes]) -> bool:
        """Whether the definitions refuse, as the program does."""
        if case.name != "Refuses":
            return False
        code = case.arguments[0].v_code.name
        self.bench.counts[f"refused {code}"] += 1
        self.bench.agree(f"refusals: {self.label} {what} {code}", (2, self.bench.refusal(case.arguments[0])), answer)
        return True

    def compare_writing(self) -> Optional[Any]:
        """The model, where the files read as one."""
        words = self.words("write")
        order = self.bench.order(words)
        case, answer = self.bench.case_of(order, self.set), self.bench.run(self.folder, words)
        if answer[1] == b"READFAULT\n":
            self.bench.counts["a folder by a file's name: no definition"] += 1
            return None
        self.bench.counts["decks"] += 1
        if self.refuses("write", words, case, answer):
            return None
        model = case.arguments[0]
        self.written = bytes(self.bench.deck_text(model))
        if not self.bench.agree(f"texts of decks: {self.label}", (0, self.written), answer):
            return None
        return model

    def take_samples(self, model: Any) -> None:
        """Cells, and one that is none; periods, and one that is none."""
        grid = model.v_grid
        cells = range(grid.v_layers * grid.v_rows * grid.v_cols + 2)
        self.bench.take(LiesWithin__c=cells, AreSameHeads__c=cells, IsModel__p=range(len(model.v_periods) + 2))
        words = self.words("write")
        self.bench.take(OneDeck__model=model)
        holds = self.bench.HeadlineOf(self.bench.order(words), self.set, OK, NOTHING_PUT, put(self.written))
        self.bench.holds(f"OneDeck: {self.label}", holds)

    def compare_run(self, model: Any) -> Optional[Any]:
        """The task, with the answer of the run."""
        words = self.words("run")
        self.order = self.bench.order(words)
        case, self.answer = self.bench.case_of(self.order, self.set), self.bench.run(self.folder, words)
        if self.answer[1] == b"READFAULT\n" or self.refuses("run", words, case, self.answer):
            return None
        return case.arguments[0]

    def compare_exact(self, model: Any, task: Any) -> None:
        exact = model_of(self.folder, self.name)
        self.zones = zones_of(self.folder, self.zone_file, exact) if self.zone_file else []
        self.bench.numbers_of_zones = set(self.zones)
        ats = [(time.period + 1, time.step + 1) for time in exact.times]
        self.bench.agree(f"times: {self.label}", ats, [(at.v_period, at.v_step) for at in self.bench.times(model)])
        values = listed(model, self.answer[1]) if self.answer[0] == 0 else None
        self.bench.counts["listings" if values else f"runs that end with status {self.answer[0]}"] += 1
        if len(active_cells(exact)) > MOST_CELLS or len(ats) > MOST_STEPS:
            return
        guesses = [[Fraction(b.v_low + b.v_high, 2 * PLACES) for b in v.v_heads] for v in values] if values else None
        history = solution(exact, None, guesses, self.draw)
        if history is None:
            self.bench.counts["decks without a solution that is found"] += 1
            return
        for solved in [*history.steps, self.drawn(history.steps[0])]:
            self.compare_step(model, exact, solved)
        self.compare_history(model, exact, history)
        if values:
            self.compare_listing(model, task, values, history)

    def drawn(self, solved: Solved) -> Solved:
        """The step at other heads of its variable cells, which solve nothing."""
        heads = list(solved.heads)
        for cell in solved.step.cells:
            heads[cell] += Fraction(self.draw.randrange(-3000, 3001), self.draw.choice([1, 7, 1000]))
        return Solved(solved.step, heads, solved.old)

    def compare_step(self, model: Any, exact: Model, solved: Solved) -> None:
        """Constant heads, balances, terms and flows between zones of a step."""
        bench, step, where = self.bench, solved.step, f"{self.label} {solved.step.name}"
        period, number = (int(word) for word in step.name.split(" ")[1::2])
        for cell, head in step.constant.items():
            found = fraction_of(bench.constant_head(model, period, number, cell))
            bench.agree(f"constant heads: {where} {cell}", head, found)
        entries = bench.exact_step(model, period, number, lambda cell: as_fraction(solved.old[cell]))
        if not bench.agree(f"steps: {where}", step.cells, [entry.v_id for entry in entries]):
            return
        at = lambda place: as_fraction(solved.heads[entries[place].v_id])  # noqa: E731
        for place, entry in enumerate(entries):
            found = fraction_of(bench.balance(entry, at(place), at))
            wanted = step.balance(entry.v_id, solved.heads, solved.old)
            bench.agree(f"balances: {where} {entry.v_id}", wanted, found)
        terms = solved.terms()
        for side in ("In", "Out"):
            for name in TERM_NAMES:
                found = fraction_of(bench.exact_term(entries, at, Made(side), Made(name)))
                bench.agree(f"terms: {where} {side} {name}", terms[side, name], found)
        if self.zones:
            faces = bench.exact_faces(tuple(self.zones), lambda cell: as_fraction(solved.heads[cell]), entries)
            for (a, b), flow in solved.flows(self.zones).items():
                bench.agree(f"flows: {where} {a} {b}", flow, fraction_of(bench.exact_flow(a, b, faces)))

    def compare_history(self, model: Any, exact: Model, history: History) -> None:
        """The solution solves the equations, and does no more with one head moved."""
        self.bench.holds(f"Solves: {self.label}", self.bench.Solves(model, history.d, history.vectors))
        place = self.draw.randrange(len(history.steps))
        cells = history.steps[place].step.cells
        if cells:
            vectors = moved(history, place, self.draw.choice(cells))
            holds = self.bench.Solves(model, history.d, vectors)
            self.bench.holds(f"Solves of a moved head: {self.label}", holds, False)

    def compare_listing(self, model: Any, task: Any, values: Values, history: History) -> None:
        """The promise of a run, of a deck's text with a listing, and of a check; and that they are False of others."""
        bench, zones = self.bench, option(tuple(self.zones) or None)
        text_of = bench.definitions.get("listing_run", "Listing", "listing")
        end = bench.definitions.get("run_puts", "Runs", "end_line")()
        bytes_of = lambda listed: b"".join(map(bytes, text_of(task, listed, end)))  # noqa: E731
        bench.agree(f"texts of listings: {self.label}", bytes_of(values), self.answer[1])
        zoned, deck_order = bytes(bench.zoned_text(model, zones)), bench.order(self.words("run", "--deck"))
        if not self.is_quick:
            with_deck = bench.run(self.folder, self.words("run", "--deck"))
            bench.agree(f"texts of decks and listings: {self.label}", (0, zoned + self.answer[1]), with_deck)
        thrice = tuple((lambda x: lambda cell: 3 * x(cell))(x) for x in history.vectors)
        for name in ("Headline", "Stated", "Certified"):
            bench.definitions.samples.update({
                f"{name}.model": model, f"{name}.zones": zones, f"{name}.digits": self.digits,
                f"{name}.d": (history.d,), f"{name}.history": (history.vectors,),
                f"{name}.e": (3 * history.d,), f"{name}.other": (thrice,),
            })  # fmt: skip
        bench.take(HasHistory__d=(history.d,), HasHistory__history=(history.vectors,))
        kind, wrong = moved_number(values, history, self.digits, self.zones, self.draw)
        listings = [("", "", values), (f" of a moved {kind}", "encloses", wrong)]
        listings.append((" of another label", "at", other_label(values, self.draw)))
        if any(step.v_zones for step in values):
            listings.append((" without a pair of zones", "pairs", without_pair(values, self.draw)))
        for what, field, each in listings:
            content = bytes_of(each)
            bench.take(Headline__values=each, Stated__values=each)
            holds = bench.HeadlineOf(self.order, self.set, OK, NOTHING_PUT, put(content))
            bench.holds(f"Headline{what}: {self.label}", holds, not field, f"Headline.{field}" if field else "")
            stated = bench.Stated(some(()), some(tuple(zoned + content)))
            bench.holds(f"Stated{what}: {self.label}", stated, not field, f"Stated.{field}" if field else "")
            bench.take(DeckHeadline__mid=some(tuple(zoned)), DeckHeadline__listing=record(model=model, zones=zones))
            with_deck = bench.HeadlineOf(deck_order, self.set, OK, NOTHING_PUT, put(zoned + content))
            bench.holds(f"DeckHeadline{what}: {self.label}", with_deck, not field)
            if field == "encloses":
                self.compare_wrong_check(what, content)
        case, answer = self.compare_check(self.answer[1])
        bench.agree(f"checks: {self.label}", ("Checking", (0, CERTIFIED)), (case.name, answer))
        if self.draw.random() < SPOILT_LISTINGS:
            self.compare_check(self.draw.choice([spoilt, with_other_digit])(self.answer[1], self.draw))

    def compare_wrong_check(self, what: str, content: bytes) -> None:
        """A listing that doesn't enclose the solution: it isn't certified, and the promise would be False of it."""
        case, answer = self.compare_check(content)
        self.bench.agree(f"checks{what}: {self.label}", False, answer[1] == CERTIFIED)
        if case.name == "Checking":
            files = file_set({**self.files, LISTING: content})
            self.bench.take(Certified__steps=case.arguments[3].v_steps)
            order = self.bench.order(self.words("check", LISTING))
            holds = self.bench.HeadlineOf(order, files, OK, NOTHING_PUT, put(CERTIFIED))
            self.bench.holds(f"Certified{what}: {self.label}", holds, False, "Certified.encloses")

    def compare_check(self, content: bytes) -> tuple[Any, tuple[int, bytes]]:
        """A check of a listing with these bytes: its refusal, and its promise where it is certified."""
        write_files(self.folder, {LISTING: content})
        words = self.words("check", LISTING)
        order, all_files = self.bench.order(words), file_set({**self.files, LISTING: content})
        case, answer = self.bench.case_of(order, all_files), self.bench.run(self.folder, words)
        if not self.refuses("check", words, case, answer) and answer[0] == 0:
            self.bench.take(Certified__steps=case.arguments[3].v_steps)
            holds = self.bench.HeadlineOf(order, all_files, OK, NOTHING_PUT, put(answer[1]))
            self.bench.holds(f"Certified: {self.label}", holds)
        return case, answer
