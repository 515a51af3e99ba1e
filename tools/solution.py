#!/usr/bin/env python3
"""The exact solution of a deck, beside a listing of `heads`.

    python3 solution.py NAME LISTING [MOST] [--plan WELLS] [--to NAME2 [COUNT]]      (in the deck's folder)

It makes the manual's equations as recheck.py does, solves each time step in fractions, and says whether the solution
lies between the listed heads. It tests no terms and no flows between zones: take a listing without lines ZONE.
With a second deck it makes COUNT histories (10 where it is left out): at each time step it draws a deck between the two
anew, each number of its stresses and STRT by itself, and each given head (CHD) between those that the two decks have at
this step, and solves it from the heads of the step before.
With --plan it is a listing of what the wells of WELLS do (recheck_plan.py lies beside it, too): each deck that is drawn
is solved without these wells and with them, each from its own heads of the step before, and the difference has to lie
within DRAWDOWN. It tests no SOURCE.
A river, a drain and an evapotranspiration is linear in each of its ranges; the ranges are those of the listed heads'
middle first, then those of the last solution, until they are its own. So what is found is a solution, whatever was
guessed: its balances are tested to be 0. No floors are used: listings of runs with --wide are taken as they are.

Fractions grow with cells and steps. A model of more than MOST variable cells (200 where it is left out) is not tried.
Status 0: FOUND. 1: OUTSIDE. 2: not tried, not found, or the files can't be read. 3: the words aren't these.
"""
from __future__ import annotations

import copy
import sys
from fractions import Fraction
from math import lcm
from random import Random
from typing import Optional

from recheck import USAGE, ZERO, Entries, Fault, Listing, Model, Step, Time, Values, demand_alike, text_of

FOUND, OUTSIDE, NOT_TRIED = 0, 1, 2
MOST_CELLS, MOST_ROUNDS, COUNT = 200, 100, 10
# How far a number lies from the first deck's to the second's, in eighths: ends are drawn as often as what is between.
EIGHTHS = (0, 0, 0, 8, 8, 8, 1, 2, 3, 4, 5, 6, 7)

Row = dict[int, Fraction]


class Outside(Exception):
    """A head that doesn't lie between the listed ones."""


def linear_row(step: Step, cell: int, head: Fraction, old: Values) -> tuple[Fraction, Fraction]:
    """A cell's balance where its head lies in the range of `head`: how it falls with the head, and what it is at 0."""
    slope = sum((g for _, g in step.links[cell]), ZERO)
    flow = ZERO
    for branch in step.branches[cell]:
        is_below = branch.low is not None and head <= branch.low
        is_above = branch.high is not None and head >= branch.high
        if is_below or is_above:
            flow += branch.flow(head, old[cell])
        else:
            slope += branch.conductance
            flow += branch.conductance * (old[cell] if branch.level is None else branch.level)
    return slope, flow


def solve_linear(rows: dict[int, Row], right: Row) -> Row:
    """Heads x with `rows[c][c] x[c] - sum of rows[c][b] x[b] = right[c]`: elimination in whole numbers (Bareiss), where
    each division leaves nothing."""
    order = list(rows)
    scale = lcm(*(g.denominator for row in rows.values() for g in row.values()))
    under = lcm(*(q.denominator for q in right.values()))
    a = {c: {b: int(g * scale) * (1 if b == c else -1) for b, g in row.items()} for c, row in rows.items()}
    y = {c: int(q * under) * scale for c, q in right.items()}
    last = 1
    for k, c in enumerate(order):
        pivot = a[c].get(c, 0)
        if pivot <= 0:
            raise Fault("the equations have no single solution in these ranges")
        for b in order[k + 1 :]:
            factor = a[b].pop(c, 0)
            columns = a[b].keys() | (a[c].keys() - {c} if factor else set())
            a[b] = {d: (pivot * a[b].get(d, 0) - factor * a[c].get(d, 0)) // last for d in columns}
            y[b] = (pivot * y[b] - factor * y[c]) // last
        last = pivot
    x: dict[int, int] = {}
    for c in reversed(order):
        x[c] = (last * y[c] - sum(g * x[d] for d, g in a[c].items() if d != c)) // a[c][c]
    return {c: Fraction(x[c], last * under) for c in order}


def solve_step(step: Step, guess: Values, old: Values) -> Values:
    """The heads that make all balances 0."""
    heads = list(guess)
    for _ in range(MOST_ROUNDS):
        rows: dict[int, Row] = {}
        right: Row = {}
        for cell in step.cells:
            slope, right[cell] = linear_row(step, cell, heads[cell], old)
            rows[cell] = {cell: slope}
            for b, g in step.links[cell]:
                rows[cell][b] = rows[cell].get(b, ZERO) + g
        for cell, head in solve_linear(rows, right).items():
            heads[cell] = head
        if all(step.balance(cell, heads, old) == 0 for cell in step.cells):
            return heads
    raise Fault(f"no solution was found in {MOST_ROUNDS} rounds")


def digits_of(heads: Values) -> int:
    """The digits of the longest denominator."""
    return max((len(str(head.denominator)) for head in heads), default=1)


def between(one: Model, two: Model, draw: Random, time: Optional[Time] = None) -> Model:
    """A deck between two that are alike; `time`: the step at which its given heads are drawn, from its begin to its end
    the same."""

    def number(a: Fraction, b: Fraction) -> Fraction:
        return a + (b - a) * Fraction(draw.choice(EIGHTHS), 8) if a != b else a

    def numbers(a: Values, b: Values) -> Values:
        return [number(x, y) for x, y in zip(a, b)]

    def entries(a: Entries, b: Entries) -> Entries:
        return [(cell, numbers(x, y)) for (cell, x), (_, y) in zip(a, b)]

    made = copy.copy(one)
    made.strt = numbers(one.strt, two.strt)
    made.stresses = {k: [entries(a, b) for a, b in zip(p, two.stresses[k])] for k, p in one.stresses.items()}
    if time is not None:
        heads, others = one.heads_at(time), two.heads_at(time)
        drawn = {cell: number(heads[cell], others[cell]) for cell in one.given[time.period + 1] if cell in heads}
        made.given = [{cell: (head, head) for cell, head in drawn.items()}] * len(one.given)
    return made


def read_heads(model: Model, listing: Listing) -> list[tuple[Values, Values]]:
    """The listed heads of each step, lower and upper."""
    out = []
    for time in model.times:
        listing.read_step(time, {})
        out.append((listing.lower, listing.upper))
    return out


def follow(one: Model, two: Model, listed: list[tuple[Values, Values]], draw: Random) -> int:
    """Solves the steps one after another, each of a deck between the two. A Fault where a head isn't between the listed
    ones; the digits of the longest denominator."""
    old, longest = list(between(one, two, draw).strt), 1
    for time, (lower, upper) in zip(one.times, listed):
        step = Step(between(one, two, draw, time), time)
        middle = [(low + high) / 2 for low, high in zip(lower, upper)]
        heads = solve_step(step, middle, old)
        for cell, head in step.constant.items():
            heads[cell] = head
        demand_within(step, heads, lower, upper)
        old, longest = heads, max(longest, digits_of(heads))
    return longest


class Planned:
    """A listing of what a plan's wells do, and the two histories of each weather."""

    def __init__(self, model: Model, listing: str, wells: str, is_span: bool):
        import recheck_plan  # beside this script: only asked for where there is a plan

        self.wells = model.read_list(text_of(wells), 1)
        self.with_wells = recheck_plan.planned
        read, self.listed = recheck_plan.PlanListing(listing, model, is_span), []
        for time in model.times:
            read.read_step(time, {})
            self.listed.append([(heads.lower, heads.upper) for heads in read.parts.values()])

    def follow(self, one: Model, two: Model, draw: Random) -> int:
        """Solves the steps of both plans, each step in a weather of its own; the digits of the longest denominator."""
        start = between(one, two, draw).strt
        olds, longest = [list(start), list(start)], 1
        for time, (*pairs, of_both) in zip(one.times, self.listed):
            deck = between(one, two, draw, time)
            step, found = Step(deck, time), []
            for model, old, (lower, upper) in zip((deck, self.with_wells(deck, self.wells)), olds, pairs):
                step = Step(model, time)
                heads = solve_step(step, [(low + high) / 2 for low, high in zip(lower, upper)], old)
                for cell, head in step.constant.items():
                    heads[cell] = head
                demand_within(step, heads, lower, upper)
                found.append(heads)
            demand_within(step, [x - y for x, y in zip(*found)], *of_both)
            olds, longest = found, max(longest, *map(digits_of, found))
        return longest


def demand_within(step: Step, heads: Values, lower: Values, upper: Values) -> None:
    """Refuses a head that isn't between the listed ones."""
    for cell in [*step.cells, *step.constant]:
        if not lower[cell] <= heads[cell] <= upper[cell]:
            place = f"{step.name}, {step.place[cell]}: {float(heads[cell])}"
            raise Outside(f"{place} isn't between {float(lower[cell])} and {float(upper[cell])}")


def find(one: Model, two: Model, listing: str, wells: Optional[str], most: int, count: int) -> int:
    """Solves as many histories, and prints what was found. `two` is `one` itself where there is no second deck."""
    cells = max(len(Step(one, time).cells) for time in one.times)
    if cells > most:
        print(f"NOT TRIED: {cells} variable cells are more than {most}")
        return NOT_TRIED
    steps = f"{len(one.times)} step{'s' * (len(one.times) != 1)}"
    if wells is not None:
        plan = Planned(one, listing, wells, one is not two)
        longest = max(plan.follow(one, two, Random(seed)) for seed in range(count))
        solved = "both plans" if one is two else f"both plans in each of {count} weathers,"
        where = "heads and drawdowns"
    else:
        listed = read_heads(one, Listing(listing, one, one is not two))
        longest = max(follow(one, two, listed, Random(seed)) for seed in range(count))
        solved, where = "the solution" if one is two else f"each of {count} solutions of decks between,", "heads"
    lies = "lie" if wells is not None else "lies"
    print(f"FOUND: {solved} of {steps} {lies} between the listed {where}; digits of its longest denominator: {longest}")
    return FOUND


def plan_of(arguments: list[str]) -> tuple[list[str], Optional[str]]:
    """The words without the plan, and its file."""
    if "--plan" not in arguments:
        return arguments, None
    at = arguments.index("--plan")
    return arguments[:at] + arguments[at + 2 :], (arguments[at + 1 : at + 2] or [""])[0]


def words_of(arguments: list[str]) -> tuple[list[str], str | None, int]:
    """The words without the second deck, its name, and how many histories are asked for."""
    if "--to" not in arguments:
        return arguments, None, 1
    at = arguments.index("--to")
    name, *count = arguments[at + 1 :] or [""]
    return arguments[:at], name, int(count[0]) if len(count) == 1 and count[0].isdigit() else 0 if count else COUNT


def main(arguments: list[str]) -> int:
    arguments, wells = plan_of(arguments)
    words, second, count = words_of(arguments)
    if len(words) not in (2, 3) or not all(map(str.isdigit, words[2:])) or "" in (second, wells) or count < 1:
        words_taken = "NAME LISTING [MOST] [--plan WELLS] [--to NAME2 [COUNT]]"
        print(f"usage: python3 solution.py {words_taken}   (in the deck's folder)", file=sys.stderr)
        return USAGE
    if hasattr(sys, "set_int_max_str_digits"):
        sys.set_int_max_str_digits(0)
    try:
        one = Model(words[0])
        two = one if second is None else Model(second)
        demand_alike(one, two)
        most = int(words[2]) if len(words) == 3 else MOST_CELLS
        return find(one, two, words[1], wells, most, count)
    except Outside as fault:
        print(f"OUTSIDE: {fault}")
        return OUTSIDE
    except Fault as fault:
        print(f"NOT FOUND: {fault}")
    except (OSError, StopIteration, KeyError, IndexError, ValueError, ZeroDivisionError) as error:
        print(f"NOT FOUND: a deck or the listing can't be read here: {type(error).__name__} {error}")
    return NOT_TRIED


if __name__ == "__main__":
    sys.exit(main(sys.argv[1:]))
