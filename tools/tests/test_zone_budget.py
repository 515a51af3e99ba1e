"""Budgets of zones: whatever the heads are within the pairs, their flows by the manual's formulas lie within them."""
import csv
import dataclasses
import random
from fractions import Fraction

import numpy as np
import pytest
import recheck

import heads_tools
from heads_tools import read_model
from heads_tools.numbers.zone_budget import zone_budgets

pytestmark = pytest.mark.program
ONE = 10**9


def drawn(model, listing, seed):
    """The listing with pairs drawn apart, zones, and heads between them for each step: a list by cell, and STRT's."""
    rng = random.Random(seed)
    steps, heads = [], [list(model.strt.ravel().tolist())]
    for step in listing.steps:
        less, more = (np.array([rng.choice([0, 1, 10**8, 5 * 10**8]) for _ in step.low]) for _ in range(2))
        low, high = step.low - less, step.high + more
        steps.append(dataclasses.replace(step, low=low, high=high))
        now = [Fraction(0)] * model.ibound.size
        for at, cell in enumerate((listing.cells - 1).tolist()):
            now[np.ravel_multi_index(cell, model.shape)] = Fraction(rng.randint(int(low[at]), int(high[at])), ONE)
        heads.append(now)
    zones = np.array([rng.randint(0, 3) for _ in range(model.ibound.size)]).reshape(model.shape)
    return dataclasses.replace(listing, steps=steps), zones, heads


def flows_of(model, time, zones, now, old):
    """By zone and term the flows in and out at these heads, by recheck's reading of the deck."""
    step, zones = recheck.Step(model, time), zones.ravel().tolist()
    heads = [step.constant.get(cell, head) for cell, head in enumerate(now)]
    out = {}

    def add(zone, term, flow):
        sums = out.setdefault((zone, term), [Fraction(0)] * 3)
        for at, part in enumerate((max(flow, 0), max(-flow, 0), flow)):
            sums[at] += part

    for cell in step.cells:
        for branch in step.branches[cell]:
            if branch.term != "CONSTANT HEAD":
                add(zones[cell], branch.term, branch.flow(heads[cell], old[cell]))
    for a, b, conductance in model.faces:
        if a in step.constant and b in step.constant:
            continue
        flow = conductance * (heads[a] - heads[b])  # into b
        for cell, other, into in ((a, b, -flow), (b, a, flow)):
            if cell in step.constant:
                add(zones[cell], "CONSTANT HEAD", -into)
            if zones[cell] != zones[other]:
                add(zones[cell], f"ZONE {zones[other]}", into)
    return out


MODELS = ["three_aquifers", "drained_field", "river_valley", "tide", "pumping_plans", "pumping_test"]


@pytest.mark.parametrize("name, seed", [*((name, 1) for name in MODELS), *(("three_cells", n) for n in range(8))])
def test_flows_of_any_heads_within_the_pairs_lie_within_the_budget(name, seed, example, monkeypatch):
    nam = example(name)
    listing, model = heads_tools.run(nam, quiet=True).listing, read_model(nam)
    listing = dataclasses.replace(listing, steps=listing.steps[:4])
    monkeypatch.chdir(nam.parent)
    deck = recheck.Model(nam.name)
    wide, zones, heads = drawn(model, listing, seed)
    unit = Fraction(1, 10**listing.flow_places)
    budgets = {(b.period, b.step, b.zone): b for b in zone_budgets(model, wide, zones)}
    checked = 0
    old = deck.strt
    for at, time in enumerate(deck.times[: len(listing.steps)]):
        now = heads[at + 1]
        for (zone, term), (into, out, net) in flows_of(deck, time, zones, now, old).items():
            if not zone:
                continue
            budget = budgets[time.period + 1, time.step + 1, zone]
            row = next(r for r in budget.rows if r.term == term)
            pairs = [(row.sums[n] * unit, row.sums[n + 1] * unit) for n in (0, 2, 4)]
            assert all(low <= value <= high for (low, high), value in zip(pairs, (into, out, net))), (zone, term)
            checked += 1
        constant = recheck.Step(deck, time).constant
        old = [constant.get(cell, head) for cell, head in enumerate(now)]
    assert checked > 10 or name == "three_cells"


def test_one_zone_has_the_budget_of_the_whole_model(example, tool, tmp_path):
    """The terms of the listing hold what all cells together have, but for the program's own roundings."""
    nam = example("drained_field")
    listing = heads_tools.run(nam, quiet=True).listing
    model = read_model(nam)
    (budget,) = zone_budgets(model, listing, np.ones(model.shape, int))
    for row in budget.rows:
        listed = listing.steps[0].terms[row.term]
        assert all(abs(a - b) <= 10 ** (listing.flow_places - 8) for a, b in zip(row.sums, listed)), row.term
    low, high = budget.total.sums[4:]
    assert low <= 0 <= high


def test_the_faces_are_those_of_the_program(example, tool, tmp_path):
    """river_valley's zone file: what flows between its zones is what `heads run --zones` lists."""
    nam = example("river_valley")
    zones = nam.with_name("m.zon")
    answer = heads_tools.run(nam, zones=zones, quiet=True)
    status, out, err = tool("zonebudget", answer.listing.path, zones, "--name", nam, "--out", tmp_path / "zones.csv")
    assert status == 0 and "CERTIFIED" in out and "weren't checked" not in out, out + err
    rows = {(row["zone"], row["term"]): row for row in csv.DictReader((tmp_path / "zones.csv").open())}
    unit = Fraction(1, 10**answer.listing.flow_places)
    for a, b, low, high in answer.listing.steps[0].zones:
        if a and b:
            row = rows[str(b), f"ZONE {a}"]
            assert abs(Fraction(row["net_lower"]) - low * unit) < Fraction(1, 10**6)
            assert abs(Fraction(row["net_upper"]) - high * unit) < Fraction(1, 10**6)
    for (zone, term), row in rows.items():
        assert Fraction(row["in_lower"]) <= Fraction(row["in_upper"])
        assert Fraction(row["net_lower"]) <= Fraction(row["narrowed_lower"]) <= Fraction(row["narrowed_upper"])
    assert (tmp_path / "zones.csv.about").is_file()
    assert tool("zonebudget", answer.listing.path, zones, "--name", nam, "--out", tmp_path / "zones.csv")[0] == 0
    other = tmp_path / "other.zon"
    other.write_text("CONSTANT 1\n")
    status, out, err = tool("zonebudget", answer.listing.path, other, "--name", nam)
    assert status == 0 and "CERTIFIED" in out and "The flows between zones weren't checked" in out, out + err
