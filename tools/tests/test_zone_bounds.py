"""Flows between zones: those that certify lists hold the program's own for the same heads; a check finds what lacks."""

import numpy as np
import pytest
from conftest import heads

from heads_tools.numbers.equations import Network, given_heads
from heads_tools.listing.listing import read_listing
from heads_tools.deck.model import read_model
from heads_tools.numbers.zone_budget import on_grid
from heads_tools.numbers.zone_bounds import zone_branches, zone_flows
from heads_tools.listing.zones import read_zones

pytestmark = pytest.mark.program
# Zones that change along rows, columns and layers, some cells in none.
PATTERN = lambda k, i, j: (k + (i + 1) // 2 + j // 3) % 4


@pytest.fixture
def zoned(example):
    """An example with a zone file, its arrays in files of their own, and its listing with flows between zones."""

    def run(name, *options):
        nam = example(name)
        shape = read_model(nam).shape
        with open(nam.parent / "m.zon", "w") as file:
            for k in range(shape[0]):
                rows = [" ".join(str(PATTERN(k, i, j)) for j in range(shape[2])) for i in range(shape[1])]
                (nam.parent / f"zones.{k}").write_text("\n".join(rows) + "\n")
                file.write(f"OPEN/CLOSE zones.{k} 1 (FREE) -1\n")
        done = heads(["run", nam.name, "--zones", "m.zon", *options], nam.parent)
        (nam.parent / "m.heads").write_text(done.stdout)
        return nam, nam.parent / "m.heads", nam.parent / "m.zon"

    return run


def middle(tool, nam, listing):
    assert tool("hds", listing, nam.parent / "m.hds", "--name", nam)[0] == 0
    return nam.parent / "m.hds"


def spoilt(path, by):
    """Moves the lower flow of the first line ZONE by units of its last place: its zones."""
    lines = path.read_text().split("\n")
    at = next(n for n, line in enumerate(lines) if line.startswith("ZONE"))
    words = lines[at].split()
    places = len(words[3].partition(".")[2])
    units = int(words[3].replace(".", "")) + by
    text = f"{abs(units):0{places + 1}d}"
    lines[at] = " ".join([*words[:3], "-" * (units < 0) + text[:-places] + "." + text[-places:], words[4]])
    path.write_text("\n".join(lines))
    return words[1:3]


@pytest.mark.parametrize(
    "name, options",
    [("river_valley", ["--digits", "15"]), ("three_aquifers", []), ("drained_field", ["--digits", "3"]), ("tide", [])],
)
def test_the_flows_at_the_heads_of_a_run_hold_those_of_the_run(name, options, zoned):
    """And they are as wide but for the program's own roundings."""
    nam, path, zones = zoned(name, *options)
    listing, model = read_listing(path), read_model(nam)
    numbers = read_zones(zones, nam, model.shape).ravel()
    branches, network, given = zone_branches(model, listing.digits), Network(model), {}
    assert listing.steps and all(step.zones for step in listing.steps)
    for listed in listing.steps[:5]:
        given = given_heads(model, listed.period - 1, given)
        step = network.step(listed.period - 1, listed.step, given)
        low, high = (on_grid(model, listing, units) for units in (listed.low, listed.high))
        flows = zone_flows(branches, numbers, step.place >= 0, low, high)
        assert [flow[:2] for flow in flows] == [flow[:2] for flow in listed.zones]
        for (*_, least, most), (*_, lower, upper) in zip(flows, listed.zones):
            slack = (abs(lower) + abs(upper) + 10**14 * len(listing.cells)) // 10**3
            assert lower - slack <= least <= lower and upper <= most <= upper + slack


@pytest.mark.parametrize("name", ["three_aquifers", "tide"])
def test_the_flows_of_certify_are_certified(name, zoned, tool):
    nam, path, zones = zoned(name)
    out = nam.parent / "m.certified.heads"
    status, said, err = tool("certify", nam, middle(tool, nam, path), "--zones", zones)
    assert status == 0 and said.startswith("CERTIFIED"), said + err
    pairs = lambda listing: [flow[:2] for step in read_listing(listing).steps for flow in step.zones]
    assert pairs(out) == pairs(path) != []
    status, said, err = tool("check", nam, out, "--zones", zones)
    assert status == 0 and "weren't checked" not in said, said + err
    a, b = spoilt(out, 10**16)
    status, said, err = tool("check", nam, out, "--zones", zones)
    assert status == 8 and f"NOT CERTIFIED 1 1 ZONE {a} {b}" in said, said + err


def test_an_exhibit_has_the_files_that_its_zone_file_opens(zoned, tool, tmp_path):
    nam, path, zones = zoned("three_cells")
    status, out, err = tool("exhibit", nam, tmp_path / "exhibit", "--zones", zones.name)
    assert status == 0, out + err
    for folder in ("deck", "written"):
        assert (tmp_path / "exhibit" / folder / "zones.0").read_bytes() == (nam.parent / "zones.0").read_bytes()


def test_a_pair_of_zones_without_a_face_between_them_has_no_flow():
    branches = [(np.array([0, 1, 2]), np.array([1, 2, 3]), (np.array([2, 2, 2]), np.array([3, 3, 3])))]
    low, high = np.array([10, 5, 0, 9]), np.array([11, 5, 0, 9])
    variable = np.array([False, True, True, False])
    zones = np.array([2, 1, 0, 3])
    assert zone_flows(branches, zones, variable, low, high) == [(1, 2, -18, -10)]
    assert zone_flows(branches, np.array([2, 2, 1, 1]), variable, low, high) == [(1, 2, -15, -10)]
    assert zone_flows(branches, zones, np.zeros(4, bool), low, high) == []
