"""solution beside the program: it finds the exact heads, and says where they lie outside."""
import shutil
import subprocess
import sys
from fractions import Fraction

import pytest
from conftest import TOOLS, heads


def solution(nam, listing, *words):
    done = subprocess.run(
        [sys.executable, TOOLS / "solution.py", nam.name, listing.name, *words],
        cwd=nam.parent,
        capture_output=True,
        text=True,
    )
    assert "Traceback" not in done.stderr, done.stderr
    return done.returncode, done.stdout.strip()


@pytest.mark.program
def test_three_cells_have_the_mean_of_their_neighbours(example):
    nam = example("three_cells")
    listing = nam.parent / "m.heads"
    listing.write_text(heads(["run", nam.name], nam.parent).stdout)
    status, text = solution(nam, listing)
    assert (status, text) == (
        0,
        "FOUND: the solution of 1 step lies between the listed heads; digits of its longest denominator: 1",
    )


@pytest.mark.program
def test_heads_that_leave_the_solution_out_are_named(example):
    nam = example("three_cells")
    listing = nam.parent / "m.heads"
    lines = heads(["run", nam.name], nam.parent).stdout.split("\n")
    lines[3] = "HEAD 1 1 2 15.000000001 15.000000002"
    listing.write_text("\n".join(lines))
    status, text = solution(nam, listing)
    assert status == 1 and text.startswith("OUTSIDE: period 1 step 1, 1 1 2: 15.0 isn't between")


def listing_of_two(tmp_path, lower, upper):
    """Two decks of three cells between constant heads 10 and 20, with a well of 0 in one and of -4 in the other; and a
    listing of all between them that has these heads in the middle."""
    files = {
        "a.dis": "1 1 3 1 4 2\n0\nCONSTANT 1\nCONSTANT 1\nCONSTANT 1\nCONSTANT 0\n1 1 1 SS\n",
        "a.bas": "FREE\nINTERNAL 1 (FREE) -1\n-1 1 -1\n-999.99\nINTERNAL 1 (FREE) -1\n10 0 20\n",
        "a.lpf": "0 -1E+30 0\n0\n0\n1\n0\n0\nCONSTANT 1\nCONSTANT 1\n",
        "a.wel": "1 0\n1 0\n1 1 2 0\n",
        "b.wel": "1 0\n1 0\n1 1 2 -4\n",
    }
    names = "DIS 11 a.dis\nBAS6 12 a.bas\nLPF 13 a.lpf\nWEL 14 {}.wel\n"
    for file, text in {**files, "a.nam": names.format("a"), "b.nam": names.format("b")}.items():
        (tmp_path / file).write_text(text)
    terms = "STORAGE", "CONSTANT HEAD", "WELLS", "DRAINS", "RIVER LEAKAGE", "HEAD DEP BOUNDS", "RECHARGE"
    heads_of = [("10.000000000", "10.000000000"), (lower, upper), ("20.000000000", "20.000000000")]
    lines = ["HEADS 2 DIGITS 0 UNIT 2 TO", "STEP 1 1"]
    lines += [f"HEAD 1 1 {n} {' '.join(pair)}" for n, pair in enumerate(heads_of, 1)]
    lines += [f"{side} 0.000000000 9.000000000 {name}" for side in ("IN", "OUT") for name in terms]
    (tmp_path / "a.heads").write_text("\n".join([*lines, "END", ""]))
    return tmp_path / "a.nam", tmp_path / "a.heads"


def test_solutions_of_decks_between_lie_between(tmp_path):
    status, text = solution(*listing_of_two(tmp_path, "13.000000000", "15.000000000"), "--to", "b.nam", "20")
    assert status == 0 and text.startswith("FOUND: each of 20 solutions of decks between, of 1 step lies between")


@pytest.mark.parametrize("pair", [("13.000000001", "15.000000000"), ("13.000000000", "14.999999999")])
def test_a_solution_of_a_deck_between_that_lies_outside_is_named(pair, tmp_path):
    status, text = solution(*listing_of_two(tmp_path, *pair), "--to", "b.nam")
    assert status == 1 and text.startswith("OUTSIDE: period 1 step 1, 1 1 2: 1")


def crossing(tmp_path, lower, upper):
    """Two decks whose given head rises from 10 to 20 in one and falls from 20 to 10 in the other, in two steps: 15 in
    both at the end of the first, 20 and 10 at the end of the second. The middle cell has the mean of it and of 0."""
    nam, listing = listing_of_two(tmp_path, lower[0], upper[0])
    (tmp_path / "a.dis").write_text((tmp_path / "a.dis").read_text().replace("1 1 1 SS", "1 2 1 SS"))
    (tmp_path / "a.bas").write_text("FREE\nINTERNAL 1 (FREE) -1\n-1 1 1\n-999.99\nCONSTANT 0\n")
    for deck, entry in (("a", "10 20"), ("b", "20 10")):
        (tmp_path / f"{deck}.chd").write_text(f"1\n1 0\n1 1 3 {entry}\n")
        names = (tmp_path / f"{deck}.nam").read_text().replace("WEL 14 b.wel", "WEL 14 a.wel")
        (tmp_path / f"{deck}.nam").write_text(names + f"CHD 15 {deck}.chd\n")
    first, *_ = text = listing.read_text().splitlines()
    terms = [line for line in text if line.startswith(("IN", "OUT"))]
    lines = [first]
    for step, (low, high) in enumerate(zip(lower, upper), 1):
        given = ("15.000000000", "15.000000000") if step == 1 else ("10.000000000", "20.000000000")
        heads_of = ("0.000000000", "0.000000000"), (low, high), given
        lines += [f"STEP 1 {step}", *(f"HEAD 1 1 {n} {' '.join(pair)}" for n, pair in enumerate(heads_of, 1)), *terms]
    listing.write_text("\n".join([*lines, "END", ""]))
    return nam, listing


def test_given_heads_may_cross(tmp_path):
    """The middle cell has half of the given head: 7.5 at the end of the first step, in all decks between."""
    pairs = crossing(tmp_path, ("7.500000000", "5.000000000"), ("7.500000000", "10.000000000"))
    status, text = solution(*pairs, "--to", "b.nam", "20")
    assert status == 0 and text.startswith("FOUND: each of 20 solutions of decks between, of 2 steps lies"), text


def test_a_given_head_is_drawn_between_those_that_both_decks_have_at_the_step(tmp_path):
    """Drawn as entries, 10 to 20 and 20 to 10 would be 10 or 20 at the end of the first step, too."""
    from random import Random
    from types import SimpleNamespace

    import solution as module

    ends = {1: (Fraction(10), Fraction(20)), 2: (Fraction(20), Fraction(10))}
    deck = lambda n: SimpleNamespace(
        strt=[Fraction(0)], stresses={}, given=[{}, {0: ends[n]}],
        heads_at=lambda time: {0: ends[n][0] + (ends[n][1] - ends[n][0]) * time.part},
    )
    heads_of = lambda part: {
        module.between(deck(1), deck(2), Random(seed), SimpleNamespace(period=0, part=part)).given[1][0]
        for seed in range(40)
    }
    assert heads_of(Fraction(1, 2)) == {(Fraction(15), Fraction(15))}
    assert {head for head, _ in heads_of(Fraction(1))} >= {10, 20} and len(heads_of(Fraction(1))) > 4


@pytest.mark.program
def test_a_large_model_is_not_tried(example):
    nam = example("river_valley")
    listing = nam.parent / "m.heads"
    listing.write_text(heads(["run", nam.name], nam.parent).stdout)
    assert solution(nam, listing, "50") == (2, "NOT TRIED: 600 variable cells are more than 50")


@pytest.fixture
def plan_decks(tmp_path):
    """Two decks and a plan's wells, with the listings that an independent program made of them, without lines ZONE."""
    folder = shutil.copytree(TOOLS / "tests" / "plan_listing", tmp_path / "decks")
    lines = (folder / "one.txt").read_text().splitlines(keepends=True)
    (folder / "one.txt").write_text("".join(line for line in lines if not line.startswith("ZONE")))
    return folder


BOTH = [(["one.txt"], "both plans of"), (["two.txt", "--to", "h.nam", "4"], "4 weathers")]


@pytest.mark.parametrize("words, said", BOTH)
def test_both_plans_lie_within_a_plans_listing(plan_decks, words, said):
    listing, *to = words
    status, text = solution(plan_decks / "m.nam", plan_decks / listing, "--plan", "plan.wel", *to)
    assert status == 0 and said in text and "lie between the listed heads and drawdowns" in text, text


@pytest.mark.parametrize("part", ["BASE", "PLAN", "DRAWDOWN"])
def test_a_part_of_a_plans_listing_that_leaves_the_solution_out_is_found(plan_decks, part):
    lines = (plan_decks / "one.txt").read_text().splitlines()
    at = max(n for n, line in enumerate(lines) if line.startswith(f"{part} 1 1 2 "))
    *words, low, high = lines[at].split()
    raised = [f"{float(end) + 1:.9f}" for end in (low, high)]
    lines[at] = " ".join([*words, *raised])
    (plan_decks / "one.txt").write_text("\n".join(lines) + "\n")
    status, text = solution(plan_decks / "m.nam", plan_decks / "one.txt", "--plan", "plan.wel")
    assert status == 1 and text.startswith("OUTSIDE:"), text
