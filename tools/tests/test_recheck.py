"""recheck beside the program: both hold what was written, and both name what was spoilt."""
import random
import re
import shutil
import subprocess
import sys

import pytest
from conftest import TOOLS, TOP, heads

SCRIPT = TOOLS / "recheck.py"


def recheck(nam, listing, *more):
    done = subprocess.run(
        [sys.executable, SCRIPT, nam.name, listing.name, *more], cwd=nam.parent, capture_output=True, text=True
    )
    assert "Traceback" not in done.stderr, done.stderr
    return done.returncode, done.stdout.strip()


def moved(line, lower, upper):
    """A HEAD line whose two heads are moved by units of 10^-9."""
    words = line.split()
    units = [int(w.replace(".", "")) + d for w, d in zip(words[4:], (lower, upper))]
    return " ".join(words[:4] + [f"{'-' if u < 0 else ''}{abs(u) // 10**9}.{abs(u) % 10**9:09d}" for u in units])


def test_it_stays_short_and_alone():
    text = SCRIPT.read_text()
    imported = set(re.findall(r"^(?:import|from) (\w+)", text, re.M))
    assert text.count("\n") <= 500 and max(map(len, text.split("\n"))) <= 120
    assert imported == {"fractions", "heapq", "itertools", "re", "sys", "typing"}


@pytest.mark.program
@pytest.mark.parametrize("name", ["three_cells", "drained_field", "tide"])
def test_it_holds_what_the_program_wrote(name, example):
    nam = example(name)
    (nam.parent / "m.heads").write_text(heads(["run", nam.name], nam.parent).stdout)
    assert recheck(nam, nam.parent / "m.heads") == (0, "HOLDS")


@pytest.mark.program
@pytest.mark.parametrize("seed", range(12))
def test_it_names_the_place_that_the_program_names(seed, example):
    nam, choose = example("drained_field"), random.Random(seed)
    lines = heads(["run", nam.name], nam.parent).stdout.split("\n")
    at = choose.choice([n for n, line in enumerate(lines) if line.startswith("HEAD ")])
    lines[at] = moved(lines[at], *choose.choice([(1000, 0), (0, -1000), (10**8, 10**8), (-(10**8), -(10**8))]))
    (nam.parent / "m.heads").write_text("\n".join(lines))
    status, said = recheck(nam, nam.parent / "m.heads")
    verdict = heads(["check", nam.name, "m.heads"], nam.parent).stdout.strip()
    place = re.fullmatch(r"NOT CERTIFIED (\d+) (\d+) (.*)", verdict).groups()
    assert status == 1 and "period {} step {} {}".format(*place) in said, (verdict, said)


@pytest.mark.program
@pytest.mark.parametrize(
    "spoil",
    [
        lambda l: l[:-2],
        lambda l: l[:3] + l[4:],
        lambda l: l[:4] + [l[4][:-1]] + l[5:],
        lambda l: [l[0].replace("12", "11")] + l[1:],
        lambda l: l[:-1] + ["END", ""],
    ],
)
def test_it_refuses_another_form(spoil, example):
    nam = example("three_cells")
    lines = heads(["run", nam.name], nam.parent).stdout.split("\n")
    (nam.parent / "m.heads").write_text("\n".join(spoil(lines)))
    status, said = recheck(nam, nam.parent / "m.heads")
    assert status == 1 and "line" in said
    assert "BadListing" in heads(["check", nam.name, "m.heads"], nam.parent).stdout


@pytest.fixture
def zoned(example):
    """The model of river_valley and its listing with three zones."""
    nam = example("river_valley")
    listing = nam.parent / "m.heads"
    listing.write_text(heads(["run", nam.name, "--zones", "m.zon"], nam.parent).stdout)
    return nam, listing


@pytest.mark.program
def test_it_holds_flows_between_zones(zoned):
    assert recheck(*zoned, "m.zon") == (0, "HOLDS")


@pytest.mark.program
@pytest.mark.parametrize(
    "change, part",
    [
        (lambda line: line.replace("1559.999", "1559.9999", 1), "ZONE 1 2: the pair doesn't hold the flow"),
        (
            lambda line: re.sub(r"(\S+)$", "1560.000000000000000000000", line),
            "ZONE 1 2: the pair doesn't hold the flow",
        ),
        (lambda line: line.replace("ZONE 1 2", "ZONE 1 3"), "isn't of the form due (ZONE 1 2"),
        (lambda line: None, "isn't of the form due (ZONE 1 2"),
    ],
)
def test_it_names_zone_lines_that_are_spoilt(change, part, zoned):
    nam, listing = zoned
    lines = listing.read_text().split("\n")
    at = next(n for n, line in enumerate(lines) if line.startswith("ZONE 1 2"))
    changed = change(lines[at])
    if changed and len(changed.split()[3]) != len(lines[at].split()[3]):
        changed = changed.replace(changed.split()[3], changed.split()[3][: len(lines[at].split()[3])])
    lines[at : at + 1] = [changed] if changed else []
    listing.write_text("\n".join(lines))
    status, said = recheck(nam, listing, "m.zon")
    assert status == 1 and part in said


@pytest.fixture
def between(tmp_path):
    """The two decks of the valley and the listing of all between them."""
    folder = shutil.copytree(TOP / "examples" / "valley_between", tmp_path / "valley")
    return folder / "from.nam", folder / "expect.txt"


def test_it_holds_a_listing_of_two_decks_with_both(between):
    nam, listing = between
    assert recheck(nam, listing, "--to", "to.nam") == (0, "HOLDS")
    assert recheck(nam, listing)[0] == 1
    listing.write_text(listing.read_text().replace(" TO\n", "\n", 1))
    status, said = recheck(nam, listing, "--to", "to.nam")
    assert status == 1 and "line 1" in said


@pytest.mark.parametrize("head, side", [("6.717665865", "LOW"), ("13.647057736", "HIGH")])
def test_it_names_a_head_of_two_decks_that_is_a_unit_too_tight(head, side, between):
    nam, listing = between
    tighter = head[:-1] + str(int(head[-1]) + (1 if side == "LOW" else -1))
    listing.write_text(listing.read_text().replace(head, tighter))
    status, said = recheck(nam, listing, "--to", "to.nam")
    assert status == 1 and f"period 1 step 1 1 8 17 {side}" in said


def test_it_takes_the_worse_conductance_at_each_head(tmp_path):
    """A river of stage 1 and conductance 1 to 3 beside a constant head of 0 or of 3, over a branch of conductance 1:
    between 1/2 and 3/4, and between 3/2 and 2. Neither deck alone has both ends."""
    for given, (low, high) in ((0, ("0.500000000", "0.750000000")), (3, ("1.500000000", "2.000000000"))):
        folder = tmp_path / str(given)
        folder.mkdir()
        both = {
            "a.dis": "1 1 2 1 4 2\n0\nCONSTANT 1\nCONSTANT 1\nCONSTANT 1\nCONSTANT 0\n1 1 1 SS\n",
            "a.bas": f"FREE\nINTERNAL 1 (FREE) -1\n-1 1\n-999.99\nINTERNAL 1 (FREE) -1\n{given} 1\n",
            "a.lpf": "0 -1E+30 0\n0\n0\n1\n0\n0\nCONSTANT 1\nCONSTANT 1\n",
        }
        for file, text in both.items():
            (folder / file).write_text(text)
        for deck, conductance in (("a", 1), ("b", 3)):
            names = f"DIS 11 a.dis\nBAS6 12 a.bas\nLPF 13 a.lpf\nRIV 14 {deck}.riv\n"
            (folder / f"{deck}.nam").write_text(names)
            (folder / f"{deck}.riv").write_text(f"1 0\n1 0\n1 1 2 1 {conductance} -9\n")
        terms = "STORAGE", "CONSTANT HEAD", "WELLS", "DRAINS", "RIVER LEAKAGE", "HEAD DEP BOUNDS", "RECHARGE"
        lines = ["HEADS 2 DIGITS 0 UNIT 2 TO", "STEP 1 1", f"HEAD 1 1 1 {given}.000000000 {given}.000000000"]
        lines += [f"HEAD 1 1 2 {low} {high}"]
        lines += [f"{side} 0.000000000 9.000000000 {name}" for side in ("IN", "OUT") for name in terms]
        listing = folder / "a.heads"
        listing.write_text("\n".join([*lines, "END", ""]))
        assert recheck(folder / "a.nam", listing, "--to", "b.nam") == (0, "HOLDS")
        for tight in ((low[:-1] + "1", high), (low, f"{float(high) - 1e-9:.9f}")):
            text = listing.read_text().replace(f"{low} {high}", " ".join(tight))
            (folder / "tight.heads").write_text(text)
            assert recheck(folder / "a.nam", folder / "tight.heads", "--to", "b.nam")[0] == 1


@pytest.mark.parametrize(
    "file, old, new",
    [("to.wel", "1 8 17", "1 8 18"), ("to.nam", "RCH", "#RCH"), ("to.nam", "both.dis", "other.dis")],
)
def test_decks_that_are_not_alike_can_not_be_read_together(file, old, new, between):
    nam, listing = between
    (nam.parent / "other.dis").write_text((nam.parent / "both.dis").read_text().replace("CONSTANT -15", "CONSTANT -14"))
    (nam.parent / file).write_text((nam.parent / file).read_text().replace(old, new))
    status, said = recheck(nam, listing, "--to", "to.nam")
    assert status == 2 and "aren't alike" in said


@pytest.mark.program
def test_it_asks_for_the_zone_file_where_the_listing_has_zones(zoned):
    status, said = recheck(*zoned)
    assert status == 1 and "name the zone file" in said


def test_other_words_have_a_status_of_their_own(tmp_path):
    for script in (SCRIPT, TOOLS / "solution.py"):
        done = subprocess.run([sys.executable, script, "m.nam"], cwd=tmp_path, capture_output=True, text=True)
        assert done.returncode == 3 and done.stderr.startswith("usage: ") and not done.stdout
        done = subprocess.run(
            [sys.executable, script, "m.nam", "m.heads"], cwd=tmp_path, capture_output=True, text=True
        )
        assert done.returncode == 2 and "can't be read" in done.stdout


def test_a_floor_out_of_range_passes_no_cell_with_the_word(tmp_path):
    """A well takes 1 from the middle cell, to which a constant head of 10 gives water over a link of conductance
    1/5000000000.5. Its lower head is the floor, and the next one's is 5 lower: the balance is -5."""
    texts = {
        "a.nam": "DIS 11 a.dis\nBAS6 12 a.bas\nLPF 13 a.lpf\nWEL 14 a.wel\n",
        "a.dis": "1 1 3 1 4 2\n0\n" + "CONSTANT 1\n" * 3 + "CONSTANT 0\n1 1 1 SS\n",
        "a.bas": "FREE\nINTERNAL 1 (FREE) -1\n-1 1 1\n-999.99\nCONSTANT 10\n",
        "a.lpf": "0 -1E+30 0\n0\n0\n1\n0\n0\nINTERNAL 1 (FREE) -1\n1E-10 1 1\nCONSTANT 1\n",
        "a.wel": "1 0\n1 0\n1 1 2 -1\n",
    }
    for name, text in texts.items():
        (tmp_path / name).write_text(text)
    zero, one = "0." + "0" * 21, "1." + "0" * 21
    flows = {"IN CONSTANT HEAD": (zero, one), "OUT WELLS": (one, one)}
    names = ["STORAGE", "CONSTANT HEAD", "WELLS", "DRAINS", "RIVER LEAKAGE", "HEAD DEP BOUNDS", "RECHARGE"]
    pairs = [(side, name, flows.get(f"{side} {name}", (zero, zero))) for side in ("IN", "OUT") for name in names]
    lower = ["10.000000000", "-4999999990.500000000", "-4999999995.500000000"]
    heads_of = "".join(f"HEAD 1 1 {n} {low} 10.000000000\n" for n, low in enumerate(lower, 1))
    terms = "".join(f"{side} {low} {high} {name}\n" for side, name, (low, high) in pairs)
    (tmp_path / "l.txt").write_text(f"HEADS 2 DIGITS 12 UNIT 2\nSTEP 1 1\n{heads_of}{terms}END\n")
    assert recheck(tmp_path / "a.nam", tmp_path / "l.txt") == (0, "HOLDS")
    status, said = recheck(tmp_path / "a.nam", tmp_path / "l.txt", "--wide")
    assert status == 1 and "period 1 step 1 1 1 2 LOW" in said
