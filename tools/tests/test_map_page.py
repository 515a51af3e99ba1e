"""The page of the interactive map: its data are the listing's, it is one file that loads nothing, and it is small."""
import base64
import csv
import json
import re
import time
import zlib

import numpy as np
import pytest

import heads_tools
from heads_tools.pages import map_data, map_page
from heads_tools.listing.below_top import below_top
from heads_tools.listing.listing import Listing, Step, read_listing
from heads_tools.pages.look import look_at_map
from heads_tools.pages.one_page import hashed, one_script


def unpacked(text, cells):
    """What `packed` made, taken apart by another way."""
    raw = zlib.decompress(base64.b64decode(text))
    count = len(raw) // 8
    changes = [int.from_bytes(bytes(raw[k * count + n] for k in range(8)), "little", signed=True) for n in range(count)]
    steps = np.array(changes).reshape(-1, cells)
    steps[0] = np.cumsum(steps[0])
    return np.cumsum(steps, axis=0)


def text_of(folder):
    return (folder / "map.html").read_text()


def data_in(folder):
    return json.loads(re.search('<script type="application/json" id="data">(.*?)</script>', text_of(folder), re.S)[1])


def test_whole_numbers_come_back_whatever_their_size():
    values = np.array([[0, -1, 2**62, -(2**62)], [10**9, -(10**18), -1, 5]])
    assert unpacked(map_data.packed(values), 4).tolist() == values.tolist()


def test_elevations_come_back_without_their_common_zeros():
    units = np.array([12_500_000_000, -3_000_000_000, 0])
    packed = map_data.elevations(units)
    assert packed["factor"] == "100000000"
    assert (unpacked(packed["values"], 3)[0] * int(packed["factor"])).tolist() == units.tolist()
    assert map_data.elevations(np.zeros(3, np.int64))["factor"] == "1000000000"


def test_each_script_takes_names_from_scripts_before_it_alone():
    names = (map_page.PARTS / "scripts.txt").read_text().split() + ["packed.mjs", "begin.mjs"]
    for at, name in enumerate(names):
        text = (map_page.PARTS / name).read_text()
        asked = re.findall(r'^import [^;]* from "\./([\w.]+)";$', text, re.M)
        assert set(asked) <= set(names[:at]), name
        assert len(asked) == len(re.findall("^import ", text, re.M)), name
    assert set(names) == {path.name for path in map_page.PARTS.glob("*.mjs")}


def test_an_end_of_a_script_within_one_is_refused(tmp_path):
    path = tmp_path / "a.mjs"
    path.write_text('export const a = "</script>";\n')
    with pytest.raises(ValueError):
        one_script([path])


@pytest.fixture
def looked(example, tool, tmp_path):
    """The page of an example, with its model or without."""

    def look(name, *words):
        nam = example(name)
        assert tool("run", nam)[0] == 0
        listing = nam.with_suffix(".heads")
        more = [word for word in words if word != "--name"]
        named = ("--name", nam) if "--name" in words else ()
        status, said, _ = tool("look", listing, tmp_path / "look", *named, *more)
        assert status == 0
        return nam, read_listing(listing), tmp_path / "look", said

    return look


@pytest.mark.program
def test_the_map_has_the_listings_heads_and_the_tops(looked):
    nam, listing, folder, _ = looked("three_aquifers", "--name")
    data, step, count = data_in(folder), listing.steps[0], len(listing.cells)
    low, width = (unpacked(data["fields"][0][name], count)[0] for name in ("low", "width"))
    assert low.tolist() == step.low.tolist() and (low + width).tolist() == step.high.tolist()
    layer, row, col = np.unravel_index(unpacked(data["cells"], count)[0], data["shape"])
    assert (np.array([layer, row, col]).T + 1).tolist() == listing.cells.tolist()
    tops = unpacked(data["tops"]["values"], count)[0] * int(data["tops"]["factor"])
    assert tops.tolist() == below_top(nam, listing).tops.tolist()
    # layer 2 of the deck lies from 28 down to 15 m
    bottoms = unpacked(data["bottoms"]["values"], count)[0] * int(data["bottoms"]["factor"])
    assert set(bottoms[layer == 0].tolist()) == {30 * 10**9}
    assert '<a href="map.html">' in (folder / "index.html").read_text()


@pytest.mark.program
def test_page_writes_the_map_alone(looked):
    _, _, folder, said = looked("river_valley", "--name", "--page")
    assert [path.name for path in folder.iterdir()] == ["map.html"]
    assert "heads check: CERTIFIED" in said and "open" in said and "map.html" in said
    assert 'href="index.html"' not in text_of(folder)


@pytest.mark.program
def test_python_asks_for_the_map_alone(looked, tmp_path):
    nam, listing, _, _ = looked("three_cells", "--name", "--page")
    answer = heads_tools.look(listing, tmp_path / "python", name=nam, page=True)
    assert answer.is_good and [path.name for path in (tmp_path / "python").iterdir()] == ["map.html"]


@pytest.mark.program
def test_the_page_names_the_bytes_that_it_was_made_of(looked):
    _, listing, folder, _ = looked("river_valley", "--name", "--page")
    made_of = f"m.heads, sha256 {listing.sha256}"
    assert made_of in re.search('<p class="note">(.*?)</p>', text_of(folder), re.S)[1]
    assert made_of in data_in(folder)["source"] and "CERTIFIED" in data_in(folder)["verdict"]


@pytest.mark.program
def test_the_page_names_its_own_script_and_style_and_loads_nothing(looked):
    _, _, folder, _ = looked("river_valley", "--name", "--page")
    text = text_of(folder)
    policy = re.search('http-equiv="Content-Security-Policy" content="([^"]*)"', text)[1]
    script = re.search("<script>(.*?)</script>", text, re.S)[1]
    style = re.search("<style>(.*?)</style>", text, re.S)[1]
    assert policy.split("; ")[:3] == [
        "default-src 'none'", f"script-src {hashed(script)}", f"style-src {hashed(style)}"
    ]
    assert not re.search(r"""(src|href)=["']?(https?:|//)|@import|url\(""", text)


@pytest.mark.program
def test_without_a_model_no_top_is_said(looked):
    _, _, folder, _ = looked("river_valley")
    data = data_in(folder)
    assert data["tops"] is None and data["marks"] == [] and data["time"] == "" and not data["is_true"]


@pytest.mark.program
def test_a_model_of_one_row_has_a_map_too(looked):
    _, listing, folder, _ = looked("tide", "--name", "--page")
    assert data_in(folder)["shape"] == [1, 1, 60] and len(data_in(folder)["steps"]) == len(listing.steps)


@pytest.mark.program
def test_a_long_listing_has_some_of_its_steps_the_last_among_them(looked, monkeypatch):
    monkeypatch.setattr(map_page, "MOST_PAIRS", 625 * 7)
    _, listing, folder, _ = looked("pumping_test", "--name")
    steps = data_in(folder)["steps"]
    assert [step[:2] for step in steps] == [[1, n] for n in (2, 5, 8, 11, 14, 17, 20)]
    assert "7 of 20 steps" in text_of(folder)


@pytest.mark.program
def test_a_listing_beside_another_has_both_heads_and_their_difference(example, tool, tmp_path):
    plan = example("pumping_plans").with_name("two_wells.nam")
    base = plan.with_name("no_well.nam")
    for nam in (plan, base):
        assert tool("run", nam)[0] == 0
    words = plan.with_suffix(".heads"), tmp_path / "look", "--page", "--minus", base.with_suffix(".heads")
    assert tool("look", *words)[0] == 0
    fields = data_in(tmp_path / "look")["fields"]
    assert [(it["name"], it["kind"]) for it in fields] == [
        ("head", "head"), ("head of no_well.heads", "head"), ("head less that of no_well.heads", "change")
    ]
    assert fields[2]["less"] == [0, 1]


@pytest.mark.program
def test_a_map_of_a_cut_listing_says_so(example, tool, tmp_path):
    nam = example("pumping_test")
    assert tool("run", nam)[0] == 0
    text = nam.with_suffix(".heads").read_text()
    cut = tmp_path / "cut.heads"
    cut.write_text(text[: text.index("STEP 1 4")] + "NOBOUND 22 ConductanceTooLarge 1 4 1 1 1\n")
    status, said, _ = tool("look", cut, tmp_path / "look", "--page")
    assert status == 0 and "NOT A WHOLE RUN: the listing ends with `NOBOUND 22" in said
    shown = re.search('<p class="verdict ">(.*?)</p>', text_of(tmp_path / "look"))[1]
    assert shown.startswith("NOT A WHOLE RUN: the listing ends with NOBOUND 22")
    assert data_in(tmp_path / "look")["verdict"].startswith("NOT A WHOLE RUN")
    assert not data_in(tmp_path / "look")["is_certified"] and len(data_in(tmp_path / "look")["steps"]) == 3


@pytest.mark.program
def test_a_plan_whatever_the_weather_has_a_map_of_its_drawdown(example, tool, tmp_path):
    base = example("pumping_plans").with_name("no_well.nam")
    assert tool("drawdown", base, base.with_name("one_well.wel"), tmp_path / "down", "--any")[0] == 0
    folder = tmp_path / "down"
    with open(folder / "drawdown.csv", newline="") as file:
        rows = list(csv.DictReader(file))
    data = data_in(folder)
    (field,) = data["fields"]
    low, width = (unpacked(field[side], data["count"])[0] for side in ("low", "width"))
    assert (field["name"], field["kind"], data["tops"]) == ("drawdown", "fall", None)
    wanted = [[int(row[name].replace(".", "")) for row in rows] for name in ("drawdown_lower", "drawdown_upper")]
    assert [low.tolist(), (low + width).tolist()] == wanted


def large_listing(tmp_path, layers, rows, cols, steps):
    """A listing of heads that are smooth in space and time, with widths as settled runs have."""
    rng = np.random.default_rng(7)
    k, i, j = (axis.ravel() for axis in np.indices((layers, rows, cols)))
    cells = np.array([k, i, j]).T + 1
    space = 20 + np.sin(i / 9) + np.cos(j / 11) + 0.3 * k + rng.normal(0, 1e-3, len(k))
    made = []
    for n in range(steps):
        low = np.round((space + 0.5 * np.sin(n / 7 + i / 30)) * 1e9).astype(np.int64)
        made.append(Step(n // 5 + 1, n % 5 + 1, low, low + rng.integers(200, 5000, len(k))))
    return Listing(tmp_path / "large.heads", 12, 2, made, cells, "END")


def test_800_000_pairs_take_less_than_5_megabytes(tmp_path):
    listing = large_listing(tmp_path, 3, 60, 76, 60)
    begin = time.monotonic()
    look_at_map(listing, tmp_path / "look")
    seconds, size = time.monotonic() - begin, (tmp_path / "look" / "map.html").stat().st_size
    print(f"{len(listing.cells) * 60} pairs: {size} bytes, {seconds:.1f} s")
    assert len(listing.cells) * len(listing.steps) > 800_000
    assert size < 5_000_000
    # A machine with other work takes longer than the 2 s that it needs alone.
    assert seconds < 20
