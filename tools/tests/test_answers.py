"""A call in Python hands over the listing of its own run, and of no other; else it raises."""
import importlib
import io
import re
import sys
from concurrent.futures import ThreadPoolExecutor

import pytest
from conftest import heads

import heads_tools
from heads_tools import NoBounds, Problem, RunFailed

pytestmark = pytest.mark.program
WELL = (1, 8, 17)


@pytest.fixture
def valley(example):
    return example("river_valley")


def pumping(nam, rate):
    """The valley with another rate of its well."""
    wel = nam.with_suffix(".wel")
    wel.write_text(re.sub(r"(?m)^(1 8 17) \S+", rf"\1 {rate}", wel.read_text()))


def low_at_well(listing):
    return int(listing.steps[0].low[listing.at(WELL)])


def printed(words, folder):
    """The lower head at the well that the program itself prints."""
    line = next(l for l in heads(words, folder).stdout.split("\n") if l.startswith("HEAD 1 8 17 "))
    return int(line.split()[4].replace(".", ""))


def test_a_run_without_bounds_raises_and_hands_over_no_older_listing(valley):
    heads_tools.run(valley)
    pumping(valley, "-1e15")
    with pytest.raises(NoBounds) as raised:
        heads_tools.run(valley)
    last = heads(["run", valley.name], valley.parent).stdout.rstrip("\n").split("\n")[-1]
    error = raised.value
    words = "NOBOUND", error.code, error.word, error.period, error.step, *error.place
    assert " ".join(map(str, words)) == last == error.last
    assert error.status == 3 and error.cell == tuple(map(int, last.split()[5:8])) and "  -> " in str(error)
    assert valley.with_suffix(".heads").is_file(), "the older listing stays where it was"


def test_a_run_whose_words_are_not_taken_raises_and_names_the_word(valley):
    heads_tools.run(valley)
    with pytest.raises(RunFailed, match="`--digits 99`: a whole number from 0 to 18") as raised:
        heads_tools.run(valley, digits=99)
    assert raised.value.status == 1
    with pytest.raises(TypeError, match="digit"):
        heads_tools.run(valley, digit=9)


def test_a_refused_deck_raises(example):
    with pytest.raises(RunFailed, match="HOB only prints or compares") as raised:
        heads_tools.run(example("refused"))
    assert raised.value.status == 2 and not isinstance(raised.value, NoBounds)


@pytest.mark.spans
def test_the_listing_of_two_decks_is_that_of_two_decks(valley):
    folder = valley.parent / "two"
    heads_tools.between(valley, folder, wells="0..1")
    alone = heads_tools.run(folder / "from.nam").listing
    both = heads_tools.run(folder / "from.nam", to=folder / "to.nam")
    listing = both.listing
    assert listing.is_span and listing.path.name == "from-to.heads" and not alone.is_span
    assert low_at_well(listing) == printed(["run", "from.nam", "--to", "to.nam"], folder) < low_at_well(alone)


def test_two_listings_of_one_file_are_compared_as_they_were_read(valley, tmp_path):
    base = heads_tools.run(valley).listing
    pumping(valley, -2000)
    plan = heads_tools.run(valley).listing
    assert plan.path == base.path and low_at_well(plan) == printed(["run", valley.name], valley.parent)
    answer = heads_tools.drawdown(plan, base, tmp_path / "out", cell=[WELL])
    least = low_at_well(base) - int(plan.steps[0].high[plan.at(WELL)])
    assert least > 10**8 and f"lowers the head at layer 1 row 8 column 17 by {least // 10**6 / 1000}" in str(answer)
    table = (tmp_path / "out" / "drawdown.csv").read_text()
    assert f",1,8,17,{least // 10**9}.{least % 10**9:09d}," in table


def test_a_listing_whose_file_was_written_over_is_not_checked_by_the_new_bytes(valley, tmp_path):
    old = heads_tools.run(valley).listing
    pumping(valley, -2000)
    new = heads_tools.run(valley).listing
    assert heads_tools.look(new, tmp_path / "new", name=valley).is_good
    for call in (heads_tools.look, heads_tools.export):
        with pytest.raises(Problem, match="isn't the file any more that this listing was read from"):
            call(old, tmp_path / "old", name=valley)
    assert not (tmp_path / "old").exists()
    heads_tools.write_heads(tmp_path / "new.hds", new)
    with pytest.raises(Problem, match="isn't the file any more"):
        heads_tools.compare(old, tmp_path / "new.hds", name=valley)
    off = str(heads_tools.compare(old, tmp_path / "new.hds"))
    assert "Not checked" in off and "600 of 600 cells lie outside" in off
    page = heads_tools.look(old, tmp_path / "old")
    assert "Not checked" in str(page) and page.status == 0
    head = next(l for l in (tmp_path / "old" / "heads.csv").read_text().split("\n") if ",1,8,17," in l)
    assert head.split(",")[6].replace(".", "") == str(low_at_well(old))


def test_runs_in_threads_have_each_their_own_lines_and_the_process_keeps_its_streams(example, tmp_path):
    nam = example("three_cells")
    models = []
    for n in range(40):
        folder = tmp_path / f"m{n}"
        folder.mkdir()
        for file in nam.parent.iterdir():
            (folder / file.name.replace("a.nam", f"a{n}.nam")).write_bytes(file.read_bytes())
        models.append(folder / f"a{n}.nam")
    streams = sys.stdout, sys.stderr
    with ThreadPoolExecutor(4) as pool:
        answers = list(pool.map(heads_tools.run, models))
    assert (sys.stdout, sys.stderr) == streams
    for nam, answer in zip(models, answers):
        assert answer.lines[0] == "The run ended well (END)." and len(answer.lines) == 3
        assert answer.lines[-1].startswith(f"listing {nam.with_suffix('.heads')} (")
        assert answer.listing.path == nam.with_suffix(".heads").resolve()


def test_pages_in_threads_are_drawn(valley, tmp_path):
    listing = heads_tools.run(valley).listing
    with ThreadPoolExecutor(3) as pool:
        pages = [pool.submit(heads_tools.look, listing, tmp_path / str(n)) for n in range(3)]
    assert all(page.result().is_good for page in pages)
    shown = [sorted(f.name for f in (tmp_path / str(n)).iterdir()) for n in range(3)]
    assert shown[0] == shown[1] == shown[2] and "index.html" in shown[0]


def test_heads_that_are_not_certified_raise_and_leave_the_certified_listing(valley, tmp_path, monkeypatch):
    """The listing that is checked has the upper heads on both sides."""
    module = importlib.import_module("heads_tools.numbers.certify")
    heads_tools.write_heads(tmp_path / "m.hds", heads_tools.run(valley).listing)
    good = heads_tools.certify(valley, tmp_path / "m.hds").listing
    before = good.path.read_bytes()
    write = module.write_listing

    def spoilt(listing, model):
        for step in listing.steps:
            step.low = step.high
        write(listing, model)

    monkeypatch.setattr(module, "write_listing", spoilt)
    with pytest.raises(RunFailed, match="is no certificate") as raised:
        heads_tools.certify(valley, tmp_path / "m.hds")
    assert raised.value.status == 8 and good.path.read_bytes() == before and good.path.name == "m.certified.heads"


def test_a_command_writes_to_the_stream_that_it_is_given(valley):
    from heads_tools.answers import arguments
    from heads_tools.commands import command

    args, rest = arguments("model", {"nam": valley}, {})
    stream = io.StringIO()
    assert command("model").do(args, rest, stream) == 0 and "600 cells" in stream.getvalue()


def test_a_quiet_run_says_nothing_on_standard_error(valley, capfd):
    heads_tools.run(valley)
    assert "step 1 of 1" in capfd.readouterr().err
    assert heads_tools.run(valley, quiet=True).is_good and "step 1 of 1" not in capfd.readouterr().err


def test_a_range_may_be_a_pair_of_numbers(valley, tmp_path):
    for name, span in (("a", (0, 1.5)), ("b", "0..1.5")):
        heads_tools.between(valley, tmp_path / name, wells=span)
    assert (tmp_path / "a" / "to.wel").read_text() == (tmp_path / "b" / "to.wel").read_text()


def test_steps_and_cells_of_a_listing_are_found(example):
    listing = heads_tools.run(example("tide"), quiet=True).listing
    assert listing.step_at(3, 2) is listing.steps[9]
    low, high = listing.series((1, 1, 20))
    assert list(low) == list(listing.lower()[:, 0, 0, 19]) and list(high) == list(listing.upper()[:, 0, 0, 19])
    with pytest.raises(Problem, match="has no period 13 step 1"):
        listing.step_at(13, 1)


def test_an_answer_without_a_listing_says_so(valley):
    with pytest.raises(Problem, match="inside wrote no listing"):
        heads_tools.inside(valley).listing


def test_what_a_verdict_is_of_is_not_mixed_up(valley, tmp_path):
    pytest.importorskip("xarray")
    old = heads_tools.run(valley).listing
    verdict = heads_tools.check(valley, old)
    assert verdict.is_certified and verdict.sha256 == old.sha256
    model = heads_tools.read_model(valley)
    assert "CERTIFIED" in heads_tools.to_xarray(old, model, verdict=verdict).attrs["verdict"]
    pumping(valley, -2000)
    new = heads_tools.run(valley).listing
    with pytest.raises(Problem, match="the verdict is that on another listing"):
        heads_tools.to_xarray(new, model, verdict=verdict)
