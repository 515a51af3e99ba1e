"""Calls from Python: ends as exceptions or as statuses, heads by period and step, tables, axes, short reprs."""
import inspect
from pathlib import Path

import numpy as np
import pytest
from conftest import TOOLS

import heads_tools
from heads_tools import NoBounds, Problem, RunFailed, read_model

pytestmark = pytest.mark.program


@pytest.fixture
def tide(example):
    nam = example("tide")
    return nam, read_model(nam), heads_tools.run(nam, quiet=True).listing


def test_a_run_ends_by_an_exception_or_by_its_status(example):
    """As FloPy's run_simulation: success, lines."""
    success, lines = heads_tools.run(example("three_cells"), quiet=True, check=False)
    assert success is True and lines[0].startswith("The run ended well")
    nam = example("no_answer")
    answer = heads_tools.run(nam, quiet=True, check=False)
    success, lines = answer
    assert success is False and answer.status == 3 and "NOBOUND" in str(answer) or "Nothing holds" in str(answer)
    with pytest.raises(Problem, match="wrote no listing"):
        answer.listing
    with pytest.raises(NoBounds):
        heads_tools.run(nam, quiet=True)
    with pytest.raises(RunFailed):
        heads_tools.run(example("refused"), quiet=True)


def test_heads_are_found_as_flopy_names_steps(tide):
    _, model, listing = tide
    lower, upper = listing.at(kstpkper=(3, 11))
    assert np.array_equal(lower, listing.lower()[-1]) and np.array_equal(upper, listing.upper()[-1])
    assert np.array_equal(listing.at(kstpkper=(1, 0)).upper, listing.upper()[1])
    total = model.times[1, 3][1]
    assert np.array_equal(listing.at(totim=total, times=model.times).lower, listing.lower()[2])
    low, high = listing.series((1, 1, 20))
    assert low[2] == listing.at(totim=total, times=model.times).lower[0, 0, 19]
    for wrong in ({}, {"kstpkper": (0, 0), "totim": 1.0}, {"kstpkper": (9, 0)}, {"totim": 77.0, "times": model.times}):
        with pytest.raises(Problem):
            listing.at(**wrong)
    with pytest.raises(Problem, match="times=model.times"):
        listing.at(totim=total)


def test_heads_are_drawn_into_given_axes(tide):
    from matplotlib.figure import Figure

    nam, model, listing = tide
    ax = Figure().add_subplot()
    assert heads_tools.plot(listing, model, ax) is ax
    (mesh,) = ax.collections
    middle = (listing.lower()[-1] + listing.upper()[-1]) / 2
    assert np.array_equal(mesh.get_array().compressed(), middle[0].ravel()) and "x in" in ax.get_xlabel()
    first = heads_tools.plot(listing, layer=1, kstpkper=(0, 0), side="upper")
    assert np.array_equal(first.collections[0].get_array().compressed(), listing.upper()[0].ravel())
    for wrong in ({"layer": 2}, {"side": "best"}, {"kstpkper": (7, 7)}):
        with pytest.raises(Problem):
            heads_tools.plot(listing, **wrong)


def test_flows_between_zones_are_tables(example):
    pytest.importorskip("pandas")
    nam = example("river_valley")
    listing = heads_tools.run(nam, zones=nam.with_name("m.zon"), quiet=True).listing
    flows = heads_tools.zones_frame(listing)
    assert list(flows.columns) == ["period", "step", "from", "to", "lower", "upper"] and len(flows) == 2
    assert "verdict" in flows.attrs
    budget = heads_tools.zones_frame(listing, read_model(nam), nam.with_name("m.zon"))
    wells = budget[(budget.zone == 3) & (budget.term == "WELLS")].iloc[0]
    assert wells.out_lower <= 3000 <= wells.out_upper and wells.net_lower <= -3000 <= wells.net_upper
    with pytest.raises(Problem, match="needs the model"):
        heads_tools.zones_frame(listing, zones=nam.with_name("m.zon"))


def test_all_commands_are_calls_with_named_options():
    from heads_tools.commands import HELP

    others = {"explain", "model", "mf2005", "version"}  # words for people, and a stand-in for a program
    for name in set(HELP) - others:
        call = getattr(heads_tools, name)
        given = inspect.signature(call).parameters.values()
        assert call.__doc__ and "return" in call.__annotations__, name
        assert all(each.annotation is not inspect.Parameter.empty for each in given), name
    assert (TOOLS / "heads_tools" / "py.typed").is_file()


def test_a_batch_its_plans_and_an_exhibit_are_calls(example, tmp_path):
    nam = example("pumping_plans")
    names = nam.parent / "plans.list"
    names.write_text("no_well.nam\ntwo_wells.nam\n")
    answer = heads_tools.batch(names)
    assert answer.is_good and "2 models" in answer.lines[-1]
    page = heads_tools.plans(names, tmp_path / "plans", cell=(1, 8, 17))
    assert page.is_good and (tmp_path / "plans" / "index.html").is_file()
    exhibit = heads_tools.exhibit(nam.parent / "two_wells.nam", tmp_path / "exhibit")
    assert exhibit.is_good and (tmp_path / "exhibit" / "judge.html").is_file()


def test_what_is_shown_of_an_object_is_one_line(tide, tmp_path):
    nam, model, listing = tide
    heads_tools.write_heads(tmp_path / "m.hds", listing)
    heads = heads_tools.read_heads(tmp_path / "m.hds")
    shown = {
        repr(model.deck): "<deck m.nam: 1 x 1 x 60 cells, 12 periods, DIS BAS6 LPF CHD>",
        repr(model.deck.delr): "<array of 1 x 60: 50>",
        repr(heads): "<heads of 48 steps, 1 x 1 x 60 cells>",
    }
    for text, due in shown.items():
        assert "\n" not in text and len(text) < 100
        assert text.split(":")[0].split(" of ")[0] == due.split(":")[0].split(" of ")[0], text
    assert repr(model) == "<model m.nam: 1 x 1 x 60 cells, 48 time steps>"
    assert repr(heads_tools.check(nam, listing)) == f"<{listing.path.name}: CERTIFIED>"


def test_the_lines_of_the_page_run_as_they_stand(example, monkeypatch):
    """Those of tools/README.md, in the folder of a model."""
    for name in ("matplotlib", "pandas", "xarray", "netCDF4"):
        pytest.importorskip(name)
    lines = (TOOLS / "README.md").read_text(encoding="utf-8").splitlines()
    begin = lines.index("    import heads_tools")
    end = next(n for n in range(begin, len(lines)) if not lines[n].startswith("    "))
    monkeypatch.chdir(example("river_valley").parent)
    names: dict = {}
    exec("\n".join(line[4:] for line in lines[begin:end]), names)
    assert names["success"] is True and names["verdict"].is_certified and Path("m.nc").stat().st_size > 1000


def test_an_editable_install_gives_the_package_and_its_commands(tmp_path):
    """What `pip install -e tools` needs: the metadata names each folder, and the commands exist."""
    text = (TOOLS / "pyproject.toml").read_text()
    for line in text.split("[project.scripts]")[1].split("[")[0].strip().splitlines():
        module, function = line.split('"')[1].split(":")
        assert callable(getattr(__import__(module, fromlist=[function]), function))
    folders = [name for name in text.split('"') if name.startswith("heads_tools.") and ":" not in name]
    assert len(folders) > 8 and all((TOOLS / Path(*name.split("."))).is_dir() for name in folders)
