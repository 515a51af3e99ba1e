"""Pages and tables are called certified only where `heads check` said so."""
import re

import pytest
from conftest import heads


@pytest.fixture
def listed(example):
    """The listing of three_cells as the program wrote it, or changed; in a folder whose name has a blank."""

    def write(change=lambda text: text):
        nam = example("three_cells")
        path = nam.parent / "a folder" / "m.heads"
        path.parent.mkdir()
        path.write_text(change(heads(["run", nam.name], nam.parent).stdout))
        return nam, path

    return write


def page_of(folder):
    return (folder / "index.html").read_text()


@pytest.mark.program
def test_a_certified_listing_is_called_so(listed, tool, tmp_path):
    nam, path = listed()
    status, out, err = tool("look", path, tmp_path / "look", "--name", nam)
    assert status == 0 and "heads check: CERTIFIED" in out, err
    assert "Certified heads of m.heads" in page_of(tmp_path / "look")


@pytest.mark.program
def test_without_the_model_nothing_is_called_certified(listed, tool, tmp_path):
    status, out, err = tool("look", listed()[1], tmp_path / "look")
    page = page_of(tmp_path / "look")
    assert status == 0 and "Heads listed in m.heads (not checked)" in page and "Not checked" in out
    assert "Certified heads of" not in page and "heads check: CERTIFIED" not in page


@pytest.mark.program
@pytest.mark.parametrize(
    "change, status, last",
    [
        (
            lambda text: text.replace("15.000000000 15.000000000", "115.000000000 115.000000000"),
            8,
            "NOT CERTIFIED 1 1 1 1 2 LOW",
        ),
        (lambda text: text.replace("END\n", ""), 2, "BadListing"),
    ],
)
def test_a_spoilt_listing_is_not_called_certified(change, status, last, listed, tool, tmp_path):
    nam, path = listed(change)
    got, out, err = tool("look", path, tmp_path / "look", "--name", nam)
    page = page_of(tmp_path / "look")
    assert got == status and last in out and "NOT CERTIFIED" in page, out + err
    assert "Certified heads of" not in page and "certified when this page was made" not in page
    (tmp_path / "given.csv").write_text("layer,row,col,head\n1,1,2,15\n")
    got, out, err = tool("compare", path, tmp_path / "given.csv", "--name", nam)
    assert got == status and ("no certified bounds" in out or "isn't whole: it ends with" in err)


@pytest.fixture
def zoned(example):
    """The model of river_valley, its listing with three zones, and its zone file."""
    nam = example("river_valley")
    listing = nam.parent / "m.heads"
    listing.write_text(heads(["run", nam.name, "--zones", "m.zon"], nam.parent).stdout)
    assert re.search("^ZONE 1 2 ", listing.read_text(), re.M)
    return nam, listing, nam.parent / "m.zon"


@pytest.mark.program
def test_zone_flows_are_not_called_checked_without_their_zone_file(zoned, tool, tmp_path):
    nam, listing, _ = zoned
    (tmp_path / "given.csv").write_text("layer,row,col,head\n1,1,2,15\n")
    status, out, err = tool("compare", listing, tmp_path / "given.csv", "--name", nam)
    assert status == 0 and "CERTIFIED" in out and "flows between zones weren't checked" in out
    assert "where heads are given" in out.strip().split("\n")[-1]
    status, out, err = tool("check", nam, listing)
    assert status == 0 and "CERTIFIED" in out and "flows between zones weren't checked" in out


@pytest.mark.program
def test_zone_flows_are_checked_with_their_zone_file(zoned, tool, tmp_path):
    nam, listing, zones = zoned
    (tmp_path / "given.csv").write_text("layer,row,col,head\n1,1,2,15\n")
    for words in (
        ("check", nam, listing),
        ("compare", listing, tmp_path / "given.csv", "--name", nam),
        ("look", listing, tmp_path / "look", "--name", nam),
        ("drawdown", listing, listing, tmp_path / "drawdown", "--name", nam, "--base-name", nam),
    ):
        status, out, err = tool(*words, "--zones", zones)
        assert status == 0 and "CERTIFIED" in out and "weren't checked" not in out, out + err
    assert "heads.csv, budget.csv and zones.csv" in page_of(tmp_path / "look")


@pytest.mark.program
@pytest.mark.parametrize(
    "old, new, status, last",
    [
        ("ZONE 1 2 1559.999366885787226153463", "ZONE 1 2 1559.999366885787226153464", 8, "NOT CERTIFIED 1 1 ZONE 1 2"),
        ("1320.000649081855037078550", "1320.000649081855037078549", 8, "NOT CERTIFIED 1 1 ZONE 2 3"),
        ("ZONE 2 3", "ZONE 1 3", 2, "REFUSED 20 BadListing m.heads 618"),
    ],
)
def test_a_spoilt_flow_between_zones_is_found(old, new, status, last, zoned, tool):
    nam, listing, zones = zoned
    text = listing.read_text()
    assert text.count(old) == 1
    listing.write_text(text.replace(old, new))
    got, out, err = tool("check", nam, listing, "--zones", zones)
    assert got == status and last in out, out + err


@pytest.mark.program
def test_a_zone_file_that_is_refused_is_named(zoned, tool, tmp_path):
    nam, listing, _ = zoned
    zones = tmp_path / "other zones.zon"
    zones.write_text("CONSTANT 1000\n")
    status, out, err = tool("check", nam, listing, "--zones", zones)
    assert status == 2 and "REFUSED 15 BadProperty other zones.zon 0 1 1 1" in out, out + err


@pytest.mark.program
@pytest.mark.parametrize(
    "change, told",
    (
        (lambda text: text[:-4], "isn't whole"),
        (lambda text: text.replace("HEAD 1 1 3", "HEAD 1 1 4"), "another model"),
        (lambda text: text.replace("UNIT 2", "UNIT 1"), "isn't of the form due at this line"),
        (lambda text: text.replace("HEAD 1 1 2 15.0", "HEAD 1 1 2 15.1"), "isn't a certificate: period 1 step 1, 1 1 2"),
    ),
)
def test_check_says_why_a_listing_is_not_certified(listed, tool, change, told):
    nam, path = listed(change)
    status, out, err = tool("check", nam, path)
    assert status in (2, 8) and "no certified bounds" in out and told in out, out + err
