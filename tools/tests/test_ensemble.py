"""Templates of a deck, and samples run from them."""
import csv
from fractions import Fraction

import pytest
from conftest import heads

pytestmark = pytest.mark.program


@pytest.fixture
def template(example, tool, tmp_path):
    nam = example("drained_field")
    status, out, err = tool("template", nam, tmp_path / "template")
    assert status == 0 and "m.lpf.tpl" in out, out + err
    folder = tmp_path / "template"
    return folder / "m.nam", [word for path in sorted(folder.glob("*.tpl")) for word in ("--tpl", path)]


def values_of(nam):
    return [line.split(",") for line in (nam.parent / "values.csv").read_text().splitlines()]


def test_the_decks_own_values_give_its_own_listing(template, example, tool, tmp_path):
    nam, tpl = template
    marks, now = values_of(nam)
    assert "hk_1" in marks and "rech_1" in marks and "evtr_1" in marks
    assert (nam.parent / "m.lpf.tpl").read_text().startswith("ptf @\n")
    status, out, err = tool("ensemble", nam, nam.parent / "values.csv", tmp_path / "out", *tpl, "--cell", "1,11,8")
    assert status == 0 and "They are no bounds" in out, out + err
    own = heads(["run", "m.nam"], tmp_path / "drained_field").stdout
    assert (tmp_path / "out" / "now" / "m.heads").read_text() == own


def test_least_and_most_are_those_of_the_samples(template, tool, tmp_path):
    nam, tpl = template
    marks, now = values_of(nam)
    at = marks.index("hk_1")
    rows = [["name", *marks[1:]]]
    for name, factor in (("low", Fraction(1, 2)), ("high", Fraction(2)), ("none", Fraction(0))):
        values = now[1:]
        values[at - 1] = str(float(Fraction(values[at - 1]) * factor))
        rows.append([name, *values])
    table = tmp_path / "values.csv"
    table.write_text("\n".join(map(",".join, rows)) + "\n")
    words = "ensemble", nam, table, tmp_path / "out", *tpl, "--cell", "1,11,8"
    status, out, err = tool(*words)
    assert status == 2 and "2 samples of 3 ended with a listing" in out and "none/m.nam: BadProperty" in out, out + err
    single = {}
    for name in ("low", "high"):
        text = heads(["run", "m.nam"], tmp_path / "out" / name).stdout
        assert (tmp_path / "out" / name / "m.heads").read_text() == text
        single[name] = next(line.split() for line in text.splitlines() if line.startswith("HEAD 1 11 8 "))[4:6]
    (row,) = csv.DictReader((tmp_path / "out" / "least_most.csv").open())
    assert row["least"] == min((low for low, _ in single.values()), key=Fraction)
    assert row["most"] == max((high for _, high in single.values()), key=Fraction) and row["samples"] == "2"
    # A sample of the call before isn't kept beside those of this one.
    table.write_text("\n".join(map(",".join, rows[:2])) + "\n")
    assert tool(*words)[0] == 0
    assert (tmp_path / "out" / "low").is_dir() and not (tmp_path / "out" / "high").exists()


@pytest.mark.parametrize(
    "change, said",
    [
        (lambda text: text.replace("hk_1", "hk_7"), "lacks the column hk_1, which a template marks"),
        (lambda text: text.replace("name", "name,more").replace("now", "now,1"), "has the column more"),
        (lambda text: text.replace("now,", "now,x", 1), "is no number"),
        (lambda text: text.replace("now,", "now,1.2345678901234567890", 1), "more than 18 digits"),
        (lambda text: text.rstrip("\n").rsplit(",", 1)[0] + "\n", "values, and"),
        (lambda text: text.split("\n")[0] + "\n", "has no sample"),
    ],
)
def test_what_is_wrong_with_a_table_is_said(change, said, template, tool, tmp_path):
    nam, tpl = template
    table = tmp_path / "values.csv"
    table.write_text(change((nam.parent / "values.csv").read_text()))
    status, _, err = tool("ensemble", nam, table, tmp_path / "out", *tpl, "--cell", "1,11,8")
    assert status == 2 and said in err and not (tmp_path / "out").exists(), err


def test_wrong_templates_and_places_are_said(template, tool, tmp_path):
    nam, tpl = template
    table, out = nam.parent / "values.csv", tmp_path / "out"
    (tmp_path / "m.xyz.tpl").write_text("ptf @\n@hk_1@\n")
    (tmp_path / "bare.tpl").write_text("@hk_1@\n")
    for words, said in (
        ([], "ensemble needs a template"),
        ([*tpl], "ensemble needs a place"),
        (["--tpl", tmp_path / "m.xyz.tpl", "--cell", "1,1,1"], "makes no file of m.nam"),
        (["--tpl", tmp_path / "bare.tpl", "--cell", "1,1,1"], "is no template"),
        ([*tpl, "--cell", "1,99,1"], "1,99,1"),
    ):
        status, _, err = tool("ensemble", nam, table, out, *words)
        assert status == 2 and said in err and not out.exists(), err
