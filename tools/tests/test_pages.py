"""Pages for a report or a court: what each says of itself, and what none may show."""
import os
import re

import pytest
from conftest import TOP

import heads_tools
from heads_tools import read_listing
from heads_tools.pages.page import Page, write_page
from heads_tools.pages.templates import bare, shown
from heads_tools.common.text import sha256

STEPS = """HEADS 2 DIGITS 0 UNIT 2
STEP 1 1
HEAD 1 1 1 9.000000000 9.100000000
HEAD 1 1 2 5.000000000 5.000000000
IN {0}.000000000 {0}.000000000 RIVER LEAKAGE
OUT {0}.000000000 {0}.000000000 WELLS
STEP 1 2
HEAD 1 1 1 {1}.000000000 {1}.100000000
HEAD 1 1 2 5.000000000 5.000000000
IN {2}.000000000 {2}.000000000 RIVER LEAKAGE
OUT {2}.000000000 {2}.000000000 WELLS
STEP 1 3
HEAD 1 1 1 9.000000000 9.100000000
HEAD 1 1 2 {3}.000000000 {3}.000000000
IN 0.000000000 0.000000000 RIVER LEAKAGE
OUT 0.000000000 0.000000000 WELLS
END
"""


def facts(text):
    return dict(re.findall(r"<tr><td>([^<]*)</td><td>(.*?)</td></tr>", text.partition("</table>")[0]))


@pytest.fixture
def plans(example, tool):
    nam = example("pumping_plans")
    assert tool("batch", nam.with_name("plans.list"))[0] == 0
    return nam.parent


def test_no_text_of_a_page_is_taken_for_html(tmp_path):
    """Titles, facts, cells of tables, captions, names of files and links, each with what HTML would read otherwise."""
    odd = "<b>&\"'"
    page = Page(odd, [odd], note=odd, verdict=odd, facts=[(odd, odd)], has_svg=True, files=[odd])
    page.picture("A room", f"{odd}.png", odd, fold=odd)
    page.table("A room", [odd], [[odd]], fold=odd, is_sorted=True)
    page.text(odd, odd)
    page.map("A room", odd, odd)
    write_page(page, tmp_path)
    text = (tmp_path / "index.html").read_text()
    assert "<b>" not in text and text.count("&lt;b&gt;&amp;&#34;&#39;") == 22 and text.count("<h2") == 3


def test_what_stands_between_backticks_is_code_and_no_folder_is_shown():
    assert shown("by `heads run m.nam` & more") == "by <code>heads run m.nam</code> &amp; more"
    assert shown("HEADS names /home/maker/dist/heads, and m³/d") == "HEADS names heads, and m³/d"
    assert bare("by `heads`, /a/b/c.heads") == "by heads, c.heads"


def test_a_page_names_the_files_that_were_written_with_it_alone(tmp_path):
    (tmp_path / "zones.csv").write_text("of an earlier run\n")
    write_page(Page("a page", files=["heads.csv"]), tmp_path)
    text = (tmp_path / "index.html").read_text()
    assert 'href="heads.csv"' in text and "zones.csv" not in text


@pytest.mark.program
def test_no_page_shows_a_folder_of_the_machine_or_a_backtick(plans, tool, tmp_path):
    two, none = plans / "two_wells.heads", plans / "no_well.heads"
    names = ["--name", plans / "two_wells.nam", "--base-name", plans / "no_well.nam"]
    assert tool("drawdown", two, none, tmp_path / "fall", *names)[0] == 0
    assert tool("plans", plans / "plans.list", tmp_path / "page")[0] == 0
    assert tool("look", two, tmp_path / "look", *names[:2], "--minus", none)[0] == 0
    assert tool("exhibit", plans / "two_wells.nam", tmp_path / "exhibit")[0] == 0
    pages = [*tmp_path.rglob("*.html"), tmp_path / "exhibit" / "EXHIBIT.txt"]
    assert len(pages) == 9
    for path in pages:
        text = path.read_text()
        for folder in (str(tmp_path), str(TOP), os.path.dirname(os.environ["HEADS"])):
            assert folder not in text, path
        without_scripts = re.sub("<script>.*?</script>", "", text, flags=re.S)
        assert "`" not in without_scripts or path.suffix == ".txt", path


@pytest.mark.program
def test_the_pages_of_plans_say_what_was_compared_and_checked(plans, tool, tmp_path):
    names = ["--name", plans / "two_wells.nam", "--base-name", plans / "no_well.nam"]
    tool("drawdown", plans / "two_wells.heads", plans / "no_well.heads", tmp_path / "fall", *names)
    tool("plans", plans / "plans.list", tmp_path / "page")
    titles = ("fall", "two wells: two_wells against no_well"), ("page", "no well: 2 plans against no_well.nam")
    for folder, title in titles:
        text = (tmp_path / folder / "index.html").read_text()
        found = facts(text)
        assert f"<h1>{title}</h1>" in text and '<p class="verdict yes">heads check: CERTIFIED, all' in text
        assert re.search("heads.*, sha256 [0-9a-f]{64}", found["Checked by"])
        assert re.search(r"heads-tools \S+, \d{4}-\d\d-\d\d \d\d:\d\d UTC", found["Made by"])
        assert re.search("no_well.heads.* sha256 [0-9a-f]{64}", found["Base"])


@pytest.mark.program
def test_a_page_of_listings_that_were_not_checked_or_not_certified_says_so(plans, tool, tmp_path):
    two, none = plans / "two_wells.heads", plans / "no_well.heads"
    tool("drawdown", two, none, tmp_path / "fall")
    assert '<p class="verdict ">Not checked: two_wells.heads' in (tmp_path / "fall" / "index.html").read_text()
    two.write_text(re.sub("(?m)^(HEAD 1 5 13 )", r"\g<1>1", two.read_text()))
    assert tool("drawdown", two, none, tmp_path / "fall", "--name", plans / "two_wells.nam")[0] == 8
    assert '<p class="verdict no">NOT CERTIFIED: two_wells.heads' in (tmp_path / "fall" / "index.html").read_text()


@pytest.mark.program
def test_the_page_of_plans_begins_with_a_table_that_sorts(plans, tool, tmp_path):
    tool("plans", plans / "plans.list", tmp_path / "page", "--cell", "1,5,13")
    text = (tmp_path / "page" / "index.html").read_text()
    first = text[text.index("<h2") :]
    assert "<ul>" not in text and first.index('<table class="sort">') < first.index("<img")
    assert "4.048615549" in first and "addEventListener" not in text and "<script>" in text and "src=\"http" not in text
    (plans / "one_well.heads").unlink()
    tool("plans", plans / "plans.list", tmp_path / "again")
    assert "<td>it has no listing one_well.heads</td>" in (tmp_path / "again" / "index.html").read_text()


def test_the_deepest_drawdown_of_all_steps_is_named_and_drawn(tool, tmp_path):
    (tmp_path / "base.heads").write_text(STEPS.format(0, 9, 0, 5))
    (tmp_path / "plan.heads").write_text(STEPS.format(2, 6, 7, 4))
    status, out, err = tool("drawdown", tmp_path / "plan.heads", tmp_path / "base.heads", tmp_path / "fall")
    assert status == 0, out + err
    lowers = "the plan lowers the head at layer 1 row 1 column"
    assert f"At the end of period 1 step 3, {lowers} 2 by 1.000" in out
    assert f"The deepest of all 3 steps: at the end of period 1 step 2, {lowers} 1 by 2.900" in out
    text = (tmp_path / "fall" / "index.html").read_text()
    assert "drawdown_curves.png" in text and "budget_curves.png" in text
    assert "<td>RIVER LEAKAGE</td><td>period 1 step 2</td><td>7.000000</td><td>7.000000</td>" in text


@pytest.mark.program
def test_the_judges_page_names_each_fact_apart(example, tool, tmp_path):
    tool("exhibit", example("three_cells"), tmp_path / "exhibit")
    text = (tmp_path / "exhibit" / "judge.html").read_text()
    names = re.findall("<dt>(.*?)</dt>", text)
    assert len(names) == len(set(names)) and {"program", "its sha256", "its sources", "its kit", "made"} <= set(names)


def test_a_page_names_the_bytes_of_the_listing_that_it_shows(tmp_path):
    """A listing in memory keeps its own hash where its file was written anew."""
    path = tmp_path / "m.heads"
    path.write_text(STEPS.format(0, 9, 0, 5))
    shown_digest, listing = sha256(path), read_listing(path)
    path.write_text(STEPS.format(2, 6, 7, 4))
    assert heads_tools.look(listing, tmp_path / "look").is_good
    text = (tmp_path / "look" / "index.html").read_text()
    assert shown_digest in text and sha256(path) not in text
