"""The interactive map as Chromium and Firefox show it: the digits of a listing at cells drawn by lot, keys, pointer,
drawdowns, colours, and a figure."""
import random
import re
import shutil
import sys
from decimal import Decimal
from pathlib import Path

import numpy as np
import pytest

from heads_tools.deck.model import read_model

pytest.importorskip("websocket")
sys.path.insert(0, str(Path(__file__).resolve().parents[2] / "ports" / "tests"))
from browsers import Browser  # noqa: E402

pytestmark = pytest.mark.program
NEEDED = {"chromium": "chromedriver", "firefox": "firefox-esr"}
RIGHT, DOWN, ENTER, ESCAPE, PAGE_DOWN = "\ue014", "\ue015", "\ue006", "\ue00c", "\ue00f"
SAID = "document.querySelector('.said .pair').textContent"
# Chooses layer, step and quantity, points at a part of the map's width and height, and answers what the page says.
POINTED = """(({ layer, step, across, down }) => {
    const root = document.getElementById("heads-map"), form = root.querySelector(".choices").elements;
    form.layer.value = layer;
    form.layer.dispatchEvent(new Event("change"));
    form.step.value = step;
    form.step.dispatchEvent(new Event("input"));
    const canvas = root.querySelector(".map"), box = canvas.getBoundingClientRect();
    const at = { clientX: box.left + across * box.width, clientY: box.top + down * box.height, bubbles: true };
    canvas.dispatchEvent(new PointerEvent("pointermove", at));
    return root.querySelector(".said .pair").textContent;
})(%s)"""


@pytest.fixture(scope="module", params=NEEDED)
def browser(request):
    if not shutil.which(NEEDED[request.param]):
        pytest.skip(f"{NEEDED[request.param]} isn't installed")
    made = Browser(request.param)
    yield made
    made.close()


@pytest.fixture
def opened(browser, example, tool, tmp_path):
    """An example's map, open: its model and the lines of its listing by period, step, layer, row and column."""

    def open_example(name, *words, anchor=""):
        nam = example(name)
        assert tool("run", nam)[0] == 0
        listing = nam.with_suffix(".heads")
        assert tool("look", listing, tmp_path / "look", "--page", "--name", nam, *words)[0] == 0
        open_page(browser, tmp_path / "look" / "map.html", anchor)
        return read_model(nam), heads_in(listing)

    return open_example


def open_page(browser, page, anchor=""):
    browser.open("about:blank")
    browser.open(page.as_uri() + anchor)
    browser.wait("document.querySelectorAll('.heads-map [name=shows] option').length > 0")


def heads_in(listing):
    """The pairs of a listing as they stand there."""
    found, step = {}, ()
    for line in listing.read_text().splitlines():
        word, *rest = line.split()
        if word == "STEP":
            step = tuple(map(int, rest))
        if word == "HEAD":
            found[step + tuple(map(int, rest[:3]))] = tuple(rest[3:])
    return found


def middle(widths, number):
    """The middle of a column or row, as a part of the whole."""
    edges = np.concatenate([[0], np.cumsum(widths)])
    return float((edges[number - 1] + edges[number]) / 2 / edges[-1])


def said_at(browser, model, steps, key):
    period, step, layer, row, column = key
    asked = {"layer": layer - 1, "step": steps.index((period, step))}
    asked |= {"across": middle(model.delr, column), "down": middle(model.delc, row)}
    return browser.evaluate(POINTED % asked)


@pytest.mark.parametrize("name", ["three_aquifers", "pumping_test"])
def test_at_200_cells_it_shows_what_the_listing_has(opened, browser, name):
    model, heads = opened(name)
    steps = sorted({key[:2] for key in heads})
    for key in random.Random(77).sample(sorted(heads), 200):
        low, high = heads[key]
        wanted = "layer {} row {} column {}: head from {} to {} m".format(*key[2:], low, high)
        assert said_at(browser, model, steps, key) == wanted


def test_a_drawdown_is_the_exact_difference_of_both_listings(browser, example, tool, tmp_path):
    plan = example("pumping_plans").with_name("two_wells.nam")
    base = plan.with_name("no_well.nam")
    for nam in (plan, base):
        assert tool("run", nam)[0] == 0
    words = plan.with_suffix(".heads"), base.with_suffix(".heads"), tmp_path / "down", "--name", plan
    assert tool("drawdown", *words)[0] == 0
    open_page(browser, tmp_path / "down" / "map.html")
    model, ours, others = read_model(plan), heads_in(plan.with_suffix(".heads")), heads_in(base.with_suffix(".heads"))
    for key in random.Random(5).sample(sorted(ours), 100):
        (low, high), (base_low, base_high) = ours[key], others[key]
        least, most = (f"{Decimal(a) - Decimal(b):.9f}" for a, b in ((base_low, high), (base_high, low)))
        said = said_at(browser, model, [(1, 1)], key)
        assert said.endswith(f"drawdown from {least} to {most} m"), said
        assert f"head of no_well.heads from {base_low} to {base_high} m" in said


def test_keys_go_from_cell_to_cell_through_steps_and_layers(opened, browser):
    _, heads = opened("three_aquifers")
    browser.evaluate("document.querySelector('.heads-map .map').focus()")
    browser.press(DOWN, RIGHT, RIGHT, PAGE_DOWN)
    low, high = heads[1, 1, 2, 2, 3]
    assert browser.evaluate(SAID) == f"layer 2 row 2 column 3: head from {low} to {high} m"
    browser.press(ENTER)
    kept = browser.evaluate("document.querySelector('.heads-map .kept').textContent")
    assert kept.strip().endswith("layer 2 row 2 column 3 ×")
    assert not browser.evaluate("document.querySelector('.heads-map .section').hidden")
    browser.press(ESCAPE)
    assert browser.evaluate("document.querySelector('.heads-map .section').hidden")


def test_a_step_is_chosen_by_its_key_and_a_click_keeps_a_cell(opened, browser):
    model, heads = opened("pumping_test")
    said_at(browser, model, [(1, n) for n in range(1, 21)], (1, 20, 1, 13, 13))
    browser.evaluate("document.querySelector('.heads-map .map').focus()")
    browser.press(",", ",")
    low, high = heads[1, 18, 1, 13, 13]
    assert browser.evaluate(SAID) == f"layer 1 row 13 column 13: head from {low} to {high} m"
    assert browser.evaluate("document.querySelector('.heads-map .when').textContent").startswith("period 1 step 18, ")
    browser.evaluate("""(() => {
        const canvas = document.querySelector(".heads-map .map"), box = canvas.getBoundingClientRect();
        const at = { clientX: box.left + box.width / 2, clientY: box.top + box.height / 2, bubbles: true };
        canvas.dispatchEvent(new PointerEvent("pointerdown", at));
        canvas.dispatchEvent(new MouseEvent("click", at));
    })()""")
    assert not browser.evaluate("document.querySelector('.heads-map .hydrographs').hidden")


def test_the_address_names_step_layer_and_cells(opened, browser):
    _, heads = opened("three_aquifers", anchor="#layer=3&cell=3,8,8;3,5,15")
    low, high = heads[1, 1, 3, 5, 15]
    assert browser.evaluate(SAID) == f"layer 3 row 5 column 15: head from {low} to {high} m"
    assert browser.evaluate("document.querySelectorAll('.heads-map .kept button').length") == 2


def test_the_cells_with_the_least_and_the_greatest_head_have_the_ends_of_the_colours(opened, browser):
    model, heads = opened("river_valley")
    for box in ("contours", "[value=RIV]", "[value=WEL]"):
        selector = f"[name={box}]" if "[" not in box else box
        browser.evaluate(f"document.querySelector('.heads-map {selector}').click()")
    for choose, colour in ((min, "68,1,84"), (max, "253,231,37")):
        key = choose(heads, key=lambda key: Decimal(heads[key][0]))
        x, y = middle(model.delr, key[4]), middle(model.delc, key[3])
        asked = f"(canvas => canvas.getContext('2d').getImageData({x} * canvas.width, {y} * canvas.height, 1, 1).data)"
        found = browser.evaluate(f"String([...{asked}(document.querySelector('.heads-map .map'))].slice(0, 3))")
        assert found == colour


def raised_valley(example, tool):
    """The valley with its top moved up to 11 m, so that the heads of some cells lie below it: the model and its
    listing."""
    nam = example("river_valley")
    dis = nam.with_suffix(".dis")
    assert "\nCONSTANT 5" in dis.read_text()
    dis.write_text(dis.read_text().replace("\nCONSTANT 5", "\nCONSTANT 11", 1))
    tool("run", nam)
    return nam, nam.with_suffix(".heads")


def test_cells_below_their_tops_are_counted(browser, example, tool, tmp_path):
    nam, listing = raised_valley(example, tool)
    assert tool("look", listing, tmp_path / "look", "--page", "--name", nam)[0] == 0
    open_page(browser, tmp_path / "look" / "map.html", "#shows=below&cell=1,8,17")
    pairs = [(Decimal(low), Decimal(high)) for low, high in heads_in(listing).values()]
    below = sum(high < 11 for _, high in pairs)
    perhaps = sum(low < 11 <= high for low, high in pairs)
    said = browser.evaluate("document.querySelector('.heads-map .scale').getAttribute('aria-label')")
    assert re.findall(r": (\d+) cell", said) == [str(len(pairs) - below - perhaps), str(below), str(perhaps)]
    assert 0 < below < len(pairs)
    more = browser.evaluate("document.querySelector('.heads-map .more').textContent")
    assert "every exact head lies below the cell's top" in more


def test_of_a_listing_that_is_not_certified_exact_heads_are_not_spoken_of(browser, example, tool, tmp_path):
    nam, listing = raised_valley(example, tool)
    text = listing.read_text()
    low, high = heads_in(listing)[1, 1, 1, 8, 17]
    listing.write_text(text.replace(f"HEAD 1 8 17 {low} {high}", f"HEAD 1 8 17 {low} {low}"))
    assert tool("look", listing, tmp_path / "look", "--page", "--name", nam)[0] == 8
    open_page(browser, tmp_path / "look" / "map.html", "#cell=1,8,17")
    assert browser.evaluate("document.querySelector('.verdict').className") == "verdict no"
    more = browser.evaluate("document.querySelector('.heads-map .more').textContent")
    assert "the upper head lies below the cell's top" in more and "exact" not in more


def test_a_figure_is_saved_as_a_picture(opened, browser):
    opened("pumping_test", anchor="#cell=1,13,13")
    browser.evaluate("URL.createObjectURL = (blob) => ((window.saved = blob), 'blob:none');"
                     "HTMLAnchorElement.prototype.click = function () { window.saved_as = this.download; };"
                     "document.querySelector('.heads-map [name=figure]').click()")
    browser.wait("window.saved_as !== undefined")
    assert browser.evaluate("`${window.saved_as} ${window.saved.type}`") == "map.png image/png"
    wide = browser.evaluate("createImageBitmap(window.saved).then((it) => it.width)")
    assert wide == 2000 and browser.evaluate("window.saved.size") > 20_000


def test_it_makes_no_connection_and_fits_a_phone(opened, browser):
    browser.resize(390, 844)
    try:
        opened("pumping_test", anchor="#cell=1,13,13")
        assert browser.evaluate("fetch('https://example.com/').then(() => 'sent', () => 'refused')") == "refused"
        assert browser.evaluate("document.documentElement.scrollWidth <= document.documentElement.clientWidth")
    finally:
        browser.resize(1280, 900)
