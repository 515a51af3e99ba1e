"""The pages as Chromium and Firefox show them, at 1280 and 390 pixels, in light and in dark: nothing reaches past the
window or is cut, all letters can be read, no picture lacks, and units are those of the deck. shoot_pages.py makes
pictures of all pages, to be looked at."""
import re
import shutil

import pytest

pytest.importorskip("websocket")
from shown_pages import NEEDED, PAGES, WIDTHS, faults, make_page, open_page  # noqa: E402
from browsers import Browser  # noqa: E402

pytestmark = pytest.mark.program
# One of each kind whose making takes seconds.
CHOSEN = ("layers", "two_decks", "weather", "plans", "capture_cell", "compare", "exhibit_cells")


@pytest.fixture(scope="module")
def pages(tmp_path_factory):
    folder = tmp_path_factory.mktemp("pages")
    names = [name for name in PAGES if name.split("/")[0] in CHOSEN]
    for name in names:
        make_page(name, folder)
    return [folder / name for name in names] + [folder / "weather" / "map.html"]


@pytest.fixture(scope="module", params=[(name, look) for name in NEEDED for look in ("light", "dark")], ids="-".join)
def browser(request):
    name, look = request.param
    if not shutil.which(NEEDED[name]):
        pytest.skip(f"{NEEDED[name]} isn't installed")
    made = Browser(name, look == "dark")
    yield made
    made.close()


@pytest.mark.parametrize("width", WIDTHS)
def test_a_page_fits_its_window_and_can_be_read(pages, browser, width):
    for page in pages:
        open_page(browser, page, width)
        assert faults(browser) == [], page


def test_a_dark_window_has_a_dark_page(pages, browser):
    open_page(browser, pages[0], WIDTHS[0])
    is_dark = browser.evaluate("matchMedia('(prefers-color-scheme: dark)').matches")
    red = int(re.findall(r"\d+", browser.evaluate("getComputedStyle(document.body).backgroundColor"))[0])
    assert (red < 60) is is_dark


def test_what_is_wrong_with_a_page_is_found(browser, tmp_path):
    page = tmp_path / "wrong.html"
    page.write_text(
        "<!doctype html><title>w</title><body style='background:#fff'><p style='width:2000px;background:#fff'>wide</p>"
        "<p style='color:#bbb'>pale</p><p style='font-size:8px'>small</p><img src='none.png' alt='a'>"
        "<div style='width:60px;overflow:hidden;white-space:nowrap'>words that are cut off here</div>"
    )
    open_page(browser, page, WIDTHS[1])
    found = " ".join(faults(browser))
    for due in ("wide: 'wide'", "the page is", "contrast", "letters of 8px", "no picture", "is cut"):
        assert due.replace("wide: 'wide'", "reaches past the window") in found, (due, found)


def test_pages_of_plans_have_the_units_of_the_deck(pages):
    """`heads write`, whose spelling the plan's decks have, puts no unit of time."""
    for page in pages:
        text = page.read_text()
        if page.name != "map.html":
            assert "time unit" not in text, page
        if page.parent.name in ("weather", "capture_cell") and page.name != "map.html":
            assert "m³ per d" in text, page
