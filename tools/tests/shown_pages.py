"""The pages that heads-tools writes, each of an example, and what is wrong with a page that a browser shows."""
import json
import shutil
import sys
from contextlib import chdir, redirect_stderr, redirect_stdout
from io import StringIO
from pathlib import Path

from conftest import TOP

from heads_tools.cli import main

sys.path.insert(0, str(TOP / "ports" / "tests"))

WIDTHS = (1280, 390)
NEEDED = {"chromium": "chromedriver", "firefox": "firefox-esr"}
RIVERS = "INTERNAL 1 (FREE) -1\n" + ("1 " * 15 + "2 " * 15 + "\n") * 20
# Of each page its name, the example, and the commands that make it: the last one writes it.
PAGES = {
    "listing/index.html": ("river_valley", "run m.nam", "look m.heads out --name m.nam --cell 1,8,17"),
    "zones/index.html": (
        "river_valley", "run m.nam --zones m.zon", "look m.heads out --name m.nam --zones m.zon"
    ),
    "unchecked/index.html": ("river_valley", "run m.nam", "look m.heads out"),
    "layers/index.html": ("three_aquifers", "run m.nam", "look m.heads out --name m.nam"),
    "steps/index.html": (
        "pumping_test", "run m.nam", "look m.heads out --name m.nam --cell 1,13,13 --cell 1,13,20"
    ),
    "two_decks/index.html": (
        "valley_between", "run from.nam --to to.nam", "look from-to.heads out --name from.nam --to to.nam"
    ),
    "plan/index.html": (
        "valley_between",
        "drawdown from.nam well.wel --to to.nam made",
        "look made/drawdown.heads out --name from.nam --plan well.wel --to to.nam --cell 1,8,15",
    ),
    "less/index.html": (
        "pumping_plans",
        "batch plans.list",
        "look two_wells.heads out --minus no_well.heads --name two_wells.nam",
    ),
    "drawdown/index.html": (
        "pumping_plans",
        "batch plans.list",
        "drawdown two_wells.heads no_well.heads out --name two_wells.nam --base-name no_well.nam",
    ),
    "weather/index.html": ("valley_between", "drawdown from.nam well.wel --to to.nam --at garden,700,600 out"),
    "any/index.html": ("pumping_plans", "drawdown no_well.nam one_well.wel --any out"),
    "plans/index.html": ("pumping_plans", "batch plans.list", "plans plans.list out --cell 1,5,13"),
    "capture/index.html": (
        "valley_between", "capture from.nam out --rate 500 --to to.nam --every 8 --reaches rivers.zon"
    ),
    "capture_cell/index.html": ("valley_between", "capture from.nam out --rate 500 --to to.nam --cell 1,8,20"),
    "compare/index.html": (
        "river_valley",
        "run m.nam",
        "hds m.heads m.hds --middle --name m.nam",
        "compare m.heads m.hds --name m.nam --map out",
    ),
    "exhibit/judge.html": ("river_valley", "exhibit m.nam out"),
    "exhibit_cells/judge.html": ("three_cells", "exhibit a.nam out"),
    "exhibit_two/judge.html": ("valley_between", "exhibit from.nam out --to to.nam"),
    "exhibit_plan/judge.html": ("valley_between", "exhibit from.nam out --to to.nam --plan well.wel"),
}
# Pages that are written beside these.
BESIDE = {
    "listing/map.html", "layers/map.html", "steps/map.html", "two_decks/map.html", "plan/map.html", "drawdown/map.html",
    "weather/map.html",
}  # fmt: skip
HEADS_PAGE = TOP / "dist" / "heads.html"
# What a browser finds wrong: what reaches past the window, letters that are hard to read, pictures that lack.
FAULTS = """(() => {
    const wide = document.documentElement.clientWidth, found = [];
    const named = (it) => `${it.tagName.toLowerCase()}.${it.className} '${it.textContent.trim().slice(0, 40)}'`;
    const is_shown = (it) => it.checkVisibility ? it.checkVisibility() : it.getClientRects().length > 0;
    const all = document.documentElement.scrollWidth;
    if (all > wide) found.push(`the page is ${all} wide`);
    const over = (it) => getComputedStyle(it).overflowX;
    const scrolls = (it) => it && (["auto", "scroll", "hidden"].includes(over(it)) || scrolls(it.parentElement));
    const parts = (text) => text.match(/[\\d.]+/g).map(Number);
    const linear = (v) => v <= 0.04045 ? v / 12.92 : ((v + 0.055) / 1.055) ** 2.4;
    const light = ([r, g, b]) => 0.2126 * linear(r / 255) + 0.7152 * linear(g / 255) + 0.0722 * linear(b / 255);
    const is_dark = matchMedia("(prefers-color-scheme: dark)").matches
        && getComputedStyle(document.documentElement).colorScheme.includes("dark");
    const behind = (it) => {
        for (; it; it = it.parentElement) {
            const colour = parts(getComputedStyle(it).backgroundColor);
            if (colour.length < 4 || colour[3] > 0) return colour;
        }
        return is_dark ? [28, 27, 34] : [255, 255, 255];
    };
    for (const it of document.body.querySelectorAll("*")) {
        if (!is_shown(it) || ["SCRIPT", "STYLE", "OPTION"].includes(it.tagName)) continue;
        const box = it.getBoundingClientRect();
        const is_past = box.width && (box.right > wide + 1 || box.left < -1);
        if (is_past && !scrolls(it.parentElement)) found.push(`reaches past the window: ${named(it)}`);
        const words = [...it.childNodes].some((node) => node.nodeType === 3 && node.textContent.trim());
        if (!words || it.disabled) continue;
        if (it.scrollWidth > it.clientWidth + 1 && over(it) === "hidden") found.push(`is cut: ${named(it)}`);
        const [a, b] = [light(parts(getComputedStyle(it).color)), light(behind(it))];
        const contrast = (Math.max(a, b) + 0.05) / (Math.min(a, b) + 0.05);
        if (contrast < 4.5) found.push(`contrast ${contrast.toFixed(1)}: ${named(it)}`);
        const letters = getComputedStyle(it).fontSize;
        if (parseFloat(letters) < 11) found.push(`letters of ${letters}: ${named(it)}`);
    }
    for (const it of document.querySelectorAll(".wide"))
        if (wide > 600 && it.scrollWidth > it.clientWidth + 1) found.push(`a table doesn't fit: ${named(it)}`);
    for (const it of document.images) if (it.complete && !it.naturalWidth) found.push(`no picture: ${it.src}`);
    for (const it of document.images) if (!it.alt) found.push(`a picture without words: ${it.src}`);
    return JSON.stringify([...new Set(found)]);
})()"""
# Opens what is folded and loads the pictures that would wait for being seen.
OPENED = """Promise.all([...document.images].map((it) => {
    it.loading = "eager";
    for (let up = it.parentElement; up; up = up.parentElement) if (up.tagName === "DETAILS") up.open = true;
    return it.complete ? true : new Promise((done) => { it.onload = it.onerror = () => done(true); });
})).then(() => document.readyState)"""


def installed():
    return [name for name in NEEDED if shutil.which(NEEDED[name])]


def make_page(name: str, folder: Path) -> None:
    """Makes a page in FOLDER/NAME's folder of a copy of its example."""
    example, *commands = PAGES[name]
    work = folder / "work" / name.split("/")[0]
    shutil.copytree(TOP / "examples" / example, work)
    (work / "rivers.zon").write_text(RIVERS)
    with chdir(work):
        for command in commands:
            said = StringIO()
            with redirect_stdout(said), redirect_stderr(said):
                status = main(command.split())
            assert status == 0, f"{name}: {command}: {status}\n{said.getvalue()}"
    (work / "out").rename(folder / name.split("/")[0])


def open_page(browser, page: Path, width: int) -> None:
    browser.resize(width, 900 if width > 600 else 844)
    browser.open("about:blank")
    browser.open(page.as_uri())
    if page.name == "map.html":
        browser.wait("document.querySelectorAll('.heads-map [name=shows] option').length > 0")
    browser.evaluate(OPENED)


def faults(browser) -> list[str]:
    return json.loads(browser.evaluate(FAULTS))
