#!/usr/bin/python3
"""Puts pictures of all pages that heads-tools writes, and of heads.html, into a folder.

    tools/tests/shoot_pages.py FOLDER [NAME..]

Each page in Chromium and in Firefox, 1280 and 390 pixels wide, in light and in dark: each picture is
FOLDER/pictures/NAME-BROWSER-LOOK-WIDTH.png. NAMEs choose pages (listing, layers, ..). A page that FOLDER already has is
taken as it is. What a browser finds wrong is printed.
Needs Debian's python3-websocket, and chromium with chromium-driver, or firefox-esr.
"""
import os
import sys
from pathlib import Path

sys.path.insert(0, str(Path(__file__).resolve().parent))
from shown_pages import BESIDE, HEADS_PAGE, PAGES, WIDTHS, faults, installed, make_page, open_page  # noqa: E402
from conftest import program  # noqa: E402
from browsers import Browser  # noqa: E402


def main() -> int:
    folder, names = Path(sys.argv[1]).resolve(), sys.argv[2:]
    os.environ.setdefault("HEADS", str(program()))
    for name in PAGES:
        if not (folder / name).exists() and (not names or name.split("/")[0] in names):
            make_page(name, folder)
    pages = [folder / name for name in [*PAGES, *sorted(BESIDE)] if (folder / name).exists()] + [HEADS_PAGE]
    pages = [page for page in pages if not names or page.parent.name in names]
    to = folder / "pictures"
    to.mkdir(exist_ok=True)
    count = 0
    for browser_name in installed():
        for look in ("light", "dark"):
            browser = Browser(browser_name, look == "dark")
            for page in pages:
                for width in WIDTHS:
                    open_page(browser, page, width)
                    for fault in faults(browser):
                        print(f"{page.parent.name}/{page.name} {browser_name} {look} {width}: {fault}")
                        count += 1
                    stem = f"{page.parent.name}_{page.stem}-{browser_name}-{look}-{width}"
                    browser.picture(to / f"{stem}.png")
            browser.close()
    print(f"{len(pages)} pages, {count} faults; pictures in {to}")
    return 1 if count else 0


if __name__ == "__main__":
    sys.exit(main())
