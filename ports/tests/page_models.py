"""The examples as the tests of heads.html take them: put into the page, run there, beside what dist/heads makes."""
from __future__ import annotations

import shutil
import subprocess
import tempfile
from dataclasses import dataclass
from pathlib import Path
from typing import Any

import records

EXAMPLES = Path(__file__).resolve().parents[2] / "examples"


@dataclass(frozen=True)
class Case:
    """A model of the examples: its folder, its name file, and further words."""

    folder: Path
    name: str
    to: str = ""
    zones: str = ""

    def words(self, command: str, listing: str) -> list[str]:
        words = ["run" if command == "quick" else command, self.name]
        if command == "check":
            words.append(listing)
        if command != "write":
            words += ["--to", self.to] if self.to else []
            words += ["--zones", self.zones] if self.zones else []
        return words + (["--quick"] if command == "quick" else [])


def cases() -> list[Case]:
    found = []
    for path in sorted(EXAMPLES.glob("**/*.nam")):
        if path.name == "to.nam":
            continue
        zones = path.with_suffix(".zon")
        to = "to.nam" if path.name == "from.nam" else ""
        found.append(Case(path.parent, path.name, to, zones.name if zones.exists() else ""))
    return found


def due(case: Case, command: str, listing: bytes) -> tuple[int, bytes]:
    """What dist/heads ends with and writes."""
    with tempfile.TemporaryDirectory() as name:
        folder = Path(name) / "model"
        shutil.copytree(case.folder, folder)
        (folder / "made.heads").write_bytes(listing)
        words = [str(records.PROGRAM), *case.words(command, "made.heads")]
        done = subprocess.run(words, cwd=folder, capture_output=True)
        return done.returncode, done.stdout


def files_of(case: Case) -> list[Path]:
    return [path for path in sorted(case.folder.iterdir()) if path.is_file()]


def choose(browser: Any, case: Case, command: str) -> None:
    chosen = {"command": command, "name": case.name, "to": case.to, "zones": case.zones}
    for place, value in chosen.items():
        browser.evaluate(f"document.getElementById('{place}').value = {value!r};"
                         f"document.getElementById('{place}').dispatchEvent(new Event('change'))")


def ended(browser: Any, case: Case, command: str) -> str:
    """What the page says at the end of a command."""
    choose(browser, case, command)
    browser.evaluate("document.getElementById('form').requestSubmit()")
    browser.wait("document.getElementById('stop').hidden && document.getElementById('facts').textContent !== ''")
    return browser.evaluate("document.getElementById('facts').textContent")


def put(browser: Any, files: list[Path]) -> None:
    browser.evaluate("document.getElementById('clear').click()")
    browser.wait("document.getElementById('held').textContent === 'No files yet.'")
    browser.put_files("#pick", files)
    browser.wait("document.getElementById('held').textContent !== 'No files yet.'")


def named(name: str) -> Case:
    """The model of an example's folder."""
    return next(it for it in cases() if it.folder.name == name)
