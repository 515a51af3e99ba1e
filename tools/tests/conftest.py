"""What the tests share: the program, the examples, and decks in other programs' spellings."""
import os
import subprocess
import sys
from pathlib import Path

import pytest

TOOLS = Path(__file__).resolve().parents[1]
TOP = TOOLS.parent
sys.path.insert(0, str(TOOLS))


def program():
    """The kept program, or the one that HEADS names: never one that would have to be built."""
    path = Path(os.environ.get("HEADS") or TOP / "dist" / "heads")
    return path.resolve() if path.is_file() and os.access(path, os.X_OK) else None


def pytest_configure(config):
    if program():
        os.environ["HEADS"] = str(program())
    config.addinivalue_line("markers", "program: needs the program heads")
    config.addinivalue_line("markers", "spans: needs a program heads that takes a second deck (--to)")
    config.addinivalue_line("markers", "plans: needs a program heads that lists what a plan does (--plan)")


def takes_two_decks():
    """Whether the program knows --to."""
    return not heads(["run", "a.nam", "--to", "b.nam"], TOOLS).stdout.startswith("USAGE")


def lists_plans():
    """Whether the program knows --plan."""
    return not heads(["run", "a.nam", "--plan", "a.wel"], TOOLS).stdout.startswith("USAGE")


def pytest_collection_modifyitems(config, items):
    if program() is None:
        for item in items:
            if "program" in item.keywords:
                item.add_marker(pytest.mark.skip(reason="no kept program, and HEADS names none"))
    spans = [item for item in items if "spans" in item.keywords]
    if spans and not (program() and takes_two_decks()):
        for item in spans:
            item.add_marker(pytest.mark.skip(reason="no program that takes a second deck"))
    plans = [item for item in items if "plans" in item.keywords]
    if plans and not (program() and lists_plans()):
        for item in plans:
            item.add_marker(pytest.mark.skip(reason="no program that lists what a plan does"))


@pytest.fixture
def tool(monkeypatch, capsys):
    """Runs the command's main: status, standard output, standard error."""
    from heads_tools.cli import main

    def run(*words):
        capsys.readouterr()
        try:
            status = main([str(w) for w in words])
        except SystemExit as error:
            status = error.code
        out = capsys.readouterr()
        return status, out.out, out.err

    return run


@pytest.fixture
def example(tmp_path):
    """A copy of an example's folder: its name file."""

    def copy(name):
        folder = tmp_path / name
        source = TOP / "examples" / name
        folder.mkdir()
        for file in source.iterdir():
            if file.is_file() and file.suffix != ".heads":
                (folder / file.name).write_bytes(file.read_bytes())
        return next(f for f in folder.iterdir() if f.suffix == ".nam")

    return copy


def heads(words, folder):
    return subprocess.run([os.environ["HEADS"], *words], cwd=folder, capture_output=True, text=True)
