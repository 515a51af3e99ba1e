"""Ports each of whose calls of the system can be made to fail: built with tests/faults.c, whose functions stand before
those that they are named after."""
from __future__ import annotations

import tempfile
from pathlib import Path

import compiled
import modules
import records
from kinds import KINDS
from program import Program

FAULTS = [Path(__file__).resolve().parent / "tests" / "faults.c"]
WRAPPED = ("malloc", "realloc", "open", "read", "write", "pthread_create")


def lacks(name: str) -> str:
    """What is missing here to build a port so; nothing where it can be built."""
    kind = next((it for it in KINDS if it.name == name), None)
    if kind:
        return "" if kind.made_with() else f"{' '.join(kind.packages)} aren't all installed here"
    return compiled.lacks_module()


def build(name: str, folder: Path) -> Path:
    """A port of dist/heads with failing calls, in a folder."""
    target = folder / f"faults.{name}"
    kind = next((it for it in KINDS if it.name == name), None)
    if kind:
        kind.link(Program(records.PROGRAM), target, FAULTS, WRAPPED)
        return target
    return build_from(modules.text_of(compiled.MODULE), name, target)


def build_from(text: str, name: str, target: Path) -> Path:
    """The same of a module's text."""
    with tempfile.TemporaryDirectory(prefix="heads_port_") as work:
        compiled.MAKERS[name](text, target, Path(work), "a test with failing calls", FAULTS, WRAPPED)
    return target
