"""What the program itself says of a deck, and how it writes it."""
from __future__ import annotations

import re
import subprocess
from pathlib import Path

from ..common.limits import PLAIN, limits_of, wide_words
from ..common.text import Problem
from .explain import explain
from .program import call, direct_program


def refused(nam: Path, has_wide: bool) -> list[str]:
    """What the program says to a deck that it refuses; nothing where it reads it, or isn't there to ask."""
    try:
        last = read_alone(nam.resolve(), has_wide)
    except Problem:
        return []
    return explain(last, nam.parent).lines if last is not None else []


def read_alone(nam: Path, has_wide: bool = False) -> str | None:
    """None where the program reads the deck as a model, else its last line. Nothing is solved: a name file is no
    listing."""
    ended = call(["check", nam.name, nam.name, *wide_words(has_wide)], nam.parent)
    return None if ended.last.startswith("REFUSED 20 ") else ended.last


def files_of(text: bytes, most_bytes: int = PLAIN.bytes) -> dict[str, bytes]:
    """The files of a deck by their names, out of what `heads write` put: the name file is p.nam. None where that is no
    whole deck, or one that can't be read again, since a file is too long or an IBOUND has 19 digits."""
    _, *parts = re.split(rb"^FILE (p\.[a-z]+)\n", text.removesuffix(b"END\n"), flags=re.M)
    files = {name.decode(): content for name, content in zip(parts[::2], parts[1::2])}
    is_whole, is_long = text.endswith(b"\nEND\n"), any(len(content) > most_bytes for content in files.values())
    return files if is_whole and not is_long and not re.search(rb"\d{19}", text) else {}


def one_spelling(nam: Path, has_wide: bool = False) -> dict[str, bytes]:
    """The files of the model's deck as `heads write` puts them; none where the program isn't here, has no such command
    or refuses the deck."""
    words = ["write", nam.name, *wide_words(has_wide)]
    try:
        done = subprocess.run([direct_program(), *words], cwd=nam.parent, stdout=subprocess.PIPE)
    except Problem:
        return {}
    return files_of(done.stdout, limits_of(has_wide).bytes)


def with_time_unit(files: dict[str, bytes], itmuni: int) -> dict[str, bytes]:
    """The files of `heads write` with the deck's own ITMUNI: it has no effect there, so 0 is put, but pages and exports
    name the unit."""
    dis = re.sub(rb"^((?:\d+ ){4})0 ", rb"\g<1>%d " % itmuni, files["p.dis"], count=1)
    return files | {"p.dis": dis}
