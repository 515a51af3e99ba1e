"""Which files are never written over: what the command at hand reads, files of decks, results that heads-tools didn't
make."""
from __future__ import annotations

import functools
import mmap
import re
from contextlib import contextmanager
from contextvars import ContextVar
from dataclasses import dataclass
from pathlib import Path
from typing import Iterable, Iterator

from .spelling import quoted_words
from .text import Problem, on_disk, read_text, sha256

NAME_FILES = (".nam", ".mfn")
# Files that MODFLOW writes: what the name file says of them may be written over where heads-tools made it.
OUTPUTS = {"LIST", "GLOBAL", "DATA", "DATA(BINARY)", "DATAGLO", "DATAGLO(BINARY)"}
LISTINGS = (b"HEADS ", b"DRAWDOWN ")
ENDS = (*LISTINGS, b"REFUSED ", b"NOBOUND ", b"READFAULT", b"MEMORY", b"UNFINISHED ", b"USAGE:", b"WATCH ")
# How tables, job files, list files and the small files beside results begin, which heads-tools writes.
BEGINS = re.compile(
    rb"period,step,[a-z,_]*(lower|least)|[0-9a-f]{64}  |                                  heads\n"
    rb"|pif @\n@heads-tools@\n|# heads-tools: |heads-tools: "
    rb"|#!/bin/bash\n#(SBATCH --job-name=heads| Further words, as --sshloginfile hosts, go to parallel\.)"
)
PAGES, PICTURES = (b"<!doctype html", b"<!DOCTYPE html"), (b"\x89PNG", b"\x89HDF", b"CDF", b"II", b"MM", b"<?xml")
PAGE_MARKS = (b'<meta name="generator" content="heads-tools">', b"made by heads-tools")
BESIDE = ".about"


@dataclass(frozen=True)
class Keep:
    """What the command at hand keeps: the files that it reads, and the decks among them; whether results of other
    programs may go."""

    inputs: frozenset[Path] = frozenset()
    is_forced: bool = False

    @property
    def decks(self) -> list[Path]:
        return [path for path in self.inputs if path.suffix.lower() in NAME_FILES and path.is_file()]


KEEP: ContextVar[Keep] = ContextVar("keep", default=Keep())


@contextmanager
def keeping(inputs: Iterable[Path], is_forced: bool = False) -> Iterator[None]:
    """Within the block these files are never written over; results of other programs are, where that is asked for."""
    token = KEEP.set(Keep(frozenset(path.resolve() for path in inputs), is_forced))
    try:
        yield
    finally:
        KEEP.reset(token)


def demand_free(path: Path | str, new: Path | None = None) -> None:
    """Raises Problem where a file of this name isn't to be written over. `new`: what is to take its place."""
    path = Path(path)
    place, keep = path.resolve(), KEEP.get()
    if place.is_dir():
        raise Problem(f"{path} is a folder; a file is due here")
    if place.exists() and not place.is_file():
        raise Problem(f"{path} is a device, and a file is due here: it gets its name once it is whole")
    if place in keep.inputs:
        raise Problem(f"{path} isn't written over: the command reads it")
    is_free = not place.exists() or is_ours(place, new)
    for nam in name_files(place, keep):
        if place == nam:
            raise Problem(f"{path} isn't written over: it is a name file")
        kind = kinds_of(nam).get(place, "")
        if kind and not (kind in OUTPUTS and is_free):
            raise Problem(f"{path} isn't written over: {nam.name} names it ({kind})")
        if not is_free and place in opened(nam):
            raise Problem(f"{path} isn't written over: an array of {nam.name} is read from it")
    if not is_free and not keep.is_forced:
        raise Problem(f"{path} isn't written over: nothing shows that heads-tools made it. Another name, or --force")


def name_files(place: Path, keep: Keep) -> list[Path]:
    """The name files of the folder of a file, and those that the command reads."""
    folder = place.parent
    files = folder.iterdir() if folder.is_dir() else []
    here = [path for path in files if path.suffix.lower() in NAME_FILES and path.is_file()]
    return list(dict.fromkeys([*sorted(here), *keep.decks]))


def named(nam: Path) -> list[tuple[str, str]]:
    """What a name file names: kinds and names, as they stand there. Nothing of one that can't be read."""
    try:
        text = read_text(nam)
    except Problem:
        return []
    lines = (quoted_words(line) for line in text.split("\n") if not line.startswith("#"))
    return [(words[0].upper(), name) for words in lines for name in words[1:3] if len(words) > 1]


def kinds_of(nam: Path) -> dict[Path, str]:
    """As what a name file names its files: as an input, where it names one twice."""
    at = nam.stat()
    return known_kinds(nam, at.st_mtime_ns, at.st_ctime_ns, at.st_size)


@functools.lru_cache(maxsize=4096)
def known_kinds(nam: Path, *_: int) -> dict[Path, str]:
    """The same of a name file with these times and this size: a batch asks for each of its models."""
    kinds = {on_disk(nam.parent, name).resolve(): kind for kind, name in named(nam) if kind in OUTPUTS}
    return kinds | {on_disk(nam.parent, name).resolve(): kind for kind, name in named(nam) if kind not in OUTPUTS}


def opened(nam: Path) -> set[Path]:
    """The files that arrays of a deck are read from."""
    found = set()
    for kind, name in named(nam):
        path = on_disk(nam.parent, name)
        if kind in OUTPUTS or not path.is_file():
            continue
        for line in read_text(path).split("\n"):
            words = quoted_words(line) if "/close" in line.lower() else []
            if len(words) > 1 and words[0].upper() == "OPEN/CLOSE":
                found.add(on_disk(nam.parent, words[1]).resolve())
    return found


def is_ours(path: Path, new: Path | None = None) -> bool:
    """Whether a file is one that heads-tools made, by what stands in it or in the small file beside it, or by the first
    line of the table that is to take its place. An empty file counts as such: there is nothing to lose."""
    with open(path, "rb") as file:
        begin = file.read(400)
        if not begin or begin.startswith(ENDS) or BEGINS.match(begin):
            return True
        if begin.startswith(PAGES + PICTURES):
            marks = PAGE_MARKS if begin.startswith(PAGES) else (b"heads-tools", b"heads check")
            with mmap.mmap(file.fileno(), 0, access=mmap.ACCESS_READ) as content:
                return any(content.find(mark) >= 0 for mark in marks)
    return is_noted(path) or (new is not None and path.suffix == ".csv" and begins_like(begin, new))


def begins_like(begin: bytes, new: Path) -> bool:
    """Whether a table has the columns of another one."""
    with open(new, "rb") as file:
        return b"," in begin and begin.split(b"\n")[0] == file.read(400).split(b"\n")[0]


def is_noted(path: Path) -> bool:
    """Whether the small file beside a result has its sha256."""
    beside = path.with_name(path.name + BESIDE)
    return beside.is_file() and f"{sha256(path)}  {path.name}\n" in read_text(beside)
