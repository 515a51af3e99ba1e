"""exhibit: all that a report or a court needs of one run, in one folder that stands alone."""
from __future__ import annotations

import argparse
import os
import re
import shlex
import shutil
import subprocess
import sys
import tempfile
import time
from dataclasses import replace
from pathlib import Path
from typing import IO

from ..common.limits import is_wide, limits_of, wide_words
from ..common.spelling import quoted_words
from ..common.text import VERSION, Problem, on_disk, read_text, sha256, words
from ..common.whole_files import copy_whole, whole_file, why
from ..deck.deck import KINDS
from ..deck.differences import what_differs
from ..deck.model import Model, read_model
from ..deck.packages import read_deck
from ..listing.below_top import ALL_FULL, BelowTop
from ..listing.listing import read_listing
from ..listing.made_by import is_quick, keep_words, kind_of
from ..listing.spans import plan_file, second_deck, target_of
from ..listing.what_is_said import NOT_THE_MOST, words_of
from ..listing.zones import read_zones
from ..program.explain import explain
from ..program.program import TOP, Version, beside, digits_of, program_file, record_of, version
from ..program.reading import files_of
from ..program.verdict import Verdict, has_zones
from .exhibit_parts import (
    RECHECK,
    RECHECK_PLAN,
    Exhibit,
    add_recheck,
    shell,
    to_options,
    zone_file,
)
from .shared import existing, flags_of
from .words import NAM, WIDE_RUN, add_quick, add_to, add_wide, add_words

ONE_SPELLING = (
    "The folder written has the model that `heads` read from the folder deck, in one plain spelling, as `heads write` "
    "puts it. It is proved that its files are read as that model: whoever reads them item by item beside MODFLOW's "
    "input instructions need not believe how `heads` reads the spelling of the deck."
)


def exhibit(nam: Path, folder: Path, options: list[str], out: IO[str]) -> int:
    """Makes the exhibit of a model in a folder, whole or not at all; the run's status, or that of the check."""
    if folder.exists() and (not folder.is_dir() or any(folder.iterdir())):
        raise Problem(f"{folder} isn't an empty folder: an exhibit begins with one, or with none")
    if not shutil.which("sh"):
        said = "an exhibit's commands are those of a shell (sh), which isn't here: WSL has one, and Git for Windows"
        raise Problem(said)
    binary, known = program_file(), version()
    try:
        folder.parent.mkdir(parents=True, exist_ok=True)
        made = Path(tempfile.mkdtemp(prefix=f".{folder.name}.", dir=folder.parent))
    except OSError as error:
        raise why(error, folder) from None
    try:
        copy_deck(nam, made / "deck", options)
        copy_program(binary, made)
        status, told = fill(made, nam.name, options, known)
        with whole_file(made / "EXHIBIT.txt") as file:
            file.write(told.text())
        with whole_file(made / "judge.html") as file:
            file.write(told.page())
        write_sums(made)
        made.chmod(0o755)
        if folder.exists():
            folder.rmdir()
        os.rename(made, folder)
    except BaseException as error:
        shutil.rmtree(made, ignore_errors=True)
        if isinstance(error, Problem):
            raise Problem(str(error).replace(str(made), str(folder))) from None
        raise
    print(
        told.text()
        + f"\nwritten: {folder}. Note the sha256 of its SHA256SUMS elsewhere: {sha256(folder / 'SHA256SUMS')}",
        file=out,
    )
    return status


def fill(folder: Path, name: str, options: list[str], known: Version) -> tuple[int, Exhibit]:
    """Runs, checks, rechecks and draws in the exhibit's folder."""
    from ..pages.looking import title_of
    from .exhibit_plan import add_plan_verdicts

    plan = plan_file(options)
    listing = target_of(Path(name), to_options(options), plan).name
    deck = f"cd deck && ../heads run {shlex.join([name, *options])}"
    ended = shell(folder, f"({deck}) > {shlex.quote(listing)}")
    ended.last = last_line(folder / listing)
    meaning = explain(ended.last, folder / "deck", digits_of(options), is_part(folder / listing), options)
    told = Exhibit(title_of(folder / "deck" / name), f"The run ended with status {ended.status}: {ended.last}")
    told.facts.append(("run", f"({deck}) > {listing}: status {ended.status}, last line {ended.last}"))
    status = ended.status
    if meaning.is_good:
        keep_words(folder / listing, name, options)
        told.facts.append(("pairs", kind_of(options)))
        status = (add_plan_verdicts if plan else add_verdicts)(told, folder, name, listing, options, known)
        told.commands += same_bytes(deck, listing, options)
        add_written(told, folder, name, listing, options)
    else:
        told.facts += [("meaning", line.strip()) for line in meaning.lines]
    told.commands.insert(0, "sha256sum -c SHA256SUMS")
    told.facts += program_facts(known)
    return status, told


def same_bytes(run: str, listing: str, options: list[str]) -> list[str]:
    """The command that runs again and compares bytes; none of a quick run, of which the same bytes aren't promised."""
    return [] if is_quick(options) else [f"({run}) | cmp - {shlex.quote(listing)} && echo SAME"]


def add_verdicts(told: Exhibit, folder: Path, name: str, listing: str, options: list[str], known: Version) -> int:
    """What `heads check` and recheck.py say, and what may be said after it; the status of the check."""
    from ..pages.look import look

    read, model = read_listing(folder / listing), read_model(folder / "deck" / name)
    named = zone_file(options)
    zones = [word for file in named for word in ("--zones", file)]
    to, wide = to_options(options), wide_words(is_wide(options))
    words = shlex.join([name, "../" + listing, "--digits", str(read.digits), *zones, *to, *wide])
    told.commands.append(f"(cd deck && ../heads check {words})")
    checked = shell(folder, told.commands[-1])
    told.facts.append(("check", f"{checked.last} (status {checked.status})"))
    count = sum(len(step.low) for step in read.steps)
    add_recheck(told, folder, shlex.join([name, "../" + listing, *named, *wide, *to]), count)
    seen = has_zones(read), bool(named), read.is_span
    verdict = Verdict(checked.status, checked.last, listing, *seen, program=sha256(program_file()))
    told.verdict = verdict.sentence
    told.words = words_of(read, model.length, differing(folder / "deck", name, to), wells_of(model))
    if verdict.is_certified and known.is_recorded is not False:
        told.may = told.words.may
        add_tops(told, BelowTop(model.deck, read))
        if known.is_recorded is None:
            told.verdict += (
                " No record of this program's bytes stands beside it: whether it is the proved one has to be shown."
            )
    deck, numbers = folder / "deck", None
    if named and has_zones(read):
        numbers = read_zones(on_disk(deck, named[0]), deck / name, model.shape)
    look(read, folder / "look", model, verdict=verdict, zones=numbers)
    told.maps = sorted(str(path.relative_to(folder)) for path in (folder / "look").glob("below_top_layer*.png"))
    return checked.status


def add_tops(told: Exhibit, tops: BelowTop) -> None:
    """Whether each layer is full, as the model takes it; where one isn't, what may not be said then."""
    told.tops = tops.sentences() or [ALL_FULL]
    if any(layer.below for layer in tops.layers):
        told.words = replace(told.words, may_not=[*told.words.may_not, NOT_THE_MOST])


def add_written(told: Exhibit, folder: Path, name: str, listing: str, options: list[str]) -> None:
    """The deck in one spelling, where the program has the command: as one text, and its files in a folder of their
    own, whose run has to give the same listing."""
    if to_options(options):
        told.facts.append(("written", "not done: the two decks would have the same file names"))
        return
    has_wide = is_wide(options)
    write = f"(cd deck && ../heads write {shlex.join([name, *wide_words(has_wide)])})"
    shell(folder, f"{write} > written.txt")
    files = files_of((folder / "written.txt").read_bytes(), limits_of(has_wide).bytes)
    if not files:
        (folder / "written.txt").unlink()
        told.facts.append(("written", "not done: this program doesn't write the deck so that it can be read again"))
        return
    (folder / "written").mkdir()
    for file, content in files.items():
        with whole_file(folder / "written" / file, binary=True, is_own=True) as new:
            new.write(content)
    named = [*zone_files(folder / "deck", options), *plan_file(options)]
    copy_files(named, folder / "deck", folder / "written")
    run = f"cd written && ../heads run {shlex.join(['p.nam', *options])}"
    told.commands += [f"{write} | cmp - written.txt && echo SAME", *same_bytes(run, listing, options)]
    told.facts.append(("written", ONE_SPELLING))


def last_line(path: Path) -> str:
    return (read_text(path).rstrip("\n").rsplit("\n", 1) or [""])[-1].strip()


def is_part(path: Path) -> bool:
    return "\nSTEP " in read_text(path)


def differing(deck: Path, name: str, to: list[str]) -> list[str]:
    """The stresses that differ between the two decks of a run, in words."""
    return what_differs(*(read_deck(deck / each)[0] for each in (name, to[1]))) if to else []


def wells_of(model: Model) -> list[tuple[int, int, int]]:
    return [entry.cell for entries in model.deck.lists.get("WEL", []) for entry in entries or []]


def deck_files(nam: Path) -> list[str]:
    """The name file, the files that it names for packages that are read, and the files that arrays open."""
    out = [nam.name]
    for line in read_text(nam).split("\n"):
        w = words(line)
        if len(w) > 2 and not line.startswith("#") and w[0].upper() in KINDS:
            out.append(w[2])
    return sorted({*out, *(opened for name in out[1:] for opened in opened_files(nam.parent, name))})


def zone_files(folder: Path, options: list[str]) -> list[str]:
    """The zone file of a run's options, and the files that its arrays open."""
    return [name for file in zone_file(options) for name in [file, *opened_files(folder, file)]]


def opened_files(folder: Path, name: str) -> list[str]:
    """The files that a file's arrays open."""
    path = on_disk(folder, name)
    lines = read_text(path).split("\n") if path.is_file() else []
    records = [quoted_words(line) for line in lines if line.strip().upper().startswith("OPEN/CLOSE")]
    return [record[1] for record in records if len(record) > 1]


def copy_deck(nam: Path, deck: Path, options: list[str]) -> None:
    deck.mkdir()
    names = deck_files(nam) + zone_files(nam.parent, options) + plan_file(options)
    names += [file for name in to_options(options)[1:] for file in deck_files(nam.with_name(name))]
    for name in names:
        if ".." in name or name.startswith(("/", "\\")):
            raise Problem(f"{name} lies outside the model's folder: an exhibit holds its whole deck")
    copy_files(names, nam.parent, deck)


def copy_files(names: list[str], source: Path, target: Path) -> None:
    """Copies the files of these names that are there from one folder into another."""
    for name in names:
        if on_disk(source, name).is_file():
            on_disk(target, name).parent.mkdir(parents=True, exist_ok=True)
            copy_whole(on_disk(source, name), on_disk(target, name))


def copy_program(binary: Path, folder: Path) -> None:
    """The program, the record of its sources, recheck.py and recheck_plan.py."""
    copy = folder / ("heads.exe" if binary.suffix == ".exe" else "heads")
    copy_whole(binary, copy)
    copy.chmod(0o755)
    record = record_of(binary)
    if record:
        copy_whole(record, folder / "heads.txt")
    for name in (RECHECK, RECHECK_PLAN):
        if script := beside(name):
            copy_whole(script, folder / name)


def program_facts(known: Version) -> list[tuple[str, str]]:
    return [
        ("program", "the file heads in this folder"),
        *(fact for line in known.lines if (fact := program_fact(line.strip()))),
        *commit_facts(),
        ("tools", f"heads-tools {VERSION}, Python {sys.version.split()[0]} (not proved)"),
        ("made", time.strftime("%Y-%m-%d %H:%M:%S UTC by this machine's clock", time.gmtime())),
    ]


def program_fact(line: str) -> tuple[str, str] | None:
    """A line on the program under a name of its own, without the folders of the machine; none for where it lay."""
    word, _, rest = line.partition(" ")
    if word in ("program", "which"):
        return None
    if word in ("sha256", "sources", "kit"):
        return f"its {word}", rest.strip()
    return "checkout" if "checkout" in line else "its record", re.sub(r"/\S*/", "", line)


def commit_facts() -> list[tuple[str, str]]:
    """The commit of the checkout, where this is one, and whether its files have changed since."""
    git = lambda *args: subprocess.run(["git", "-C", str(TOP), *args], capture_output=True, text=True).stdout.strip()
    if not (TOP / ".git").exists() or not shutil.which("git"):
        return [("commit", "not known: heads-tools wasn't run from a checkout")]
    changed = git("status", "--porcelain", "--untracked-files=no")
    return [("commit", git("rev-parse", "HEAD") + (" (files of the checkout were changed since)" if changed else ""))]


def write_sums(folder: Path) -> None:
    """SHA256SUMS of all other files, as `sha256sum -c` reads it."""
    files = sorted(path for path in folder.rglob("*") if path.is_file())
    with whole_file(folder / "SHA256SUMS") as file:
        file.writelines(f"{sha256(path)}  {path.relative_to(folder).as_posix()}\n" for path in files)


def add(sub: argparse.ArgumentParser) -> None:
    add_words(sub, NAM, ("folder", "the folder to write into"))
    add_to(sub, "a second deck: what may be said of every deck between the two")
    add_quick(sub)
    add_wide(sub, WIDE_RUN)


def do(args: argparse.Namespace, options: list[str], out: IO[str]) -> int:
    nam = existing(args.nam)
    return exhibit(nam, args.folder, [*options, *second_deck(nam, args.to), *flags_of(args)], out)
