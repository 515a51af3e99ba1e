"""Listings of two decks, which hold for every deck between them: how they are asked for, and how they are spoken of."""
from __future__ import annotations

from pathlib import Path

from ..common.text import Problem
from .listing import Listing

ALL_BETWEEN = (
    "Every exact solution lies between the listed numbers, whatever the stresses are between those of the two decks, "
    "at each time step anew."
)


def second_deck(nam: Path, to: Path | None) -> list[str]:
    """The options that name the second deck, if there is one: by its name in the first one's folder, in which the
    program runs and looks up the files of both."""
    if to is None:
        return []
    found = next((path for path in (to, nam.parent / to) if path.is_file()), None)
    if found is None:
        raise Problem(f"there is no file {to}")
    if found.parent.resolve() != nam.parent.resolve():
        raise Problem(f"{to} lies in another folder than {nam.name}: both decks' files are looked up in one folder")
    return ["--to", found.name]


def target_of(nam: Path, to: list[str], plan: list[str] | None = None) -> Path:
    """The listing's file where none is named: that of two decks has both names, that of a plan the name of its wells,
    too."""
    stems = [nam.stem, *(Path(name).stem for name in [*to[1:], *(plan or [])])]
    return nam.with_name("-".join(stems) + ".heads") if len(stems) > 1 else nam.with_suffix(".heads")


def plan_file(options: list[str]) -> list[str]:
    """The file of a plan's wells, if the options of a run name one."""
    return value_of(options, "--plan")


def value_of(options: list[str], word: str) -> list[str]:
    """The value that options give a word, if they have it."""
    return [options[n + 1] for n, each in enumerate(options[:-1]) if each == word] + [
        each[len(word) + 1 :] for each in options if each.startswith(f"{word}=")
    ]


def demand_decks(listing: Listing, to: list[str]) -> None:
    """Refuses a second deck for a listing of one, and a listing of two decks without the second one."""
    if listing.is_span and not to:
        raise Problem(f"{listing.path} is a listing of two decks (its first line ends with TO): name the second (--to)")
    if to and not listing.is_span:
        raise Problem(f"{listing.path} is the listing of one deck: leave --to out")


def demand_one(listing: Listing, why: str) -> None:
    """Refuses a listing of two decks."""
    if listing.is_span:
        raise Problem(f"{listing.path} is a listing of two decks (its first line ends with TO): {why}")
