"""The words of the run that made a listing, in a small file beside it: a listing's bytes don't tell whether its pairs
are settled ones or those of a quick run."""
from __future__ import annotations

import shlex
from pathlib import Path

from ..common.limits import is_wide
from ..common.text import Problem, read_text, sha256
from ..common.whole_files import whole_file
from .listing import Listing

QUICK = "--quick"
SETTLED_PAIRS = "settled pairs: a run of the same files with the same digits gives the same bytes anywhere"
QUICK_PAIRS = (
    "pairs of a quick run, each tested at its cell and not settled: right all the same, mostly 1.3 to 1.6 times as "
    "wide as settled ones; the same bytes are not promised"
)


def is_quick(options: list[str]) -> bool:
    return QUICK in options


def kind_of(options: list[str]) -> str:
    """Which pairs a whole listing has that a run with these options made."""
    return QUICK_PAIRS if is_quick(options) else SETTLED_PAIRS


def words_file(listing: Path) -> Path:
    return listing.with_name(listing.name + ".run")


def keep_words(listing: Path, name: str, options: list[str], digest: str = "") -> None:
    """Writes the listing's sha256, in the form of sha256sum, and the words of the run that made it."""
    with whole_file(words_file(listing), is_own=True) as file:
        file.write(f"{digest or sha256(listing)}  {listing.name}\n{shlex.join(['heads', 'run', name, *options])}\n")


def drop_words(listing: Path) -> None:
    """Removes what is kept of an earlier listing of this name."""
    words_file(listing).unlink(missing_ok=True)


def kept_words(listing: Path | Listing) -> list[str]:
    """The words of the run that made these bytes, as heads-tools kept them; none where it didn't."""
    path = listing.path if isinstance(listing, Listing) else listing
    try:
        summed, line = read_text(words_file(path)).split("\n")[:2]
        made = listing.sha256 if isinstance(listing, Listing) else sha256(path)
        return shlex.split(line) if summed.split(" ")[0] == made else []
    except (Problem, ValueError):
        return []


def is_made_wide(listing: Path | Listing) -> bool:
    """Whether these bytes are known to be of a run with --wide."""
    return is_wide(kept_words(listing))


def made_by(listing: Path | Listing) -> str:
    """A sentence on the run that made a listing, and on its pairs; empty where no words are kept of it."""
    words = kept_words(listing)
    return f"Made by `{shlex.join(words)}`: {kind_of(words)}." if words else ""
