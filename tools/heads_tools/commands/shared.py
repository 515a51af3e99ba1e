"""What the runs of several commands share."""
from __future__ import annotations

import argparse
from contextlib import contextmanager
from dataclasses import dataclass, field
from pathlib import Path
from typing import IO, ContextManager, Iterator

from ..common.kept_files import keeping
from ..common.limits import wide_words
from ..common.text import Problem
from ..common.whole_files import whole_folder
from ..deck.model import Model
from ..deck.places import Place, named_place, place_of
from ..listing.fitting import demand_fit
from ..listing.listing import Listing, read_listing, refuse_convertible, refuse_plan_listing
from ..listing.made_by import QUICK
from ..listing.plan_listing import PlanListing, read_plan_listing
from ..listing.spans import second_deck
from ..program.program import look_again
from ..program.verdict import Verdict, check_listing, not_checked

OUTPUTS = {"out", "csv", "map", "folder", "picture", "pest"}
MOST_DIGITS = 18


@dataclass
class Ran:
    """How a command ended that writes a listing: its status, the last line of the output, what it means, and the
    listing where the status is 0."""

    status: int
    last: str = ""
    lines: list[str] = field(default_factory=list)
    listing: Listing | None = None


def existing(path: Path) -> Path:
    if path.is_dir():
        raise Problem(f"{path} is a folder; a file is due here")
    if not path.is_file():
        raise Problem(f"there is no file {path}")
    return path.resolve()


@contextmanager
def guarded(args: argparse.Namespace, rest: list[str]) -> Iterator[None]:
    """Within the block the command's inputs are never written over. Names among the `rest`, which goes to the program,
    are looked up from the model's folder."""
    look_again()
    given = [value for name, value in vars(args).items() if name not in OUTPUTS]
    flat = [each for value in given for each in (value if isinstance(value, list) else [value])]
    inputs = [on_disk(each) for each in flat if isinstance(each, (Path, Listing, PlanListing))]
    named = [word.partition("=")[2] or word for word in rest] + [str(getattr(args, "to", None) or "")]
    inputs += [on_disk(args.nam).parent / name for name in named if name] if hasattr(args, "nam") else []
    with keeping(inputs, getattr(args, "force", False)):
        yield


def on_disk(given: Path | Listing | PlanListing) -> Path:
    """The file of what is given."""
    return given if isinstance(given, Path) else given.path


def listing_of(given: Path | Listing) -> Listing:
    """A listing that is in memory, or that of a file; of a confined model, and no part of a plan's."""
    if isinstance(given, Listing) and given.is_convertible:
        refuse_convertible(given.path)
    if isinstance(given, Listing) and given.part:
        refuse_plan_listing(given.path)
    return given if isinstance(given, Listing) else read_listing(existing(given))


def plan_in(given: Path | Listing | PlanListing) -> PlanListing:
    """A plan's listing that is in memory, that of a file, or that of which a part is in memory."""
    if isinstance(given, PlanListing):
        return given
    found = read_plan_listing(existing(on_disk(given)))
    if isinstance(given, Listing) and given.sha256 != found.drawdown.sha256:
        raise Problem(f"{given.path} isn't the file any more that this listing was read from")
    return found


def plan_listing_of(
    args: argparse.Namespace, given: Path | Listing | PlanListing, model: Model | None = None
) -> tuple[PlanListing, Verdict]:
    """A plan's listing, in memory or in a file, and what `heads check` says of it by the base deck and the wells that
    are named. One that doesn't fit the model is refused."""
    if not (args.name and args.plan):
        raise Problem(f"{on_disk(given)} lists what a plan does: name the base deck and the wells, --name and --plan")
    listing = plan_in(given)
    if model:
        demand_fit(listing.drawdown, model)
    nam, plan, named = existing(args.name), existing(args.plan), getattr(args, "zones", None)
    zones = existing(named) if named else None
    return listing, check_listing(nam, listing.drawdown, zones, second_deck(nam, args.to), args.wide, plan)


def refuse_plan(args: argparse.Namespace, words: tuple[str, ...] = ("plan",)) -> None:
    """Refuses the words of a plan's listing beside another one."""
    for word in words:
        if getattr(args, word):
            name = word.replace("_", "-")
            raise Problem(f"--{name} goes with a listing of what a plan does, and this is none")


def say(lines: list[str], out: IO[str]) -> None:
    print("\n".join(lines), file=out)


def flags_of(args: argparse.Namespace) -> list[str]:
    """The words without a value that are asked for."""
    return ([QUICK] if args.quick else []) + wide_words(args.wide)


def page_folder(folder: Path) -> ContextManager[Path]:
    """A folder to draw into, whose files come into `folder` once all of them are there."""
    return whole_folder(folder, "index.html")


def model_for_zones(args: argparse.Namespace) -> None:
    if args.zones and not args.name:
        raise Problem("--zones needs the model, too: --name M.NAM")


def verdict_of(args: argparse.Namespace, listing: Listing) -> Verdict:
    """What `heads check` says of the listing, where the model is named."""
    to = getattr(args, "to", None)
    if not args.name:
        if to:
            raise Problem("--to needs the first deck, too: --name M.NAM")
        return not_checked(listing)
    nam = existing(args.name)
    named = getattr(args, "zones", None)
    zones = existing(named) if named else None
    return check_listing(nam, listing, zones, second_deck(nam, to), args.wide)


def place_for(args: argparse.Namespace, model: Model) -> tuple[Place, list[str]]:
    """The grid's place on the map: the one that is asked for, else that of the name file's comments; and what there is
    to say of it."""
    if args.at:
        return place_of(args.at), []
    place, where = named_place(model.deck)
    return (place, [f"the grid's place is that of {where}"]) if place else (Place(), [])
