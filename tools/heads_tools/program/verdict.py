"""What `heads check` says of a listing, and what may be written over numbers after it."""
from __future__ import annotations

import functools
import hashlib
import re
import tempfile
from dataclasses import dataclass, replace
from pathlib import Path

from ..common.limits import wide_words
from ..common.marks import plain_listing
from ..common.text import Problem, read_raw, sha256
from ..listing.listing import Listing, listing_bytes
from ..listing.made_by import is_made_wide
from ..listing.spans import ALL_BETWEEN, demand_decks
from .program import call, checks_plans, direct_program, program_file

CERTIFIED = "CERTIFIED"
ALL_EXACT = "Every exact solution of the model's equations lies between the listed numbers."
ALL_CHANGES = "The change of each exact head lies between the two bounds."
ALL_PLANS = (
    "The exact heads of both plans in one weather, and their difference, lie between the listed numbers, and so does "
    "what each term gives more under the plan."
)
NO_MODEL = "no model was named by --name"
NO_CHECK = "no check was asked for"
NO_PLANS = "this program's `heads check` takes no listing of what a plan does"
UNCHECKED_ZONES = "The flows between zones weren't checked: no zone file was named (--zones)."
MOST_NAME = 255


@dataclass(frozen=True, repr=False)
class Verdict:
    """`status`: that of `heads check`, None where it wasn't called; `last`: its last line, or why it wasn't called;
    `name`: the listing's file; `has_zones`: whether the listing has lines ZONE; `is_zoned`: whether the check was given
    their zone file, without which they aren't checked; `is_span`: the listing is that of two decks; `is_change`: the
    verdict is that on two listings, whose heads were subtracted; `sha256`: that of the listing; `model`: the name file,
    with the words that name a plan's wells and a second deck;
    `program`: the sha256 of the program that checked, or ran; `is_plan`: the listing is one of what a plan does;
    `is_run`: status and last line are those of the run that has just made the listing, which wasn't checked."""

    status: int | None
    last: str
    name: str
    has_zones: bool = False
    is_zoned: bool = False
    is_span: bool = False
    is_change: bool = False
    sha256: str = ""
    model: str = ""
    program: str = ""
    is_plan: bool = False
    is_run: bool = False

    def __repr__(self) -> str:
        return f"<{self.name}: {'not checked' if self.status is None else self.last}>"

    @property
    def is_certified(self) -> bool:
        return self.status == 0 and self.last == CERTIFIED

    @property
    def holds(self) -> bool:
        """Whether the program says of these bytes that their numbers are bounds: it certified them, or made them."""
        return self.is_certified or (self.is_run and self.status == 0)

    @property
    def title(self) -> str:
        """What a page of this listing may be called."""
        if self.is_certified:
            return f"Certified heads of {self.name}{', for every deck between two' if self.is_span else ''}"
        return f"Heads listed in {self.name} ({'not checked' if self.status is None else 'NOT CERTIFIED'})"

    @property
    def sentence(self) -> str:
        """The verdict, for the line under the title."""
        if self.is_certified:
            rest = "" if self.is_zoned or not self.has_zones else f" {UNCHECKED_ZONES}"
            what = ALL_CHANGES if self.is_change else ALL_BETWEEN if self.is_span else ALL_EXACT
            what = ALL_PLANS if self.is_plan else what
            return f"heads check: CERTIFIED{', both listings' if self.is_change else ''}. {what}{rest}"
        if self.is_run and self.holds:
            return f"heads run: {self.last}. {ALL_PLANS} Not checked: {NO_PLANS}."
        if self.status is None:
            return f"Not checked ({self.last}): these numbers are bounds only if `heads check` certifies them."
        of = "the decks between these two" if self.is_span else "these models" if self.is_change else "this model"
        return f"heads check: {self.last}. These numbers are no certified bounds of {of}."

    @property
    def note(self) -> str:
        """The same for the foot of a page."""
        if self.is_certified:
            zoned = self.has_zones and self.is_zoned
            tables = "heads.csv, budget.csv and zones.csv" if zoned else "heads.csv and budget.csv"
            return (
                f"The pairs in {tables} are those of the listing, "
                "which `heads check` certified when this page was made."
            )
        return "The pairs in heads.csv and budget.csv are those of the listing. Nothing here says that they are bounds."


    def facts(self) -> dict[str, str]:
        """What a file made of the listing says of itself: what its numbers are, which bytes they come from, and what
        was checked by which program."""
        return {
            "verdict": self.sentence,
            "listing": self.name,
            "listing_sha256": self.sha256 or "not known",
            "model": self.model or "not named",
            "program_sha256": self.program or "none: not checked",
        }


def not_checked(listing: Listing, why: str = NO_MODEL) -> Verdict:
    """The verdict of a listing that wasn't checked."""
    told = listing.path.name, has_zones(listing), False, listing.is_span, listing.is_change
    return Verdict(None, why, *told, sha256=listing.sha256)


def both(plan: Verdict, base: Verdict) -> Verdict:
    """The verdict on the heads of one listing less those of another."""
    worse = next((each for each in (plan, base) if not each.is_certified), plan)
    last = worse.last if worse.is_certified else f"{worse.name}: {worse.last}"
    return replace(
        plan,
        status=worse.status,
        last=last,
        name=f"{plan.name} less {base.name}",
        has_zones=False,
        is_change=True,
        sha256=f"{plan.sha256} less {base.sha256}",
        model=f"{plan.model or 'not named'} less {base.model or 'not named'}",
        program=" and ".join(dict.fromkeys(each.program for each in (plan, base) if each.program)),
    )


def check_listing(
    nam: Path,
    listing: Listing,
    zones: Path | None = None,
    to: list[str] | None = None,
    has_wide: bool = False,
    plan: Path | None = None,
) -> Verdict:
    """Calls `heads check` in the model's folder on the listing's file, with its zone file; where none is named, on the
    listing without its lines ZONE. `to`: the options that name the second deck of a listing of two. The check is with
    --wide where that is asked for, or where the listing is known to be of such a run. `plan`: the wells of a plan's
    listing. The file has to have the bytes that were read: else there is nothing to check."""
    demand_decks(listing, to or [])
    model = " ".join([nam.name, *(["--plan", plan.name] if plan else []), *(to or [])])
    told = listing.path.name, has_zones(listing), zones is not None, listing.is_span, False, listing.sha256, model
    if plan and not checks_plans():
        return Verdict(None, NO_PLANS, *told, is_plan=True)
    with tempfile.TemporaryDirectory(prefix="heads_") as folder:
        path = readable(listing.path, Path(folder) / "listing.heads", told[1] and not told[2])
        words, names = ["check", nam.name, str(path), "--digits", str(listing.digits)], {path: told[0]}
        words += [*(to or []), *wide_words(has_wide or is_made_wide(listing))]
        for word, given in (("--zones", zones), ("--plan", plan)):
            if given:
                file = readable(given, Path(folder) / word[2:])
                words, names = [*words, word, str(file)], names | {file: given.name}
        try:
            ended = call(words, nam.parent)
            program = program_sha256()
        except Problem as error:
            return Verdict(None, str(error), *told, is_plan=plan is not None)
    demand_same(listing)
    last = ended.last or f"status {ended.status}"
    for file, name in names.items():
        last = last.replace(str(file), name)
    return Verdict(ended.status, last, *told, program, plan is not None)


def made_now(nam: Path, listing: Listing) -> Verdict:
    """The verdict on a plan's listing that the program has just made, where it can't check it."""
    told = listing.path.name, has_zones(listing), True, listing.is_span, False, listing.sha256, nam.name
    return Verdict(0, listing.end, *told, program_sha256(), is_plan=True, is_run=True)


def status_of(nam: Path | None, verdict: Verdict) -> int:
    """The status of a command after a check: that of the check, and not 0 where it was asked for, by the model's name,
    and couldn't be made."""
    return (2 if nam else 0) if verdict.status is None else verdict.status


def demand_same(listing: Listing) -> None:
    """Refuses a listing in memory whose file has other bytes by now."""
    if not listing.path.is_file() or hashlib.sha256(listing_bytes(listing.path)).hexdigest() != listing.sha256:
        raise Problem(
            f"{listing.path} isn't the file any more that this listing was read from, so it can't be checked: write"
            " each run that is still needed to a file of its own (--out), or leave the model's name out"
        )


def has_zones(listing: Listing) -> bool:
    return any(step.zones for step in listing.steps)


def readable(path: Path, copy: Path, leaves_zones: bool = False) -> Path:
    """A file as `heads check` can read it: itself, or a copy where its name has a blank, its text isn't plain, or its
    lines ZONE are left out."""
    full, raw = str(path.resolve()), read_raw(path)
    content = plain_listing(raw)[0]
    if leaves_zones:
        content = re.sub(rb"^ZONE .*\n", b"", content, flags=re.M)
    if content == raw and len(full) <= MOST_NAME and all("!" <= c <= "~" for c in full):
        return path.resolve()
    copy.write_bytes(content)
    return copy


def program_sha256() -> str:
    """The hash of the program that is called; where a script starts it, that of the script, which says so."""
    try:
        path = program_file()
    except Problem:
        path = direct_program()
        return f"{sha256(path)} (of the script {path.name})"
    return hash_of(path, path.stat().st_mtime_ns, path.stat().st_size)


@functools.lru_cache
def hash_of(path: Path, time: int, size: int) -> str:
    return sha256(path)
