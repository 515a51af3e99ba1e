"""The exhibit of what a plan's wells do: what checks say of its listing, and what may be said after it."""
from __future__ import annotations

import shlex
from pathlib import Path

from ..common.limits import is_wide, wide_words
from ..common.text import sha256
from ..listing.below_top import ALL_FULL
from ..listing.listing import Listing
from ..listing.plan_listing import read_plan_listing
from ..listing.spans import plan_file
from ..listing.what_is_said import NOT_THE_GROUND, WHY_NOT, WHY_NOT_BETWEEN, Words
from ..pages.weather_page import draw_plan
from ..planning.drawdown_weather import Asked, looked_at
from ..planning.weather_words import permit, promised, tops_of
from ..program.program import Version, checks_plans, program_file
from ..program.verdict import NO_PLANS, Verdict, has_zones, made_now
from .exhibit_parts import RECHECK_PLAN, Exhibit, add_recheck, shell, to_options, zone_file

TESTS = (
    "Two tests of the listing that search for nothing and only test what is listed: one by the program, one by the "
    "short scripts recheck.py and recheck_plan.py, which share no code with it."
)
ONE_TEST = (
    "A test of the listing that searches for nothing and only tests what is listed: that of the short scripts "
    "recheck.py and recheck_plan.py, which share no code with the program."
)
PROVED = (
    "the exact heads of both plans in one weather, and their difference, lie between its numbers, and so does what "
    "each term gives more under the plan"
)


def add_plan_verdicts(told: Exhibit, folder: Path, name: str, listing: str, options: list[str], known: Version) -> int:
    """What `heads check` and recheck_plan.py say, and what may be said after it; the status of the check."""
    read, deck, wells = read_plan_listing(folder / listing), folder / "deck", plan_file(options)[0]
    named, to, wide = zone_file(options), to_options(options), wide_words(is_wide(options))
    zones = [word for file in named for word in ("--zones", file)]
    given = ["--plan", wells, "--digits", str(read.drawdown.digits), *zones, *to, *wide]
    is_checked, command = checks_plans(), f"(cd deck && ../heads check {shlex.join([name, '../' + listing, *given])})"
    if is_checked:
        verdict = checked_by(told, folder, command, read.drawdown, bool(named))
    else:
        verdict = made_now(deck / name, read.drawdown)
        told.facts.append(("check", f"not done: {NO_PLANS}"))
    count = 3 * sum(len(step.low) for step in read.drawdown.steps)
    add_recheck(told, folder, shlex.join([name, "../" + listing, wells, *named, *wide, *to]), count, RECHECK_PLAN)
    told.verdict = verdict.sentence
    asked = Asked(deck / name, deck / wells, deck / to[1] if to else None, has_wide=is_wide(options))
    it = looked_at(asked, read, verdict)
    (folder / "look").mkdir()
    draw_plan(it, folder / "look")
    may, may_not = permit(it)
    why_not = f"{WHY_NOT_BETWEEN} {WHY_NOT}" if it.is_chosen else WHY_NOT
    tests = TESTS if is_checked else ONE_TEST
    told.words = Words([may, promised(it)], [may_not, NOT_THE_GROUND], why_not, PROVED, tests)
    if verdict.holds and known.is_recorded is not False:
        told.may = told.words.may
        told.tops = tops_of(it) or [ALL_FULL]
        if known.is_recorded is None:
            told.verdict += (
                " No record of this program's bytes stands beside it: whether it is the proved one has to be shown."
            )
    return verdict.status or 0


def checked_by(told: Exhibit, folder: Path, command: str, listing: Listing, is_zoned: bool) -> Verdict:
    """What `heads check` says of the listing, by a command of the exhibit."""
    told.commands.append(command)
    checked = shell(folder, command)
    told.facts.append(("check", f"{checked.last} (status {checked.status})"))
    seen = has_zones(listing), is_zoned, listing.is_span
    digest = sha256(program_file())
    return Verdict(checked.status, checked.last, listing.path.name, *seen, program=digest, is_plan=True)
