"""Runs the model in its folder into NAME.heads."""
from __future__ import annotations

import argparse
import sys
from pathlib import Path
from typing import IO

from ..common.limits import is_wide
from ..deck.looks import careful
from ..deck.sizes import size_of
from ..listing.below_top import lines_below_top
from ..listing.made_by import made_by
from ..listing.spans import plan_file, second_deck, target_of
from ..program import follow
from ..program.explain import Meaning, explain
from ..program.program import Ended, digits_of, run, with_wide
from .shared import MOST_DIGITS, Ran, existing, flags_of, say
from .words import NAM, WIDE_RUN, add_force, add_quick, add_to, add_wide, add_words


def add(sub: argparse.ArgumentParser) -> None:
    add_words(sub, NAM)
    sub.add_argument("--out", type=Path, help="the listing's file, NAME.heads beside the name file where left out")
    sub.add_argument("--quiet", action="store_true", help="no progress on standard error")
    add_to(sub, "a second deck: bounds for every deck between the two, into NAME-TO.heads")
    add_quick(sub)
    add_wide(sub, WIDE_RUN + "; taken by itself where an end without it asks for it")
    add_force(sub)


def do(args: argparse.Namespace, options: list[str], out: IO[str]) -> int:
    return ran(args, options, out).status


def ran(args: argparse.Namespace, options: list[str], out: IO[str]) -> Ran:
    nam = existing(args.nam)
    to = second_deck(nam, args.to)
    options = [*options, *to, *flags_of(args)]
    for warning in dict.fromkeys(w for deck in (nam, *(nam.with_name(name) for name in to[1:])) for w in careful(deck)):
        print(f"CAREFUL: {warning}", file=sys.stderr)
    plan = plan_file(options)
    target = (args.out or target_of(nam, to, plan)).resolve()
    digits, tried, (steps, cells) = digits_of(options), [], size_of(nam)
    is_followed = steps is not None and cells * steps <= follow.MOST_WATCHED
    ended = run(nam, options, target, steps, not args.quiet, is_followed)
    while True:
        if more := with_wide(ended, options, nam.parent):
            options = more
        elif is_of_digits(ended, options):
            tried.append(digits)
            fewer = ended.last.split()[1] == "22"
            digits += -3 if fewer else 3
            if not 0 <= digits <= MOST_DIGITS or digits in tried:
                break
            many = "too few" if not fewer else "too many"
            say([f"{ended.last}: {many} digits; once more with --digits {digits}"], out)
        else:
            break
        given = ["--digits", str(digits)] if tried else []
        ended = run(nam, [*options, *given], target, steps, not args.quiet, is_followed)
    meaning = explain(ended.last, nam.parent, digits, ended.steps > 0, options)
    if ended.status != 0 or not meaning.is_good:
        return without_listing(ended, meaning, target, out)
    if plan:
        drawdown = ended.plan_listing().drawdown
        seconds = f"{ended.seconds:.1f} s"
        lines = [*meaning.lines, f"drawdown: {drawdown.summary()}", f"listing {target} ({seconds}): `look` draws it"]
        say(lines, out)
        return Ran(0, ended.last, lines, drawdown)
    listing = ended.listing()
    for line in lines_below_top(nam, listing):
        print(f"CAREFUL: {line}", file=sys.stderr)
    lines = [
        *meaning.lines,
        *([made_by(listing)] if args.quick or is_wide(options) else []),
        listing.summary(),
        f"listing {target} ({ended.seconds:.1f} s" + (f", --digits {digits})" if tried else ")"),
    ]
    say(lines, out)
    return Ran(0, ended.last, lines, listing)


def without_listing(ended: Ended, meaning: Meaning, target: Path, out: IO[str]) -> Ran:
    """Says how a run ended that wrote no whole listing."""
    lines = meaning.lines if not meaning.is_good else [f"The run ended with status {ended.status} after its last line."]
    if ended.output is not None and ended.output != target:
        kept = f"{target} is that of an earlier run and was left; " if target.exists() else ""
        lines = [*lines, f"{kept}this run's output is {ended.output.name}"]
    say(lines, out)
    return Ran(ended.status or meaning.status or 6, ended.last, lines)


def is_of_digits(ended: Ended, options: list[str]) -> bool:
    """Whether other digits can help a run that was given none."""
    return ended.status == 3 and ended.last.split()[1:2] in (["22"], ["21"]) and "--digits" not in " ".join(options)
