"""The facts under a page's verdict: which listing, of which model, checked by which program, made when."""
from __future__ import annotations

import time

from ..common.text import VERSION
from ..deck.model import Model
from ..listing.listing import Listing
from ..listing.made_by import made_by
from ..program.verdict import Verdict

Facts = list[tuple[str, str]]


def facts_of(listing: Listing, unit: str, model: Model | None, name: str = "Listing") -> Facts:
    """What a listing is, and its model. `name`: what the page calls it."""
    about = f"{listing.path.name}, --digits {listing.digits}: {listing.summary()} in\u00a0{unit}"
    made, digest = made_by(listing), f"; sha256 {listing.sha256}" if listing.sha256 else ""
    facts = [(name, about + digest)] + ([(f"{name}'s pairs", made)] if made else [])
    if model:
        size = " x ".join(map(str, model.shape))
        facts.append((f"{name}'s model", f"{model.deck.path.name}: {size} cells (layers, rows, columns)"))
    return facts


def facts_of_making(seen: list[Verdict]) -> Facts:
    """The program that checked, by its hash, and when the page was made."""
    programs = dict.fromkeys(each.program for each in seen if each.program)
    word = "Listed by" if any(each.is_run for each in seen) else "Checked by"
    checked = [(word, ", ".join(f"heads, sha256 {program}" for program in programs))] if programs else []
    return [*checked, ("Made by", f"heads-tools {VERSION}, {time.strftime('%Y-%m-%d %H:%M UTC', time.gmtime())}")]
