"""What a listing has of each cell: one pair of heads, or of a plan's listing those of both plans and of their
difference."""
from __future__ import annotations

from dataclasses import dataclass
from typing import Union

from ..listing.listing import Listing
from ..listing.plan_listing import WHAT, PlanListing

AnyListing = Union[Listing, PlanListing]


@dataclass(frozen=True)
class Part:
    """A pair for each cell and step: what stands before `lower` and `upper` in names, what it is a bound of, and how a
    band of a picture says that."""

    prefix: str
    what: str
    short: str
    listing: Listing


def parts_of(listing: AnyListing) -> list[Part]:
    if isinstance(listing, PlanListing):
        return [Part(f"{each.part.lower()}_", WHAT[each.part], WHAT[each.part], each) for each in listing.parts]
    if listing.part:
        return [Part("", WHAT[listing.part], WHAT[listing.part], listing)]
    what, short = ("change of the head", "change") if listing.is_change else ("head", "head")
    return [Part("", what, short, listing)]


def first_of(listing: AnyListing) -> Listing:
    """The listing whose cells, steps and digest are those of all parts."""
    return parts_of(listing)[0].listing


def title_of(listing: AnyListing) -> str:
    if isinstance(listing, PlanListing):
        return "Bounds of the heads without a plan's wells, of those with them, and of the drawdown"
    return f"Bounds of the {parts_of(listing)[0].what}"
