"""What differs between two decks of one shape, in words."""
from __future__ import annotations

from .deck import Deck
from .writing import package_lines

STRESSES = {
    "WEL": "pumping",
    "RIV": "state of the rivers",
    "DRN": "state of the drains",
    "GHB": "state of the general heads",
    "CHD": "given head",
    "RCH": "recharge",
    "EVT": "evapotranspiration",
    "STRT": "starting head",
}


def what_differs(first: Deck, second: Deck) -> list[str]:
    """The stresses that differ between two decks of one shape, in words."""
    def entries(deck: Deck, kind: str) -> list[str]:
        """What a package says: its lines without comments and its option."""
        if kind == "STRT":
            return [line for array in deck.strt for line in array.lines()]
        return package_lines(deck, kind)[len(deck.comments.get(kind, [])) + 1 :] if kind in deck.files else []

    return [name for kind, name in STRESSES.items() if entries(first, kind) != entries(second, kind)]
