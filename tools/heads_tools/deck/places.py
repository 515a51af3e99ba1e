"""What the comments of a deck say of the grid's place, as FloPy writes them into the name file, with the start date:
`#xll:155000.0; yll:463000.0; rotation:12.0; crs:EPSG:28992; start_datetime:2024-01-01`, and ModelMuse into DIS."""
from __future__ import annotations

import math
import re
from dataclasses import dataclass
from pathlib import Path

import numpy as np

from ..common.text import Problem, read_text
from .deck import Deck

CORNER = re.compile(r"(upper|lower) (left|right) corner: *\(([-+.\dEe]+), *([-+.\dEe]+)\)", re.IGNORECASE)
NEAR = 1e-5


def fields_of(nam: Path) -> dict[str, str]:
    """The fields `name:value` of the comments of a name file."""
    lines = (line[1:] for line in read_text(nam).split("\n") if line.startswith("#") and ":" in line)
    parts = (part.partition(":") for line in lines for part in line.split(";"))
    return {name.strip().lower(): text.strip() for name, _, text in parts}


def named_place(deck: Deck) -> tuple[Place | None, str]:
    """The place that a deck's comments give to its grid, and where they stand; none where they don't: FloPy's in the
    name file, ModelMuse's in DIS."""
    place = place_of_fields(fields_of(deck.path))
    if place is not None:
        return place, f"the comments of {deck.path.name}"
    place = place_of_corners(deck)
    return place, f"the corners in the comments of {deck.files['DIS']}" if place else ""


def place_of_fields(fields: dict[str, str]) -> Place | None:
    try:
        x, y, angle = (float(fields.get(name, "0")) for name in ("xll", "yll", "rotation"))
    except ValueError:
        return None
    if not all(map(math.isfinite, (x, y, angle))):
        return None
    known = re.search(r"\bepsg:(\d+)", ";".join(f"{name}:{text}" for name, text in fields.items()), re.IGNORECASE)
    place = Place(x, y, angle, int(known[1]) if known else None)
    return place if "xll" in fields and place != Place() else None


def place_of_corners(deck: Deck) -> Place | None:
    """The place by the four corners that ModelMuse writes as comments into DIS: `# Lower left corner: (x, y)`. Corners
    that don't fit the grid's widths are of another grid."""
    found = {}
    for line in deck.comments.get("DIS", []):
        if corner := CORNER.search(line):
            found[corner[1].lower(), corner[2].lower()] = float(corner[3]), float(corner[4])
    try:
        begin, right, up = (found[name] for name in (("lower", "left"), ("lower", "right"), ("upper", "left")))
    except KeyError:
        return None
    across, along = (tuple(b - a for a, b in zip(begin, end)) for end in (right, up))
    for side, widths in ((across, deck.delr), (along, deck.delc)):
        if not math.isclose(math.hypot(*side), widths.floats().sum(), rel_tol=NEAR):
            return None
    if abs(across[0] * along[0] + across[1] * along[1]) > NEAR * math.hypot(*across) * math.hypot(*along):
        return None
    return Place(*begin, math.degrees(math.atan2(across[1], across[0])))


@dataclass(frozen=True)
class Place:
    """Where the grid lies, as FloPy's xoff, yoff, angrot and epsg: the corner of the last row and the first column, and
    the degrees by which the grid is turned round it against the clock."""

    x: float = 0.0
    y: float = 0.0
    angle: float = 0.0
    epsg: int | None = None

    def world(self, x: np.ndarray, y: np.ndarray) -> tuple[np.ndarray, np.ndarray]:
        """Coordinates on the map of points of the grid."""
        c, s = math.cos(math.radians(self.angle)), math.sin(math.radians(self.angle))
        return self.x + c * x - s * y, self.y + s * x + c * y

    def grid(self, x: float, y: float) -> tuple[float, float]:
        """The grid's own coordinates of a point of the map."""
        c, s = math.cos(math.radians(self.angle)), math.sin(math.radians(self.angle))
        return c * (x - self.x) + s * (y - self.y), -s * (x - self.x) + c * (y - self.y)


def place_of(text: str) -> Place:
    """The place of X0,Y0[,ANGLE[,EPSG]]."""
    parts = text.split(",")
    try:
        if not 2 <= len(parts) <= 4:
            raise ValueError
        x, y, angle = map(float, [*parts[:3], "0"][:3])
        if not (math.isfinite(x) and math.isfinite(y) and abs(angle) <= 360):
            raise ValueError
        return Place(x, y, angle, int(parts[3]) if len(parts) == 4 else None)
    except ValueError:
        raise Problem(
            f"`{text}`: a place is X0,Y0[,ANGLE[,EPSG]], the grid's lower left corner, degrees against the clock, a"
            " code of EPSG"
        ) from None
