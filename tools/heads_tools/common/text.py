"""Texts of files: words of lines, and numbers of people."""
from __future__ import annotations

import hashlib
import re
from decimal import Decimal
from pathlib import Path

from .marks import plain, tell

VERSION = "0.1.0"
LENGTHS = {0: "length units", 1: "ft", 2: "m", 3: "cm"}
TIMES = {0: "time units", 1: "s", 2: "min", 3: "h", 4: "d", 5: "a"}


class Problem(Exception):
    """A sentence for people: what is wrong, with file and line where there is one."""


def words(line: str) -> list[str]:
    """The words of a line as `heads` parts them: by blanks, tabs, commas and carriage returns."""
    return [w for w in re.split(r"[ \t,\r]+", line) if w]


def one_of(unit: str) -> str:
    """A unit of which there is one: `time units` where the model names none."""
    return unit[:-1] if unit.endswith(" units") else unit


def with_unit(number: float, unit: str) -> str:
    return f"{number:.6g} {one_of(unit) if number == 1 else unit}"


def counted(count: int, name: str) -> str:
    """1 step, 2 steps."""
    return f"{count} {name}" + ("" if count == 1 else "s")


def on_disk(folder: Path, name: str) -> Path:
    """The path of a name as it stands in a deck, in which a backslash parts folders too."""
    return folder / name.replace("\\", "/")


def read_text(path: Path) -> str:
    """The text of a file, one character for each byte. A byte-order mark is left out, UTF-16 is read as UTF-8, and
    this is said."""
    content, said = plain(read_raw(path))
    tell(Path(path), said)
    return content.decode("latin-1")


def read_raw(path: Path) -> bytes:
    """The bytes of a file."""
    try:
        return Path(path).read_bytes()
    except IsADirectoryError:
        raise Problem(f"{path} is a folder; a file is due here") from None
    except FileNotFoundError:
        raise Problem(f"there is no file {path}") from None
    except OSError as error:
        raise Problem(f"{path} can't be read: {error.strerror}") from None


def sha256(path: Path) -> str:
    return hashlib.sha256(Path(path).read_bytes()).hexdigest()


def decimal_text(units: int, places: int) -> str:
    """A whole number of 10^-places as a decimal with all its places."""
    sign, units = ("-" if units < 0 else ""), abs(int(units))
    if places == 0:
        return f"{sign}{units}"
    return f"{sign}{units // 10**places}.{units % 10**places:0{places}d}"


def down(units: int, places: int, shown: int = 6) -> str:
    """A lower bound with fewer places, rounded down."""
    return decimal_text(int(units) // 10 ** (places - shown), shown)


def up(units: int, places: int, shown: int = 6) -> str:
    """An upper bound with fewer places, rounded up."""
    return decimal_text(-(-int(units) // 10 ** (places - shown)), shown)


def short_up(value: float) -> str:
    """A number that isn't negative, with three digits, rounded up."""
    return _short(value, 1)


def short_down(value: float) -> str:
    """A number that isn't negative, with three digits, rounded down."""
    return _short(value, -1)


def signed_down(value: float) -> str:
    """A number with three digits, rounded down."""
    return short_down(value) if value >= 0 else "-" + short_up(-value)


def signed_up(value: float) -> str:
    """A number with three digits, rounded up."""
    return short_up(value) if value >= 0 else "-" + short_down(-value)


def without_exponent(text: str) -> str:
    """A number's text with all its zeros: 0.00000586 for 5.86e-06."""
    return f"{Decimal(text):f}"


def _short(value: float, side: int) -> str:
    text = f"{value:.3g}"
    if value == 0 or side * float(text) >= side * value:
        return text
    mantissa, exponent = f"{value:.2e}".split("e")
    return f"{float(f'{float(mantissa) + side * 0.01:.2f}e{exponent}'):.3g}"
