"""What to change where the program refuses a line of a deck."""
from __future__ import annotations

import re
from pathlib import Path

from ..common.text import words
from ..deck.deck import COLUMNS
from ..deck.names import missing
from ..deck.other_packages import OTHER_PACKAGES, UNKNOWN_PACKAGE
from ..deck.sources import odd_bytes
from .advice import NOT_ALIKE, ONLY_PRINT, OUT_OF_RANGE, REMEDIES
from .spots import Spot, is_count, is_short_entry

WHOLE = ("IBOUND", "LAYTYP", "LAYAVG", "LAYVKA", "LAYWET")


def advice(code: int, spot: Spot, folder: Path) -> str:
    """What to change for a refusal."""
    special = {
        1: lambda s, f: missing(s.file, f),
        3: lambda s, f: "Rename the file, without blanks and accents (`heads-tools plain` does).",
        6: package,
        9: bad_number,
        10: many_digits,
        11: profile,
        12: grid,
        13: control,
        15: out_of_range,
        28: lambda s, f: NOT_ALIKE.get(s.kind, NOT_ALIKE[""]),
    }
    return special[code](spot, folder) if code in special else REMEDIES.get(code, "")


def package(spot: Spot, folder: Path) -> str:
    if not spot.text.strip("\x1a \r\t"):
        return "The line is an end-of-file mark of old editors (Ctrl-Z): take it out (`heads-tools plain` does)."
    if spot.first in ONLY_PRINT:
        return (
            f"{spot.first} only prints or compares, it changes no head: take the line out (`heads-tools plain` does)."
        )
    text = OTHER_PACKAGES.get(spot.first, UNKNOWN_PACKAGE)
    return text[0].upper() + text[1:] + "."


def bad_number(spot: Spot, folder: Path) -> str:
    odd = odd_bytes("\n".join(spot.lines)) if spot.line == 1 else odd_bytes(spot.text)
    if odd:
        return odd[0].upper() + odd[1:] + "."
    if spot.text.lstrip().startswith("#"):
        return (
            "Comments stand only before the first item of a file, and begin in the first column (MODFLOW stops here,"
            " too): take the line out."
        )
    if spot.first == "SPECIFY":
        return (
            "SPECIFY is an option of MODFLOW-NWT, which acts in convertible layers alone: take the line out"
            " (`heads-tools plain` does)."
        )
    if spot.first == "PARAMETER":
        return (
            "Parameters aren't read here: `heads-tools plain` multiplies them out, exactly, and drops `PARAMETER 0`."
        )
    if is_short_entry(spot):
        names = COLUMNS[spot.kind]
        return (
            f"An entry of {spot.kind} is layer, row, column, {', '.join(names)}, and this line has"
            f" {len(words(spot.text))} of the {3 + len(names)} numbers (MODFLOW reads 0 for those that are missing, and"
            " `heads-tools plain` writes it)."
        )
    for place, word in enumerate(words(spot.text)):
        if word == "/":
            return "`/` ends the array: MODFLOW keeps what it had for the values that are missing. Write the values."
        if word.endswith("*") and word[:-1].isdigit():
            return f"`{word}` repeats no value: MODFLOW keeps there what it had. Write the value."
        if word.lower().lstrip("+-") in ("nan", "inf", "infinity"):
            return f"`{word}` came out of a script: find the cell that has no value there."
        if re.fullmatch(r"[+-]?[0-9.]+[+-]\d+", word):
            return (
                f"`{word}` is a Fortran exponent without a letter: write an E before the last sign (`heads-tools plain`"
                " does)."
            )
        exponent = re.fullmatch(r"[+-]?[0-9.]+[EeDd]([+-]?\d+)", word)
        if exponent and abs(int(exponent[1])) > 40:
            return (
                f"`{word}`: exponents go from -40 to 40. As HNOFLO or HDRY it is only a marker: "
                "any other number will do (`heads-tools plain` writes -999.99)."
            )
        if re.fullmatch(r"[+-]?\d+\.\d*", word) and is_count(spot, place):
            return f"`{word}` is a count or a cell's number: write it without a point (MODFLOW refuses it, too)."
        if re.fullmatch(r"[+-]?\d+\.\d*", word) and spot.due.startswith(WHOLE):
            return (
                f"{spot.due} has whole numbers: write `{word}` without a point (MODFLOW refuses it, too)."
            )
    if spot.first == "NOPRINT":
        return "Options stand after the count, on the same line."
    if spot.first in ("CONSTANT", "INTERNAL", "OPEN/CLOSE"):
        return (
            f"The array before line {spot.line} has too few values (or leaves one out by `,,`): count the values of its"
            " rows."
        )
    return (
        "If the word looks right, a value is missing further up: values run on over lines. "
        "In columns of fixed width numbers may touch (`heads-tools plain` reads them)."
    )


def many_digits(spot: Spot, folder: Path) -> str:
    return (
        'numpy.savetxt writes 19 digits unless told: use fmt="%.15e". `heads-tools plain` rounds to 18 and says where.'
    )


def profile(spot: Spot, folder: Path) -> str:
    all_words = {w.upper() for w in words(spot.text)}
    if spot.kind == "BAS6" and spot.first not in ("CONSTANT", "INTERNAL", "EXTERNAL", "OPEN/CLOSE"):
        if "XSECTION" in all_words:
            return (
                "BAS6's option XSECTION isn't read (MODFLOW reads the word after a # too): load and save the model by"
                " FloPy."
            )
        if "CHTOCH" in all_words:
            return (
                "BAS6's option CHTOCH isn't read: it only adds flows between constant cells to the budget. Take it out"
                " (`heads-tools plain` does)."
            )
        return (
            "BAS6 lacks the option FREE, so the deck is in columns of fixed width: `heads-tools plain` reads and"
            " rewrites it."
        )
    if spot.kind == "LPF" and spot.item in (1, 2, 3, 6):
        return {
            1: (
                "LPF has parameters (its third number is above 0): `heads-tools plain` multiplies them out, exactly."
            ),
            2: (
                "LAYTYP: every layer is confined (0) here. A convertible layer is another model, whose transmissivity"
                " changes with the head: to make it confined is your decision, not a spelling. `heads-tools certify"
                " --convertible` makes bounds of such a model from a run's heads, which `heads check --convertible`"
                " certifies."
            ),
            3: "LAYAVG: only the harmonic mean (0) is read.",
            6: "LAYWET: no wetting in confined layers; write 0.",
        }[spot.item]
    if spot.kind == "DIS" and spot.item <= 3:
        return "LAYCBD of the last layer is 0: there is no layer below its bed."
    if spot.first in ("OPEN/CLOSE", "EXTERNAL") and not any(w.startswith(("(", "'(")) for w in all_words):
        return (
            "A list in a file of its own isn't read: put its entries here (`heads-tools plain` does it; FloPy: without"
            " external_path)."
        )
    if spot.first == "EXTERNAL":
        return (
            "Write OPEN/CLOSE and the file's name in place of the unit (`heads-tools plain` puts the array in place)."
        )
    if spot.first == "SFAC":
        return "Multiply the entries by it and take the line out (`heads-tools plain` does it, exactly)."
    if spot.first == "PARAMETER":
        return "Parameters aren't read here: `heads-tools plain` multiplies them out, exactly."
    if "(BINARY)" in all_words:
        return "Binary arrays aren't read: write text (`heads-tools plain` does it)."
    if any(w.startswith(("(", "'(")) and w != "(FREE)" for w in all_words):
        return "Only (FREE), without quotes, is read, and no columns of fixed width (`heads-tools plain` rewrites it)."
    if spot.kind == "CHD":
        return (
            "A steady period of several steps with a TSMULT that isn't 1 and given heads that change within it: "
            "MODFLOW's times of its steps differ from the deck's; set TSMULT to 1."
        )
    if spot.kind in ("RCH", "EVT") and spot.item == 1:
        return "The option is 1, 2 or 3."
    return "Parameters (a second number above 0)? `heads-tools plain` multiplies them out, exactly."


def out_of_range(spot: Spot, folder: Path) -> str:
    return OUT_OF_RANGE.get(spot.kind, REMEDIES[15])


def grid(spot: Spot, folder: Path) -> str:
    if spot.kind == "DIS" and spot.item == 1:
        return (
            "NLAY from 1 to 64, NROW and NCOL from 1 to 1,024, at most 65,536 cells, NPER from 1 to 1,000; with --wide "
            "NLAY up to 1,024, NROW and NCOL up to 4,096, at most 4,194,304 cells (`heads-tools run` takes the word by "
            "itself). A part of the model can be cut out with CHD or GHB on its edge; it is another model then."
        )
    return (
        "PERLEN above 0 where transient; at most 100,000 steps in all; "
        "TSMULT from 0.001 to 1000 with at most 1,000 steps where it isn't 1; SS or TR. Widths are above 0."
    )


def control(spot: Spot, folder: Path) -> str:
    return (
        "A record in fixed columns (LOCAT CNSTNT FMTIN) isn't read: `heads-tools plain` rewrites it. "
        "Or the array before it has more values than its grid: count them."
    )
