"""explain: what the last line of an output means, with the deck's own line, and what to change."""
from __future__ import annotations

from dataclasses import dataclass
from pathlib import Path

from ..common.text import Problem, read_text
from ..deck.names import nam_of
from ..deck.packages import read_deck
from ..listing.made_by import made_by
from ..listing.spans import ALL_BETWEEN
from .advice import NO_BOUNDS, REFUSALS, REMEDIES
from .option_faults import option_faults
from .remedies import advice
from .spots import spot_of

STATUSES = {
    "USAGE:": (
        1,
        "The words weren't taken.",
        (
            "Commands: run NAME, check NAME LISTING, make SEED SIZE, batch LIST; --digits 0 to 18, --workers 1 to 64,"
            " --rounds 1 to 4000000000, --zones FILE, --watch 1 to 1000, --to NAME, --quick (run and batch, without"
            " --watch), --wide (run, check, batch, write), --plan WELLS (run and check, without --watch and --deck). A"
            " program older than --zones, --watch, --to, --quick, --wide, --plan or batch answers them so too."
        ),
    ),
    "UNFINISHED": (
        4,
        "Period {0}, step {1} needs more rounds than were allowed.",
        "Leave --rounds out; or --quick, which settles a step only where no guessed pair passes the test; or"
        " `heads-tools certify`, which needs no rounds.",
    ),
    "READFAULT": (5, "A file could not be read.", "Look at its permissions, and at the disk."),
    "MEMORY": (
        7,
        "There was too little memory.",
        "Close other programs, or take a machine with more memory; fewer --workers need a little less.",
    ),
    "NOT": (
        8,
        "The listing isn't a certificate: period {1} step {2}, {3} is the first place that fails.",
        "Its margin there is too small, or its model has changed. `heads-tools certify` makes margins that hold.",
    ),
}
# How the last line of a plan's listing names the pair that it is about.
PLAN_PARTS = {"PLAN": ", with the plan's wells", "DRAWDOWN": ", of what the plan does"}


@dataclass
class Meaning:
    """How a run ended: the status, whether it ended well, lines for people."""

    status: int
    is_good: bool
    lines: list[str]


def explain_output(output: Path, folder: Path, digits: int | None = None) -> Meaning:
    """The meaning of the last line of an output file, and which pairs it has where the words of its run are kept."""
    lines = read_text(output).splitlines()
    if lines and lines[0].startswith("MODEL "):
        return explain_batch(lines, folder, digits)
    meaning = explain_lines(lines, folder, digits)
    told = made_by(output) if meaning.is_good else ""
    return Meaning(meaning.status, meaning.is_good, [*meaning.lines, *([told] if told else [])])


def explain_batch(lines: list[str], folder: Path, digits: int | None) -> Meaning:
    """The meanings of the models of a batch: the status is the first one that isn't 0."""
    starts = [n for n, line in enumerate(lines) if line.startswith("MODEL ")]
    tail = len(lines) - (lines[-1] == "END" and lines[-2] != lines[starts[-1]])
    status, said = 0, []
    for begin, end in zip(starts, starts[1:] + [tail]):
        one = explain_lines(lines[begin + 1 : end], folder, digits)
        status = status or one.status
        said += [f"{lines[begin][6:]}: {one.lines[0]}", *one.lines[1:]]
    if lines[-1] != "END":
        status = status or 6
        said.append("The batch doesn't end with END: it was stopped, or a write failed.")
    return Meaning(status, status == 0, said)


def explain_lines(lines: list[str], folder: Path, digits: int | None) -> Meaning:
    """The meaning of the last line of a run's output."""
    first = lines[0].split() if lines else []
    if digits is None:
        digits = int(first[3]) if first[:1] == ["HEADS"] and len(first) > 3 and first[3].isdigit() else 12
    meaning = explain(lines[-1] if lines else "", folder, digits, any(line.startswith("STEP ") for line in lines))
    if first[6:] == ["TO"] and meaning.is_good:
        meaning.lines.append(f"It is a listing of two decks. {ALL_BETWEEN}")
    return meaning


def explain(
    last: str, folder: Path, digits: int = 12, has_steps: bool = False, options: list[str] | None = None
) -> Meaning:
    """The meaning of a last line, of a run in a folder with these options."""
    w = last.split()
    if not w:
        return Meaning(6, False, ["Nothing was written: a write failed (is the disk full?), or the run was stopped."])
    if last in ("END", "CERTIFIED"):
        said = {
            "END": "The run ended well (END).",
            "CERTIFIED": "CERTIFIED: every exact solution of the deck's equations lies within the listing.",
        }
        return Meaning(0, True, [said[last]])
    if w[0] == "REFUSED" and len(w) >= 5 and w[1].isdigit() and int(w[1]) in REFUSALS:
        return Meaning(2, False, refusal(int(w[1]), w[2], w[3], w[4], w[5:8], folder))
    if w[0] == "NOBOUND" and len(w) >= 5 and w[1].isdigit() and int(w[1]) in NO_BOUNDS:
        return Meaning(3, False, no_bound(int(w[1]), w[2], w[3], w[4], w[5:], digits, has_steps))
    if w[0] in STATUSES:
        status, text, remedy = STATUSES[w[0]]
        parts = w[1:4] + [" ".join(w[4:])] if w[0] == "NOT" else w[1:] + ["?", "?"]
        wrong = [f"     {fault}." for fault in option_faults(options or [])] if w[0] == "USAGE:" else []
        text = text.replace("{1} needs", "{1}" + PLAN_PARTS.get(w[-1], "") + " needs")
        if w[0] == "NOT" and w[4:5] and w[4] in ("BASE", "PLAN", "DRAWDOWN", "SOURCE"):
            remedy = "The deck, the wells or the listing has changed since the run: run it again with these wells."
        return Meaning(status, False, [text.format(*parts), *wrong, f"  -> {remedy}"])
    return Meaning(
        6,
        False,
        [
            f"The output ends with `{last[:60]}`, which is no last line of `heads`: the run was stopped, or a write"
            " failed."
        ],
    )


def no_bound(code: int, word: str, period: str, step: str, place: list[str], digits: int, has_steps: bool) -> list[str]:
    of = PLAN_PARTS.get(place[-1], "") if place else ""
    place = place[:-1] if of else place
    at = " ".join(place) + (" (layer row column)" if place and place[0].isdigit() else "") + of
    out = [f"{word} in period {period}, step {step}, at {at}: {NO_BOUNDS[code].format(digits=digits)}"]
    if has_steps:
        out.append(
            "     The steps before it stand in the output, but nothing is promised of a run that doesn't end with END."
        )
    if code == 21:
        more = (
            f"Run with more digits, as --digits {min(18, digits + 3)}. Or make"
            if digits < 18
            else "18 digits are the most. Make"
        )
        more += " the cell inactive, if so small a conductivity was a marker."
    elif code in (22, 23):
        fewer = max(0, digits - 3)
        more = (
            (
                f"Run with fewer digits: --digits {fewer} has room for conductances up to {1.15e18 / 10**fewer:.3g} at"
                " a cell. "
                if digits
                else ""
            )
            + "The pairs mostly stay as narrow. A conductance that only holds a head (1e7 and more) can be made smaller"
            " too."
        )
    else:
        more = REMEDIES[code]
    return out + [f"  -> {more}"]


def refusal(code: int, word: str, file: str, line: str, cell: list[str], folder: Path) -> list[str]:
    spot = spot_of(folder, file, int(line) if line.isdigit() else 0)
    at = (f", line {spot.line}" if spot.line else "") + (
        ", cell {} (layer row column)".format(" ".join(cell)) if cell else ""
    )
    where = "the command's words" if file == "-" else file
    out = [f"{word} in {where}{at}: {REFUSALS[code].format(file=file)}"]
    if spot.text.strip():
        out.append(f"     {spot.text.strip()[:110]}")
    spot.due = due_of(folder, file) if code in (8, 9, 13) else ""
    remedy = advice(code, spot, folder)
    if spot.mark:
        remedy = f"The file {spot.mark}: save it as ASCII (`heads-tools plain` does)."
    return out + ([f"     This was due there: {spot.due}."] if spot.due else []) + [f"  -> {remedy}"] * bool(remedy)


def due_of(folder: Path, file: str) -> str:
    """What was being read of a file where its reading stopped, by the name file of the folder that names it."""
    nam = nam_of(folder, file)
    try:
        return read_deck(nam)[1].due.get(file, "") if nam else ""
    except (Problem, IndexError, ValueError):
        return ""
