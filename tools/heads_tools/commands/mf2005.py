"""mf2005: runs `heads` as MODFLOW-2005 is called, for FloPy, ModelMuse and scripts: the name file as the one word,
head file at the unit of the name file, a list file with the budget, and the words 'Normal termination of simulation'.
Written from the documented call and files; the heads are the middles of the pairs, which lie beside the head file in
NAME.heads. As MODFLOW-2005 opens its outputs anew, those of the run before go first, so that nobody takes them for
those of this run."""
from __future__ import annotations

import argparse
import re
import tempfile
from contextlib import suppress
from dataclasses import dataclass, field, replace
from itertools import count
from pathlib import Path
from typing import IO

from ..common.kept_files import OUTPUTS, is_ours, kinds_of
from ..common.spelling import quoted_words
from ..common.text import Problem, on_disk, read_text
from ..common.whole_files import whole_file
from ..deck.model import Model, read_model
from ..deck.packages import read_deck
from ..listing.headfile import write_heads
from ..listing.listing import TERMS, Listing, Step
from ..program.about import about_file, write_about
from ..program.explain import explain
from ..program.program import DEFAULT_DIGITS, Ended, run, with_wide
from ..program.verdict import not_checked
from .plain import plain

SECONDS = {1: 1.0, 2: 60.0, 3: 3600.0, 4: 86400.0, 5: 31557600.0}
NORMAL = "Normal termination of simulation"
BEGIN = "                                  heads\n      BOUNDS OF THE EQUATIONS OF MODFLOW-2005"
NOT_HERE = "mf2005 writes the middles of the pairs, without bounds"


@dataclass
class Output:
    """What the name file and the output control ask for: the list file, the head file, and what else MODFLOW-2005 would
    write anew; the lines of the output control."""

    list_file: Path | None = None
    head_file: Path | None = None
    others: list[Path] = field(default_factory=list)
    control: list[str] = field(default_factory=list)

    @property
    def files(self) -> list[Path]:
        return list(dict.fromkeys(path for path in (self.list_file, self.head_file, *self.others) if path))


def name_file(words: list[str]) -> Path:
    """The name file of the call: its first word, with or without the ending .nam."""
    if not words:
        raise Problem("the name file is the one word: mf2005 m.nam")
    path = Path(words[0])
    found = next((p for p in (path, path.with_name(path.name + ".nam")) if p.is_file()), None)
    if found is None:
        raise Problem(f"there is no file {path}")
    return found.resolve()


def output_of(nam: Path) -> Output:
    out, units, control = Output(), {}, None
    for line in read_text(nam).splitlines():
        w = quoted_words(line)
        if line.startswith("#") or len(w) < 3:
            continue
        units[w[1]] = on_disk(nam.parent, w[2])
        if w[0].upper() == "LIST":
            out.list_file = units[w[1]]
        if w[0].upper() == "OC":
            control = units[w[1]]
        if w[0].upper() in OUTPUTS and "REPLACE" in (word.upper() for word in w[3:]):
            out.others.append(units[w[1]])
    if control is not None and control.is_file():
        out.control = [line for line in read_text(control).splitlines() if line.strip() and not line.startswith("#")]
    out.head_file = units.get(head_unit(out.control))
    return out


def is_by_numbers(control: list[str]) -> bool:
    """Whether an output control is one by numbers, and not by words."""
    first = quoted_words(control[0]) if control else []
    return len(first) > 2 and all(re.fullmatch(r"[+-]?\d+", word) for word in first[:3])


def head_unit(control: list[str]) -> str:
    """The unit of saved heads."""
    if is_by_numbers(control):
        return quoted_words(control[0])[2]
    saved = [w for w in map(quoted_words, control) if [x.upper() for x in w[:3]] == ["HEAD", "SAVE", "UNIT"]]
    return saved[-1][3] if saved and len(saved[-1]) > 3 else ""


def saved_steps(control: list[str], model: Model) -> set[tuple[int, int]]:
    """The steps whose heads an output control saves, by words or by numbers."""
    if is_by_numbers(control):
        return saved_by_numbers(control, model)
    saved, at = set(), None
    for line in control:
        w = [x.upper() for x in quoted_words(line)]
        if w[0] == "PERIOD" and len(w) > 3:
            at = (int(w[1]), int(w[3]))
        elif w[:2] == ["SAVE", "HEAD"] and at:
            saved.add(at)
    return saved


def saved_by_numbers(lines: list[str], model: Model) -> set[tuple[int, int]]:
    saved, rows = set(), iter(lines[1:])
    is_saved = False
    for key in model.times:
        w = quoted_words(next(rows, "-1 0 0 0"))
        layers = {0: 1}.get(int(w[0]), 0 if int(w[0]) < 0 else model.shape[0])
        flags = [quoted_words(next(rows, "0 0 0 0")) for _ in range(layers)]
        if layers:
            is_saved = any(int(f[2]) for f in flags if len(f) > 2)
        if is_saved:
            saved.add(key)
    return saved


def make_room(files: list[Path], nam: Path, out: IO[str]) -> None:
    """Removes the outputs of the run before. One that another program wrote is lost to nobody: it gets the name
    NAME.before."""
    for path in files:
        if kinds_of(nam).get(path.resolve()) not in OUTPUTS:
            raise Problem(f"{path} would be written over: {nam.name} names it as a file of the deck, too")
        if not path.is_file():
            continue
        if is_ours(path):
            path.unlink()
            about_file(path).unlink(missing_ok=True)
            continue
        names = (path.with_name(f"{path.name}.before{n or ''}") for n in count())
        place = next(each for each in names if not each.exists())
        path.rename(place)
        print(f" {path.name} of another program was there: it is {place.name} now", file=out)


def simulate(nam: Path, options: list[str]) -> tuple[Ended, Model | None]:
    """Runs the deck, or the plain one where the program refuses the deck as it stands; how it ended, and the model of a
    run that ended well."""
    target = nam.with_suffix(".heads")
    ended = run(nam, options, target, is_told=False)
    if more := with_wide(ended, options, nam.parent):
        ended = run(nam, options := more, target, is_told=False)
    if ended.status != 2:
        return ended, read_model(nam) if ended.status == 0 else None
    with tempfile.TemporaryDirectory() as folder:
        try:
            written = plain(nam, Path(folder))
            if written.refused:
                return ended, None
        except Problem:
            return ended, None
        again = run(written.path, options, target, is_told=False)
        return again, read_model(written.path) if again.status == 0 else None


def mf2005(words: list[str], out: IO[str]) -> int:
    """The call; its status, 0 with the words of a normal end."""
    nam = name_file([w for w in words if not w.startswith("/")])
    options = [w for w in words[1:] if not w.startswith("/")]
    print(f"\n heads as MODFLOW-2005 is called\n Using NAME file: {nam.name}\n", file=out, flush=True)
    output = output_of(nam)
    make_room(output.files, nam, out)
    try:
        return simulated(nam, options, output, out)
    except BaseException as error:
        write_failure(output, nam, [str(error) or "The run was stopped."])
        raise


def simulated(nam: Path, options: list[str], output: Output, out: IO[str]) -> int:
    """Runs the model and writes its outputs; the status."""
    ended, model = simulate(nam, options)
    if ended.status != 0 or model is None:
        lines = explain(ended.last, nam.parent, DEFAULT_DIGITS, ended.steps > 0, options).lines
        write_failure(output, nam, [ended.last, *lines])
        print("\n".join(lines), file=out)
        print(" The run didn't end well: no head file was written", file=out)
        return ended.status or 6
    listing = ended.listing()
    saved = saved_steps(output.control, model)
    if output.head_file is not None and saved:
        chosen = replace(listing, steps=[s for s in listing.steps if (s.period, s.step) in saved])
        write_heads(output.head_file, chosen, "middle", model.shape, model.times, is_single=True, no_flow=no_flow(nam))
        write_about(output.head_file, not_checked(listing, NOT_HERE))
    if output.list_file is not None:
        write_list(output.list_file, nam, listing, model)
    for step in listing.steps:
        solving = f"Stress period: {step.period:5d}    Time step: {step.step:5d}    Ground-Water Flow Eqn."
        print(f" Solving:  {solving}", file=out)
    print(f"\n  {NORMAL}", file=out)
    return 0


def write_failure(output: Output, nam: Path, lines: list[str]) -> None:
    """The list file of a run that failed."""
    if output.list_file is None:
        return
    with suppress(Problem), whole_file(output.list_file) as file:
        told = "\n".join(f" {line}" for text in lines for line in text.split("\n"))
        failed = "THE RUN DID NOT END WELL, AND THERE ARE NO HEADS OF IT:"
        file.write(f"{BEGIN}; NAME FILE {nam.name}\n\n {failed}\n{told}\n")


def no_flow(nam: Path) -> float:
    """HNOFLO of the deck, -999.99 where it can't be told."""
    try:
        return float(read_deck(nam)[0].options.get("HNOFLO", "-999.99").replace("D", "E").replace("d", "e"))
    except ValueError:
        return -999.99


def write_list(path: Path, nam: Path, listing: Listing, model: Model) -> None:
    """A list file with a budget and a time summary for each step, in the form that FloPy's reader of budgets takes."""
    volumes = {name: [0.0, 0.0] for name in TERMS}
    with whole_file(path) as file:
        file.write(
            f"{BEGIN}; LISTING {listing.path.name}, NAME FILE {nam.name}\n"
            " HEADS AND FLOWS HERE ARE THE MIDDLES OF THE LISTED PAIRS, WITHOUT BOUNDS\n\n"
        )
        begin = 0.0
        for step in listing.steps:
            within, total = model.times[step.period, step.step]
            rates = rates_of(step, listing)
            for name, (into, out) in rates.items():
                volumes[name][0] += into * (total - begin)
                volumes[name][1] += out * (total - begin)
            file.write(budget_text(step, {n: v for n, v in volumes.items() if n in rates}, rates))
            file.write(time_text(step, (total - begin, within, total), SECONDS.get(model.deck.itmuni, 1.0)))
            begin = total
        file.write("\n Run end: heads\n")


def rates_of(step: Step, listing: Listing) -> dict[str, tuple[float, float]]:
    """The middles of each term's in and out."""
    unit = 2 * 10**listing.flow_places
    return {name: ((t[0] + t[1]) / unit, (t[2] + t[3]) / unit) for name, t in step.terms.items()}


def number_text(value: float) -> str:
    return f"{value:17.4f}" if value == 0 or 0.1 <= abs(value) < 1e11 else f"{value:17.4E}"


def budget_text(step: Step, volumes: dict[str, list[float]], rates: dict[str, tuple[float, float]]) -> str:
    title = f"VOLUMETRIC BUDGET FOR ENTIRE MODEL AT END OF TIME STEP {step.step:4d}, STRESS PERIOD {step.period:4d}"
    line = lambda name, a, b: f"{name:>20} ={number_text(a)}     {name:>16} ={number_text(b)}\n"
    out = [
        f"\n  {title}\n  {'-' * len(title)}\n\n     CUMULATIVE VOLUMES      L**3       RATES FOR THIS TIME STEP     "
        " L**3/T\n     ------------------                 ------------------------\n"
    ]
    totals = []
    for side, word in ((0, "IN"), (1, "OUT")):
        out.append(
            f"\n{word + ':':>14}                                     {word + ':':>4}\n{'---':>14}                      "
            f"               {'---':>4}\n"
        )
        out += [line(name, volumes[name][side], rates[name][side]) for name in rates]
        totals.append((sum(v[side] for v in volumes.values()), sum(r[side] for r in rates.values())))
        out.append("\n" + line(f"TOTAL {word}", *totals[-1]))
    less = tuple(a - b for a, b in zip(*totals))
    share = tuple(100 * d / ((a + b) / 2) if a + b else 0.0 for d, a, b in zip(less, *totals))
    percent = f"{'PERCENT DISCREPANCY':>20} ={share[0]:15.2f}     {'PERCENT DISCREPANCY':>16} ={share[1]:15.2f}\n"
    return "".join(out) + "\n" + line("IN - OUT", *less) + "\n" + percent + "\n"


def time_text(step: Step, times: tuple[float, float, float], seconds: float) -> str:
    names = ("  TIME STEP LENGTH", "STRESS PERIOD TIME", "        TOTAL TIME")
    parts = (1.0, 60.0, 3600.0, 86400.0, 31557600.0)
    out = [
        f"\n         TIME SUMMARY AT END OF TIME STEP {step.step:4d} IN STRESS PERIOD {step.period:4d}\n"
        "                    SECONDS     MINUTES      HOURS       DAYS        YEARS\n"
        "                    -----------------------------------------------------------\n"
    ]
    out += [
        f"{name} " + " ".join(f"{time * seconds / part:11.5G}" for part in parts) + "\n"
        for name, time in zip(names, times)
    ]
    return "".join(out) + "\n"


MF2005 = """\
Runs the model as MODFLOW-2005 is called: the name file as the one word. It writes the head file where the output
control saves heads (single precision, the middles of the pairs), the list file with budgets, the listing
NAME.heads, and the words 'Normal termination of simulation'. In FloPy: exe_name="/path/to/tools/mf2005". No
cell-by-cell flows are written. Written from the documented call and files of MODFLOW-2005."""


def add(sub: argparse.ArgumentParser) -> None:
    sub.description = MF2005
    sub.add_argument("words", nargs="*", metavar="WORD", help="the name file; further words go to heads run")


def do(args: argparse.Namespace, options: list[str], out: IO[str]) -> int:
    return mf2005(args.words + options, out)
