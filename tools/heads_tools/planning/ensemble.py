"""Many samples of a deck: its templates filled from a table, run as a batch, and the least and the most head of all at
chosen places. They are samples: nothing is said of the models between them."""
from __future__ import annotations

import csv
import io
import shutil
from dataclasses import dataclass, field
from datetime import date
from fractions import Fraction
from pathlib import Path

from ..common.text import Problem, counted, decimal_text
from ..common.whole_files import copy_whole, whole_file
from ..deck.model import read_model
from ..deck.places import Place
from ..deck.templates import Template, files_of_deck, read_samples
from ..listing.listing import Cell, read_listing
from ..listing.observe import Observation, Observer, observe
from ..listing.points import Point
from ..program.batch import batch

NOTES, LIST = "ensemble.txt", "samples.list"
SAMPLES, ALL = "samples.csv", "least_most.csv"
NO_BOUNDS = (
    "Least and most are those of these samples. They are no bounds of models between the samples, or of any other:"
    " each listing holds for its own deck alone."
)


@dataclass
class Asked:
    """What is asked for: the deck, the table of values, the templates, the cells, a file of points and the grid's
    place, the options of the runs, how many at a time."""

    nam: Path
    values: Path
    templates: list[Path]
    cells: list[Cell] = field(default_factory=list)
    points: Path | None = None
    place: Place = Place()
    start: date | None = None
    options: list[str] = field(default_factory=list)
    jobs: int = 0


def write_samples(asked: Asked, folder: Path) -> list[str]:
    """A folder for each sample with its deck; their names."""
    templates = [Template(path) for path in asked.templates]
    names = list(dict.fromkeys(name for template in templates for name in template.names))
    files = files_of_deck(asked.nam)
    lacking = [each.path.name for each in templates if Path(each.target) not in files]
    if lacking:
        raise Problem(f"{lacking[0]} makes no file of {asked.nam.name}: a template is named by its file, as m.lpf.tpl")
    samples = read_samples(asked.values, names)
    for name, values in samples.items():
        for each in files:
            copy_whole(asked.nam.parent / each, folder / name / each)
        for template in templates:
            with whole_file(folder / name / template.target, binary=True, is_own=True) as file:
                file.write(template.filled(values).encode("latin-1"))
    with whole_file(folder / LIST, is_own=True) as file:
        file.writelines(f"{name}/{asked.nam.name}\n" for name in samples)
    return list(samples)


def heads_of(asked: Asked, nam: Path) -> list[Observation]:
    """The heads of a sample at the places that are asked for."""
    listing, model = read_listing(nam.with_suffix(".heads")), read_model(nam)
    observer = Observer(listing, model)
    for cell in asked.cells:
        listing.at(cell)
    points = [Point("{},{},{}".format(*cell), cell, None, None, {cell: Fraction(1)}) for cell in asked.cells]
    out = [each for point in points for each in observer.of_point(point)]
    if asked.points:
        out += observe(listing, model, asked.points, asked.place, start=asked.start).observations
    return [each for each in out if each.pair is not None]


def run_ensemble(asked: Asked, folder: Path) -> tuple[list[str], int]:
    """Writes the samples, runs them, and collects their heads; what there is to say, and the first status that isn't
    0."""
    names = write_samples(asked, folder)
    said = io.StringIO()
    status = batch(folder / LIST, asked.options, "here", asked.jobs, False, said)
    ends = said.getvalue().replace(f"{folder}/", "").rstrip("\n").split("\n")
    found: dict[tuple[str, Fraction], list[tuple[int, int]]] = {}
    whole = [name for name in names if is_whole(folder / name / asked.nam.name)]
    with whole_file(folder / SAMPLES, is_own=True) as file:
        writer = csv.writer(file, lineterminator="\n")
        writer.writerow(["sample", "place", "time", "lower", "upper"])
        for name in whole:
            for each in heads_of(asked, folder / name / asked.nam.name):
                low, high = each.pair or (0, 0)
                found.setdefault((each.point.name, each.time), []).append((low, high))
                time = f"{float(each.time):.12g}"
                writer.writerow([name, each.point.name, time, decimal_text(low, 9), decimal_text(high, 9)])
    lines = [f"{counted(len(whole), 'sample')} of {len(names)} ended with a listing. {NO_BOUNDS}"]
    last: dict[str, str] = {}
    with whole_file(folder / ALL, is_own=True) as file:
        writer = csv.writer(file, lineterminator="\n")
        writer.writerow(["place", "time", "least", "most", "samples"])
        for (place, at), pairs in found.items():
            least, most = decimal_text(min(low for low, _ in pairs), 9), decimal_text(max(high for _, high in pairs), 9)
            writer.writerow([place, f"{float(at):.12g}", least, most, len(pairs)])
            last[place] = f"{place} at time {float(at):.12g}: {least} to {most} in {counted(len(pairs), 'sample')}"
    with whole_file(folder / NOTES, is_own=True) as file:
        file.write("\n".join([*ends, *lines]) + "\n")
    failed = [line for line in ends if ": END, " not in line]
    return [*failed[:10], *lines, *last.values(), f"{ALL} has all times, {SAMPLES} each sample"], status


def drop_samples(folder: Path) -> None:
    """Removes the samples of an earlier call: none of their listings stands beside those of this one."""
    names = (folder / LIST).read_text().split("\n") if (folder / LIST).is_file() else []
    for name in names:
        here = folder / Path(name).parent
        if name and here.is_dir() and here.resolve().parent == folder.resolve():
            shutil.rmtree(here)


def is_whole(nam: Path) -> bool:
    path = nam.with_suffix(".heads")
    return path.is_file() and path.read_bytes()[-5:] == b"\nEND\n"
