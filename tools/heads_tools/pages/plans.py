"""plans: one page that compares all models of a batch with one of them."""
from __future__ import annotations

from pathlib import Path

from ..common.text import Problem, counted
from ..common.whole_files import whole_file
from ..deck.model import read_model
from ..listing.below_top import BelowTop
from ..listing.listing import Listing, read_listing
from ..planning.drawdown import Cell, Drawdown, difference, said_of, verdict_of
from ..program.batch import Job, read_jobs
from ..program.explain import explain_output
from ..program.verdict import Verdict, status_of
from .drawdown_page import fall_pair
from .plans_page import Change, Plan, draw_plans, drawn


def compare_plans(path: Path, folder: Path, base_name: str | None, cells: list[Cell]) -> tuple[list[str], int]:
    """Writes the page and plans.csv of a batch's list, whose models have run; what there is to say, and the first
    status of a check that isn't 0."""
    jobs = read_jobs(path)
    base = next((j for j in jobs if base_name in (None, j.name, j.nam.name)), None)
    if base is None:
        raise Problem(f"{path} names no model {base_name}")
    if not base.listing.is_file():
        raise Problem(f"{base.name} has no listing {base.listing.name}: run the batch first (`heads-tools batch`)")
    ground = read_listing(base.listing)
    seen = verdict_of(ground, base.nam)
    for cell in cells:
        ground.at(cell)
    plans = [plan_of(job, ground, seen) for job in jobs if job is not base]
    folder.mkdir(parents=True, exist_ok=True)
    write_table(plans, folder)
    draw_plans(plans, plan_against(base, ground, ground, seen, seen), folder, cells)
    told = [said_of(seen), *(f"{plan.name}: {plan.ended}" for plan in plans)]
    checks = [seen, *(change.it.verdicts[0] for _, change in drawn(plans))]
    status = next((status for each in checks if (status := status_of(base.nam, each))), 0)
    return [*told, f"{counted(len(plans), 'plan')} against {base.name}"], status


def plan_of(job: Job, ground: Listing, seen: Verdict) -> Plan:
    """A model of the list against the base, of which `seen` says what was checked: how it ended, and where it ended
    well its changes."""
    if not job.listing.is_file():
        return Plan(job.name, f"it has no listing {job.listing.name}")
    meaning = explain_output(job.listing, job.nam.parent)
    if not meaning.is_good:
        return Plan(job.name, meaning.lines[0])
    listing = read_listing(job.listing)
    try:
        return plan_against(job, listing, ground, verdict_of(listing, job.nam), seen)
    except Problem as error:
        return Plan(job.name, str(error))


def plan_against(job: Job, listing: Listing, ground: Listing, seen: Verdict, base_seen: Verdict) -> Plan:
    """The changes from the base to a model of the list."""
    model = read_model(job.nam)
    it = Drawdown(listing, ground, difference(listing, ground), model.length, model, [seen, base_seen])
    last = 3 + (it.worst is not it.changes[-1])
    told = " ".join([said_of(seen), *it.sentences([])[2:last]])
    return Plan(job.name, told, Change(it, BelowTop(model.deck, listing)))


def write_table(plans: list[Plan], folder: Path) -> None:
    """plans.csv: for each plan the step and the cell of its greatest drawdown, with its bounds."""
    with whole_file(folder / "plans.csv") as file:
        file.write("plan,period,step,layer,row,col,drawdown_lower,drawdown_upper\n")
        for name, change in drawn(plans):
            it = change.it
            worst = it.worst
            at = it.deepest(worst)
            cell = ",".join(map(str, it.cell(at)))
            file.write(f"{name},{worst.period},{worst.step},{cell},{','.join(fall_pair(worst, at))}\n")
