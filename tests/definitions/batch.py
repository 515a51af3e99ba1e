"""A batch of two decks and a name without files: its record, but for how a job ends that doesn't end Ok."""
from __future__ import annotations

import re
from random import Random
from typing import Any, Callable

from .bench import NOTHING_PUT, Bench, file_set, put
from .listed import Values, listed, moved_number, other_label
from .one_deck import write_files
from .random_deck import Files
from .solved import History, model_of, solution
from .values import Made, changed, record, text

LIST, NAMES, DIGITS, LAST = "list.txt", ("a.nam", "none.nam", "b.nam"), 12, b"END\n"
# Certificates of steps, and the ends of jobs without a listing, have no part in what a listing encloses.
LEFT_OUT = ("IsJobListing.valid", "IsJobListing.steps", "IsJobListing.only", "HasEnded.end")


class Job:
    """A job that ended Ok: its model, values and history."""

    def __init__(self, bench: Bench, model: Any, content: bytes, history: History):
        self.model, self.history = model, history
        self.name, _, listing = content.partition(b"\n")
        self.values = listed(model, listing)
        self.task = bench.definitions.get("check_run", "Verdicts", "checked_task")
        self.decks = bench.definitions.get("deck_problems", "Kept", "one_deck")(model)

    def content(self, bench: Bench, values: Values) -> bytes:
        text_of = bench.definitions.get("listing_run", "Listing", "listing")
        end = bench.definitions.get("run_puts", "Runs", "end_line")()
        task = self.task(self.decks, DIGITS, Made("None"))
        return self.name + b"\n" + b"".join(map(bytes, text_of(task, values, end)))


class Batch:
    def __init__(self, bench: Bench, label: str, folder: str, files: Files, draw: Random):
        names = "".join(f"{name}\n" for name in NAMES)
        self.bench, self.label, self.folder, self.draw = bench, label, folder, draw
        self.files = {**files, LIST: names.encode()}
        self.words = ["batch", LIST, "--digits", str(DIGITS)]

    def compare(self) -> None:
        bench = self.bench
        bench.forget()
        write_files(self.folder, self.files)
        self.order, self.set = bench.order(self.words), file_set(self.files)
        status, answer = bench.run(self.folder, self.words)
        bench.counts["batches"] += 1
        contents = [part for part in re.split(rb"(?m)^(?=MODEL )", answer.removesuffix(LAST)) if part]
        read = [bench.reads(Made("Plain"), self.set, text(name)) for name in NAMES]
        jobs: dict[str, Job] = {}
        for name, model, content in zip(NAMES, read, contents):
            if model.name == "Err":
                continue
            history = solution(model_of(self.folder, name), None, None, self.draw)
            if not content.endswith(b"\n" + LAST) or history is None:
                bench.counts["batches with a step without bounds or a solution that isn't found"] += 1
                return
            jobs[name] = Job(bench, model.arguments[0], content, history)
        self.ends = [
            record(status=Made("Refused", model.arguments) if model.name == "Err" else Made("Ok"),
                   text=record(items=tuple(content)))
            for model, content in zip(read, contents)
        ]  # fmt: skip
        self.status = next((end.v_status for end in self.ends if end.v_status.name != "Ok"), Made("Ok"))
        code = bench.definitions.get("run_puts", "Statuses", "code_of")(self.status)
        bench.agree(f"statuses of batches: {self.label}", status, code)
        if jobs:
            self.compare_record(jobs)

    def compare_record(self, jobs: dict[str, Job]) -> None:
        """True of what was put; False with a number moved, and with another label."""
        name = self.draw.choice(sorted(jobs))
        job = jobs[name]
        kind, wrong = moved_number(job.values, job.history, DIGITS, [], self.draw)
        self.take_samples(jobs)
        self.bench.definitions.left_out.update(LEFT_OUT)
        for what, field, values in (
            ("", "", job.values),
            (f" of a moved {kind}", "encloses", wrong),
            (" of another label", "at", other_label(job.values, self.draw)),
        ):
            place = NAMES.index(name)
            content = job.content(self.bench, values)
            ends = list(self.ends)
            ends[place] = changed(ends[place], text=record(items=tuple(content)))
            listings = {text(each): (values if each == name else jobs[each].values) for each in jobs}
            self.bench.take(Batched__ends=tuple(ends), IsJobListing__values=by_name(listings))
            whole = b"".join(bytes(end.v_text.v_items) for end in ends) + LAST
            holds = self.bench.HeadlineOf(self.order, self.set, self.status, NOTHING_PUT, put(whole))
            by = f"IsJobListing.{field}" if field else ""
            self.bench.holds(f"Batched{what}: {self.label}", holds, not field, by)
        self.bench.definitions.left_out.difference_update(LEFT_OUT)

    def take_samples(self, jobs: dict[str, Job]) -> None:
        """Both histories stand for each job: one that solves another model's equations says nothing of it."""
        models = {text(name): job.model for name, job in jobs.items()}
        under = tuple(job.history.d for job in jobs.values())
        histories = tuple(job.history.vectors for job in jobs.values())
        cells = 2 + max(len(job.model.v_ibound) for job in jobs.values())
        self.bench.take(
            Batched__names=tuple(map(text, NAMES)), IsJobListing__model=by_name(models), IsJobListing__d=under,
            IsJobListing__history=histories, IsJobListing__e=under, IsJobListing__other=histories,
            HasHistory__d=under, HasHistory__history=histories,
            LiesWithin__c=range(cells), AreSameHeads__c=range(cells), IsModel__p=range(4),
        )  # fmt: skip


def by_name(values: dict[Any, Any]) -> Callable[..., Any]:
    """What is known of the job of a name."""
    return lambda asked, files, name, said: values[name]
