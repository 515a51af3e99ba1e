"""How a run that wrote no whole listing is told in Python: by exceptions."""
from __future__ import annotations

from ..common.text import Problem


class RunFailed(Problem):
    """A run, or a check of its listing, that didn't end well: its status, the last line of its output, and what that
    means, in sentences."""

    def __init__(self, status: int, last: str, lines: list[str]):
        super().__init__("\n".join(lines))
        self.status, self.last, self.lines = status, last, lines


class NoBounds(RunFailed):
    """A step has no bounds (NOBOUND): the code and its word, period and step, and the place, whose words are layer, row
    and column where it is a cell."""

    def __init__(self, last: str, lines: list[str]):
        super().__init__(3, last, lines)
        _, code, self.word, period, step, *place = last.split()
        self.code, self.period, self.step, self.place = int(code), int(period), int(step), tuple(place)

    @property
    def cell(self) -> tuple[int, int, int] | None:
        """Layer, row and column of the place, where it is a cell."""
        if len(self.place) != 3 or not all(word.isdigit() for word in self.place):
            return None
        layer, row, col = map(int, self.place)
        return layer, row, col


def failure_of(status: int, last: str, lines: list[str]) -> RunFailed:
    """The exception for a run that ended with this status and this line."""
    words = last.split()
    is_no_bound = status == 3 and words[:1] == ["NOBOUND"] and len(words) >= 5
    return NoBounds(last, lines) if is_no_bound else RunFailed(status, last, lines)
