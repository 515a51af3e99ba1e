"""Values that are kept: of definitions that cases call again and again with the same arguments.

What a reading of a deck gives depends on the files that it looked at. So it is kept with what it found there, and it
holds of other files in which the same is found: the deck of a check is that of its run.
"""
from __future__ import annotations

from typing import Any, Callable

Function = Callable[..., Any]
Looked = dict[tuple[int, ...], Any]


def kept_by_words(own: Function) -> Function:
    """A function of words, which are texts: by the words."""
    values: dict[Any, Any] = {}

    def found(words: Any) -> Any:
        if words not in values:
            values[words] = own(words)
        return values[words]

    return found


class KeptSolutions:
    """Runs `Solves`: whether a history solves a model's equations is asked by each record that is evaluated."""

    def __init__(self) -> None:
        self.answers: dict[tuple[int, int, int], tuple[bool, Any, Any]] = {}

    def solves(self, own: Function) -> Function:
        def solve(model: Any, d: int, history: Any) -> bool:
            # The kept model and history have these numbers as long as the answer is kept.
            key = id(model), d, id(history)
            if key not in self.answers:
                self.answers[key] = own(model, d, history), model, history
            return self.answers[key][0]

        return solve

    def forget(self) -> None:
        self.answers.clear()


class KeptReadings:
    """Runs `reads` and `file_at` of the definitions."""

    def __init__(self) -> None:
        self.models: dict[Any, list[tuple[Looked, Any]]] = {}
        self.looked: list[Looked] = []

    def file_at(self, own: Function) -> Function:
        def found(files: Any, name: Any) -> Any:
            content = own(files, name)
            for looked in self.looked:
                looked[name] = content
            return content

        self.find: Function = own
        return found

    def reads(self, own: Function) -> Function:
        def read(limits: Any, files: Any, name: Any) -> Any:
            kept = self.models.setdefault((limits.name, name), [])
            for looked, model in kept:
                if all(is_found(self.find(files, each), content) for each, content in looked.items()):
                    return model
            looked = Looked()
            self.looked.append(looked)
            model = own(limits, files, name)
            self.looked.remove(looked)
            kept.append((looked, model))
            return model

        return read

    def forget(self) -> None:
        self.models.clear()


def is_found(now: Any, then: Any) -> bool:
    """Whether the same bytes are found. A file that isn't found isn't kept."""
    return bool(now.name == then.name == "Ok" and now.arguments == then.arguments)
