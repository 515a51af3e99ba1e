"""A bar with the time to go, where tqdm is installed and standard error is a terminal."""
from __future__ import annotations

from typing import Any, Iterable, Sequence, TypeVar

T = TypeVar("T")


def bar(items: Sequence[T], name: str, unit: str) -> Iterable[T]:
    try:
        from tqdm import tqdm
    except ImportError:
        return items
    # Its stubs don't know that None leaves the bar out where standard error is no terminal.
    options: dict[str, Any] = {"disable": None}
    return tqdm(items, desc=name, unit=unit, leave=False, **options)
