"""Why `heads run` and `heads batch` don't take words: each that they don't know, and each value out of its range."""
from __future__ import annotations

NUMBERS = {"--digits": (0, 18), "--workers": (1, 64), "--rounds": (1, 4_000_000_000), "--watch": (1, 1000)}
FILES = {"--zones", "--to", "--plan"}
FLAGS = {"--quick", "--wide"}


def option_faults(options: list[str]) -> list[str]:
    """What is wrong with the words of a run, a sentence each; nothing where nothing is seen."""
    out, seen, words = [], set(), iter(options)
    for word in words:
        name, sign, value = word.partition("=")
        if name not in FLAGS | FILES | set(NUMBERS):
            out.append(f"`{word}` isn't known")
            continue
        if name in seen:
            out.append(f"`{name}` stands twice")
        seen.add(name)
        if name in FLAGS:
            out += [f"`{name}` takes no value"] * bool(sign)
        elif not (value if sign else (value := next(words, ""))):
            out.append(f"`{name}` lacks its value")
        elif name in NUMBERS and not fits(value, *NUMBERS[name]):
            out.append("`{} {}`: a whole number from {} to {} is due".format(name, value, *NUMBERS[name]))
    if {"--quick", "--watch"} <= seen:
        out.append("`--watch` and `--quick` don't go together")
    return out


def fits(text: str, least: int, most: int) -> bool:
    """Whether a text is a whole number in a range, as `heads` reads it: without zeros before it."""
    return text.isdecimal() and text.isascii() and str(int(text)) == text and least <= int(text) <= most
