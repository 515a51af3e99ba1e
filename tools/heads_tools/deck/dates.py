"""Dates: that on which a model starts, and those of observations as times of the model."""
from __future__ import annotations

import re
from datetime import date, datetime, timedelta
from fractions import Fraction
from pathlib import Path

from ..common.text import Problem
from .places import fields_of

# FloPy writes this date where none was given.
NO_DATE = date(1970, 1, 1)
SECONDS = {1: 1, 2: 60, 3: 3600, 4: 86400}
DATE = re.compile(r"\d{4}-\d{1,2}-\d{1,2}|\d{1,2}[/.-]\d{1,2}[/.-]\d{4}")
CLOCK = re.compile(r"[T ](\d{1,2}):(\d{2})(?::(\d{2}))?$")


def start_of(text: str | None, nam: Path) -> date | None:
    """The date on which the model starts: the one that is asked for, else that of the name file's comments."""
    if text:
        found = date_of(text)
        if found is None:
            raise Problem(f"`{text}`: a start date is YYYY-MM-DD")
        return found
    found = date_of(fields_of(nam).get("start_datetime", ""))
    return None if found == NO_DATE else found


def date_of(text: str) -> date | None:
    """The date of YYYY-MM-DD, of D.M.YYYY, or of M/D/YYYY or D/M/YYYY
    where day and month can't be taken for one another."""
    try:
        if re.match(r"\d{4}-\d{1,2}-\d{1,2}(\D|$)", text):
            return date(*map(int, re.findall(r"\d+", text)[:3]))
        if parts := re.match(r"(\d{1,2})\.(\d{1,2})\.(\d{4})(\D|$)", text):
            return date(int(parts[3]), int(parts[2]), int(parts[1]))
        if parts := re.match(r"(\d{1,2})[/-](\d{1,2})[/-](\d{4})(\D|$)", text):
            month, day, year = map(int, parts.groups()[:3])
            if month > 12:
                month, day = day, month
            return date(year, month, day) if day > 12 or day == month else None
    except ValueError:
        pass
    return None


def is_date(text: str) -> bool:
    return bool(DATE.match(text))


def time_since(start: date | None, text: str, itmuni: int) -> Fraction:
    """The time of the model at a date, and the time of day where it has one, exactly."""
    if start is None:
        raise Problem(f"`{text}`: a date needs that of the model's start: --start YYYY-MM-DD")
    if itmuni not in SECONDS:
        raise Problem(f"`{text}`: a date needs a model whose times are in seconds, minutes, hours or days")
    day, clock = date_of(text), CLOCK.search(text)
    if day is None or not (clock or DATE.fullmatch(text)):
        raise Problem(f"`{text}`: a date is YYYY-MM-DD or D.M.YYYY, with HH:MM where the time is known")
    hours, minutes, seconds = (int(part or 0) for part in clock.groups()) if clock else (0, 0, 0)
    passed = (day - start).days * 86400 + hours * 3600 + minutes * 60 + seconds
    return Fraction(passed, SECONDS[itmuni])


def date_text(start: date | None, time: Fraction, itmuni: int) -> str:
    """The date of a time of the model, with the time of day where it isn't midnight; nothing where none is known."""
    if start is None or itmuni not in SECONDS:
        return ""
    try:
        moment = datetime(start.year, start.month, start.day) + timedelta(seconds=round(time * SECONDS[itmuni]))
    except OverflowError:
        return ""
    return moment.isoformat(" ", "seconds").replace(" 00:00:00", "")
