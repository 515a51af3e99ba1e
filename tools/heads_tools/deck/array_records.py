"""Arrays of a deck, by the record that each begins with."""
from __future__ import annotations

import re

from ..common.formats import format_of
from ..common.spelling import number, record_words
from ..common.text import Problem, words
from .reading import Reading
from .sources import Array, Source, binary_words, find_file, read_binary


def read_array(reading: Reading, rows: int, cols: int, what: str, is_whole: bool = False) -> Array:
    """The next array of the file, `what` for people; `is_whole`: of whole numbers."""
    source = reading.now
    source.due = what
    record = source.line()
    begin = source.at
    out = array_of(reading, record, rows, cols)
    out.file, out.line = source.name, begin
    distinct = dict.fromkeys(out.words) if is_whole else {}
    wrong = next((w for w in distinct if not re.fullmatch(r"[+-]?\d+", w)), None)
    if wrong is not None:
        lines = range(begin, source.at + 1)
        line = next((n for n in lines if wrong in words(source.lines[n - 1])), begin)
        refuse_count(reading, what, wrong, line)
    return out


def refuse_count(reading: Reading, what: str, word: str, line: int) -> None:
    """Refuses a word where whole numbers are due."""
    source = reading.now
    reading.report.due.setdefault(source.name, what)
    text = f"{what} has `{word}`, where a whole number is due (MODFLOW-2005 stops here, too)"
    reading.report.add("refusals", source.name, line, text)


def array_of(reading: Reading, line: str, rows: int, cols: int) -> Array:
    """The array whose record is this line."""
    source, w = reading.now, record_words(line)
    kind, shape = w[0].upper(), (rows, cols)
    if "'" in line or '"' in line:
        reading.need("quotes taken out of an array's record")
    if kind == "CONSTANT":
        return Array([source.number(w[1])], "1", shape)
    if kind == "INTERNAL":
        return values_of(reading, source, source, w[1], w[2], shape, kind)
    if kind == "OPEN/CLOSE":
        if w[3].upper() == "(BINARY)":
            return binary_of(reading, source, w[1], w[2], shape, True)
        return values_of(reading, source, reading.open(w[1]), w[2], w[3], shape, kind)
    if kind == "EXTERNAL":
        if w[3].upper() == "(BINARY)":
            return binary_of(reading, source, reading.deck.units.get(w[1], w[1]), w[2], shape, False)
        return values_of(reading, source, reading.unit(w[1]), w[2], w[3], shape, kind)
    locat, factor, text = line[:10].strip(), line[10:20].strip() or "0", line[20:40].strip() or "(FREE)"
    if not re.fullmatch(r"[+-]?\d+", locat):
        raise Problem(
            f"{source.name}, line {source.at}: an array begins with CONSTANT, INTERNAL, OPEN/CLOSE or EXTERNAL, "
            f"and here stands `{line.strip()[:40]}`. Or the array before has more values than its grid"
        )
    reading.need("an array's record in fixed columns written with a keyword")
    if int(locat) == 0:
        return Array([source.number(factor)], "1", shape)
    if int(locat) < 0:
        return binary_of(reading, source, reading.deck.units.get(str(-int(locat)), ""), factor, shape, False)
    return values_of(reading, source, reading.unit(str(int(locat))), factor, text, shape, "LOCAT")


def values_of(
    reading: Reading, source: Source, data: Source, factor: str, text: str, shape: tuple[int, int], kind: str
) -> Array:
    factor, count = source.number(factor), shape[1]
    data.due = source.due
    is_free = format_of(text) is None
    if kind == "EXTERNAL":
        reading.need(f"EXTERNAL: array of {data.name} put in place")
    if text.upper() != "(FREE)":
        reading.need(f"format {text} written as (FREE)")
    out = [
        w for _ in range(shape[0]) for w in (data.free_values(count) if is_free else data.fixed_values(count, text))
    ]
    return Array(out, factor, shape)


def binary_of(reading: Reading, source: Source, name: str, factor: str, shape: tuple[int, int], is_rest: bool) -> Array:
    path, _ = find_file(reading.folder, name)
    values, reading.binary_at[name] = read_binary(
        path, shape[0] * shape[1], 0 if is_rest else reading.binary_at.get(name, 0), is_rest
    )
    digits = "9" if values.dtype.itemsize == 4 else "17"
    reading.need(
        f"binary array of {path.name} written as text of up to {digits} digits, the shortest that names each value"
    )
    return Array([number(w).text for w in binary_words(values)], source.number(factor), shape)
