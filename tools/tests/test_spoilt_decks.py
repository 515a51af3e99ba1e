"""Decks with parameters, or with BCF6, whose words are spoilt: a sentence with file and line, never an exception."""
import random

import pytest
from test_other_flow import Grid, rows_of
from test_parameters import Drawn, evt_file, grid_files, list_file, lpf_file, recharge_file, written

WORDS = ["", "x", "0", "-1", "99", "1e300", "NONE", "ALL", "PARAMETER", "INSTANCES", "CONSTANT", "1.5", "#", "'", "2*3"]


def deck_of(seed, folder):
    """A random deck: its name file, and the names of its files."""
    folder.mkdir()
    if seed % 3:
        it = Drawn(seed)
        grid_files(it)
        lpf_file(it)
        kinds = ["WEL", "RIV", "CHD"]
        for kind in kinds:
            list_file(it, kind)
        recharge_file(it), evt_file(it)
        return written(it, folder, [*kinds, "RCH", "EVT"]), list(it.files)
    it = Grid(seed, layers=2)
    lines = ["50 -1E+30 0 1 1 0", "0 0", "INTERNAL 1 (FREE) -1", "1 0.5"]
    for k in range(2):
        lines += (rows_of(it.drawn()[0]) if it.is_transient else []) + rows_of(it.drawn()[0])
        lines += rows_of(it.drawn()[0]) if k == 0 else []
    return it.write(folder, "BCF6", lines), list(it.files)


def spoil(path, rng):
    """Changes a word, a line, or the end of a file."""
    lines = path.read_text().split("\n")
    at = rng.randrange(len(lines))
    how = rng.random()
    if how < 0.6:
        words = lines[at].split() or [""]
        words[rng.randrange(len(words))] = rng.choice(WORDS)
        lines[at] = " ".join(words)
    elif how < 0.75:
        del lines[at]
    elif how < 0.9:
        lines.insert(at, rng.choice(lines))
    else:
        lines = lines[: at + 1]
    path.write_text("\n".join(lines))


@pytest.mark.parametrize("part", range(6))
def test_no_exception_reaches_a_user(part, tmp_path, tool):
    rng = random.Random(part)
    for n in range(25):
        nam, files = deck_of(part * 25 + n, tmp_path / str(n))
        name = rng.choice(files)
        spoil(nam.parent / name, rng)
        for words in (["plain", nam, tmp_path / f"out{n}"], ["inside", nam], ["model", nam]):
            status, out, err = tool(*words)
            told = f"{words[0]} of {name} spoilt ({part * 25 + n}): {status}\n{out[-400:]}{err[-400:]}"
            assert status in (0, 1, 2) and "Traceback" not in out + err and (out + err).strip(), told
            assert "list index" not in out + err and "tuple" not in out + err, told
