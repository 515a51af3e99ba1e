"""The scripts of the map by themselves, in Node: contours, round numbers, decimals."""
import json
import shutil
import subprocess

import pytest

from heads_tools.pages.map_page import PARTS

pytestmark = pytest.mark.skipif(not shutil.which("node"), reason="no node")


def told(script, text):
    """The value of an expression of what a script exports."""
    source = f'import * as it from "{(PARTS / script).as_uri()}"; process.stdout.write(JSON.stringify({text}));'
    done = subprocess.run(["node", "--input-type=module", "-e", source], capture_output=True, text=True, timeout=60)
    assert done.returncode == 0, done.stderr
    return json.loads(done.stdout)


def contours(rows, level):
    """The lines of a level in a grid of values whose middles are 0, 1, 2 ..; None stands for a cell without a value."""
    columns = len(rows[0])
    values = ", ".join("NaN" if v is None else str(v) for row in rows for v in row)
    places = [list(range(columns)), list(range(len(rows)))]
    grid = f"{{ values: [{values}], rows: {len(rows)}, columns: {columns}, x: {places[0]}, y: {places[1]} }}"
    return told("contours.mjs", f"it.contours({grid}, [{level}])[0].lines")


def test_the_contour_of_a_plane_is_one_straight_line():
    (line,) = contours([[column + row for column in range(5)] for row in range(5)], 2.5)
    assert all(x + y == pytest.approx(2.5) for x, y in line)
    assert sorted(line)[0] == [0, 2.5] and sorted(line)[-1] == [2.5, 0]


def test_the_contour_of_a_peak_is_closed():
    rows = [[10 if (row, column) == (2, 2) else 0 for column in range(5)] for row in range(5)]
    (line,) = contours(rows, 5)
    assert line[0] == line[-1] and len(line) == 5
    assert sorted(line[1:]) == [[1.5, 2], [2, 1.5], [2, 2.5], [2.5, 2]]


def test_a_saddle_parts_its_corners_by_its_middle():
    for middle_above, parted in (((9, 2), 2), ((8, 1), 2)):
        lines = contours([[middle_above[0], middle_above[1]], [middle_above[1], middle_above[0]]], 5)
        assert len(lines) == parted
    # the middle of 9, 0, 0, 9 is 4.5, below the level: each high corner has a line of its own around it
    ends = [sorted(map(tuple, line)) for line in contours([[9, 0], [0, 9]], 5)]
    assert all(sum(abs(a - b) for a, b in zip(*line)) < 1 for line in ends)


def test_no_contour_crosses_a_square_with_a_cell_without_flow():
    lines = contours([[0, 1, 2, 3], [0, 1, None, 3], [0, 1, 2, 3]], 2.5)
    assert lines == []
    assert len(contours([[0, 1, 2, 3], [0, 1, 2, 3], [0, None, 2, 3]], 2.5)) == 1


def test_a_corner_at_the_level_has_a_line_through_it():
    (line,) = contours([[0, 1, 2], [0, 1, 2]], 1)
    assert all(x == 1 for x, _ in line)


def test_contours_that_would_hide_the_map_are_left_out():
    """400 rows in each of which all cells differ from their neighbours."""
    places = "x: [...Array(400).keys()], y: [...Array(400).keys()]"
    grid = f"{{ values: Array.from({{ length: 160000 }}, (_, n) => n % 2), rows: 400, columns: 400, {places} }}"
    assert told("contours.mjs", f"it.contours({grid}, [0.5]) ?? null") is None


def test_round_numbers_lie_between_the_ends():
    assert told("numbers.mjs", "it.round_numbers(0.3, 9.7, 4)") == [2.5, 5, 7.5]
    assert told("numbers.mjs", "it.round_numbers(-1, 1, 4)") == [-1, -0.5, 0, 0.5, 1]
    assert told("numbers.mjs", "it.round_numbers(2, 2, 4)") == []


def test_decimals_have_all_their_nine_places():
    told_as = {"0n": "0.000000000", "-1n": "-0.000000001", "4000000000999999999n": "4000000000.999999999"}
    for units, text in told_as.items():
        assert told("numbers.mjs", f"it.decimal({units})") == text
