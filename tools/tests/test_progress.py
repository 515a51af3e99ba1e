"""tests/progress: what it prints of a stream of views. heads-tools run: what it shows of a slow step."""
import subprocess
import sys

import pytest
from conftest import TOP

PROGRESS = TOP / "tests" / "progress"

FIRST = ["WATCH 1 1", "HEAD 1 1 2 0.000000000 10.000000000", "HEAD 1 1 3 2.500000000 10.000000000"]
SECOND = ["WATCH 1 1", "HEAD 1 1 2 3.333333333 3.333333334", "HEAD 1 1 3 6.000000000 6.666666667"]
LATER = ["WATCH 2 1", "HEAD 1 1 2 -0.500000000 0.250000000"]

FIRST_LINE = "view 1: period 1 step 1, widest 10.000000000 at 1 1 2"
SECOND_LINE = "view 2: period 1 step 1, widest 0.666666667 at 1 1 3"
LATER_LINE = "view 3: period 2 step 1, widest 0.750000000 at 1 1 2"


def text(*views):
    return "".join(line + "\n" for view in views for line in view)


def show(stream, *words, **places):
    done = subprocess.run([sys.executable, PROGRESS, *words], input=stream, text=True, capture_output=True, **places)
    return done.returncode, done.stdout.splitlines(), done.stderr


def test_a_line_for_each_view():
    assert show(text(FIRST, SECOND, LATER)) == (0, [FIRST_LINE, SECOND_LINE, LATER_LINE], "")


def test_a_line_for_each_step():
    assert show(text(FIRST, SECOND, LATER), "--steps") == (0, [SECOND_LINE, LATER_LINE], "")


def test_an_empty_stream_has_no_view():
    assert show("") == (0, [], "")


def test_other_lines_go_on_to_standard_error():
    assert show(text(FIRST, ["heads: a word"], SECOND)) == (0, [FIRST_LINE, SECOND_LINE], "heads: a word\n")


def test_a_file_by_a_relative_path(tmp_path):
    (tmp_path / "m.side").write_text(text(FIRST, SECOND))
    assert show(None, "m.side", cwd=tmp_path) == (0, [FIRST_LINE, SECOND_LINE], "")


def test_a_file_that_is_not_there(tmp_path):
    status, shown, said = show(None, "m.side", cwd=tmp_path)
    assert (status, shown) == (2, []) and "m.side" in said and "Traceback" not in said


CUTS = [1, len("WATCH 1 1"), len("WATCH 1 1\n"), 30, len("WATCH 1 1\n" + SECOND[1] + "\n"), -1]


@pytest.mark.parametrize("kept", CUTS)
def test_a_view_that_is_cut_short_is_not_shown(kept):
    status, shown, said = show(text(FIRST) + text(SECOND)[:kept])
    assert (status, shown, said) == (1, [FIRST_LINE], "progress: the last view is cut short\n")


def test_a_cut_view_leaves_the_last_whole_one_of_the_step():
    cut = text(FIRST, SECOND)[:-20]
    assert show(cut, "--steps")[:2] == (1, [FIRST_LINE])


def test_the_stream_is_read_to_its_end_where_nobody_reads_the_lines():
    stream = text(*[FIRST] * 20000)
    shown = subprocess.Popen([sys.executable, PROGRESS], stdin=subprocess.PIPE, stdout=subprocess.PIPE,
                             stderr=subprocess.PIPE, text=True)
    shown.stdout.close()
    shown.stdin.write(stream)
    shown.stdin.close()
    assert shown.stderr.read() == "" and shown.wait() == 0


SLOW_PROGRAM = """#!/bin/bash
case " $* " in *" --watch 1 "*) printf 'WATCH 1 1\\nHEAD 1 1 2 0.0 9.0\\nHEAD 1 1 3 0.0 9.0\\n' >&2
printf 'WATCH 1 1\\nHEAD 1 1 2 1.0 9.0\\nHEAD 1 1 3 0.0 9.0\\nWATCH 1 1\\n' >&2;; esac
sleep 0.6
printf 'HEADS 2 DIGITS 12 UNIT 2\\nSTEP 1 1\\nEND\\n'
"""


@pytest.mark.parametrize(
    "most, shown",
    [
        (2_000_000, "a.nam: step 1 of 1 (period 1 step 1): phase 2, 1 of 2 cells still move, 0 s so far\n"),
        (0, "a.nam: step 1 of 1: 0 s so far\n"),
    ],
)
def test_a_slow_step_shows_its_phase_and_its_time(most, shown, example, tool, tmp_path, monkeypatch):
    """A stand-in for the program, whose one step takes long. Of a model that is too large to be watched: the time."""
    from heads_tools.program import follow

    program = tmp_path / "heads"
    program.write_text(SLOW_PROGRAM)
    program.chmod(0o755)
    monkeypatch.setenv("HEADS", str(program))
    monkeypatch.setattr(follow, "SLOW", 0.2)
    monkeypatch.setattr(follow, "MOST_WATCHED", most)
    status, out, err = tool("run", example("three_cells"))
    assert status == 0 and shown in err, err
