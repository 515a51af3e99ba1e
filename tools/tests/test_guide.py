"""The commands of docs/GUIDE.md, run as they stand, section by section, print what the page says."""
import os
import re
import shutil
import subprocess

import pytest
from conftest import TOP
from modflow6_written import written_as_modflow6

PROGRAMS = {"heads", "heads-tools", "cd", "export", "tail", "awk", "sed", "mkdir", "grep", "for", "printf"}
# What a comment after a command says of its answer; other comments are for the reader.
ANSWER = re.compile(r"(END|CERTIFIED|SAME|NOT CERTIFIED( \w+)*)(?=$|[ :;])")
# Answers that have a status above 0.
MAY_FAIL = ("NOT CERTIFIED", "NOT INSIDE")
# Lines of output that the page shows for a model of the reader's own.
OTHERS = ("REFUSED", "CAREFUL")
# The sections that one reader goes through in one shell, and those that need a model of another kind.
ONE_SHELL, WATER, MODFLOW6, CALIBRATION = range(1, 15), 15, 16, 17
MARK = "status of line"
pytestmark = pytest.mark.program


def blocks():
    """The indented blocks of the guide, each as the number of its section and its lines with their numbers."""
    section, found, last = 0, [], None
    for number, line in enumerate((TOP / "docs" / "GUIDE.md").read_text().splitlines(), 1):
        heading = re.match(r"## (\d+)\.", line)
        section = int(heading[1]) if heading else section
        if line.startswith("    "):
            if last != number - 1:
                found.append((section, []))
            found[-1][1].append((number, line[4:]))
            last = number
    return found


def is_command(line):
    return line.split(" ")[0] in PROGRAMS and not line.startswith("heads-tools: ")


def comment_of(line):
    return re.split(r"\s{2,}# |\s# (?=[A-Z]+$)", line, maxsplit=1)[1:]


def commands(lines):
    return [(number, line) for number, line in lines if is_command(line)]


def shell_of(chosen):
    """A script of the commands, each of which says how it ended."""
    lines = ["set +e"]
    for number, line in chosen:
        lines += [line, f'echo "{MARK} {number}: $?"']
    return "\n".join(lines)


def run(chosen, folder):
    """What each command printed, and its status, by the number of its line."""
    env = {**os.environ, "PATH": f"{folder}/tools:{folder}/dist:{os.environ['PATH']}", "PYTHONDONTWRITEBYTECODE": "1"}
    done = subprocess.run(
        ["bash", "-c", shell_of(chosen)], cwd=folder, env=env, stdout=subprocess.PIPE, stderr=subprocess.STDOUT,
        text=True, timeout=600, check=False,
    )
    parts = re.split(rf"^{MARK} (\d+): (\d+)\n", done.stdout, flags=re.M)
    return {int(number): (text, int(status)) for text, number, status in zip(parts[::3], parts[1::3], parts[2::3])}


def here(tmp_path):
    """A folder like the repository's, in which the guide may write."""
    for name in ("dist", "docs", "tests", "tools"):
        (tmp_path / name).symlink_to(TOP / name)
    shutil.copytree(TOP / "examples", tmp_path / "examples", ignore=shutil.ignore_patterns("*.heads*", "look"))
    return tmp_path


def heads_of_modflow(tool, nam, path):
    """A file of heads as a MODFLOW run leaves it: the middles of the listing."""
    assert tool("run", nam)[0] == 0
    assert tool("hds", nam.with_suffix(".heads"), path)[0] == 0


def faults(chosen, answers):
    """What the commands say otherwise than the page: a status above 0, or no line that begins with the comment's."""
    for number, line in chosen:
        text, status = answers[number]
        said = "".join(comment_of(line))
        answer = ANSWER.match(said)
        if answer and not any(row.startswith(answer[1]) for row in text.splitlines()):
            yield f"line {number}: {line}: {text[-500:]}"
        if status and not said.startswith(MAY_FAIL) and not text.startswith(MAY_FAIL):
            yield f"line {number}: {line}: status {status}: {text[-500:]}"


def shown(lines):
    """The lines of output that a block shows, without the words about them."""
    plain = [re.split(r"\s{2,}", line)[0].strip() for _, line in lines if not is_command(line)]
    return [line for line in plain if line not in ("", "..") and not line.startswith(OTHERS)]


def test_the_guide_s_commands_print_what_it_says(tmp_path, tool):
    top = here(tmp_path)
    valley = top / "examples" / "river_valley"
    heads_of_modflow(tool, valley / "m.nam", valley / "run.hds")
    found = [(section, lines) for section, lines in blocks() if section in ONE_SHELL]
    chosen = [pair for _, lines in found for pair in commands(lines)]
    assert len(chosen) > 40
    answers = run(chosen, top)
    assert not list(faults(chosen, answers))
    printed = [text for text, _ in answers.values()] + [path.read_text() for path in top.rglob("examples/**/*.heads")]
    known = {line for text in printed for line in text.splitlines()}
    missing = [line for _, lines in found for line in shown(lines) if line not in known]
    assert not missing


def chosen_of(section):
    return [pair for number, lines in blocks() if number == section for pair in commands(lines)]


def test_its_commands_for_a_water_table_do_what_it_says(tmp_path, tool):
    """On the pumped cell, and on a model whose layers are convertible and full."""
    cell = shutil.copytree(TOP / "tools" / "tests" / "pumped_cell", tmp_path / "cell")
    model = shutil.copytree(TOP / "examples" / "three_aquifers", tmp_path / "model")
    heads_of_modflow(tool, model / "m.nam", model / "run.hds")
    lpf = model / "m.lpf"
    lines = lpf.read_text().splitlines()
    at = next(number for number, line in enumerate(lines) if not line.startswith("#")) + 1
    lines[at] = " ".join(["1"] * len(lines[at].split()))
    lpf.write_text("\n".join(lines) + "\n")
    chosen = chosen_of(WATER)
    own = [pair for pair in chosen if "p.nam" in pair[1]]
    for folder, part in ((cell, own), (model, [pair for pair in chosen if pair not in own])):
        (folder / "dist").symlink_to(TOP / "dist")
        (folder / "tools").symlink_to(TOP / "tools")
        assert part and not list(faults(part, run(part, folder)))


def test_its_commands_for_modflow_6_do_what_it_says(tmp_path, tool):
    valley = shutil.copytree(TOP / "examples" / "river_valley", tmp_path / "valley")
    folder = tmp_path / "six"
    written_as_modflow6(valley / "m.nam", folder)
    heads_of_modflow(tool, valley / "m.nam", folder / "gwf.hds")
    (folder / "dist").symlink_to(TOP / "dist")
    (folder / "tools").symlink_to(TOP / "tools")
    chosen = chosen_of(MODFLOW6)
    assert len(chosen) == 5 and not list(faults(chosen, run(chosen, folder)))


def test_its_commands_for_calibration_do_what_it_says(tmp_path, tool):
    valley = shutil.copytree(TOP / "examples" / "river_valley", tmp_path / "valley")
    assert tool("run", valley / "m.nam")[0] == 0
    (valley / "points.csv").write_text("name;x;y;layer;time;measured\nwest;150,5;450;1;1;10,2\n")
    (valley / "dist").symlink_to(TOP / "dist")
    (valley / "tools").symlink_to(TOP / "tools")
    chosen = chosen_of(CALIBRATION)
    assert len(chosen) == 3 and not list(faults(chosen, run(chosen, valley)))
    assert {"seen.png", "observed.ins"} <= {path.name for path in valley.rglob("*")}
