"""Wrong calls of all commands: a sentence and a status, never an exception."""
import random
import shutil

import pytest
from conftest import TOP, heads

pytestmark = pytest.mark.program
# Words of each command by what is due: a name file, a listing, a head file, another file, a folder or a new file.
WORDS = {
    "run": "nam",
    "explain": "listing",
    "inside": "nam",
    "plain": "nam folder",
    "between": "nam folder",
    "model": "nam",
    "look": "listing folder",
    "compare": "listing hds",
    "drawdown": "listing listing folder",
    "plans": "file folder",
    "certify": "nam hds",
    "check": "nam listing",
    "hds": "listing new",
    "export": "listing folder",
    "observe": "listing file",
    "template": "nam folder",
    "ensemble": "nam file folder",
    "zonebudget": "listing file",
    "mf2005": "nam",
    "exhibit": "nam folder",
    "batch": "file",
    "capture": "nam folder",
    "version": "",
}
OPTIONS = {
    "run": ["--digits 99", "--out FOLDER", "--to FILE", "--zones FILE", "--foo", "--out m.wel"],
    "inside": ["--most x", "--heads FILE", "--name NAM --plan plan.wel", "--plan-heads FILE", "--within x"],
    "plain": ["--dry FILE", "--as-confined", "--foo"],
    "between": ["--wells 1", "--wells 2..1", "--package FILE", "--recharge x..y", "--stage -1..1 --package LISTING"],
    "look": ["--cell 1", "--cell 9,9,9", "--given FILE", "--minus FILE", "--zones FILE", "--name FILE", "--to NAM",
             "--name NAM --plan FILE", "--name NAM --plan plan.wel"],
    "compare": ["--csv FOLDER", "--map FILE", "--name FILE", "--zones FILE", "--csv m.wel"],
    "drawdown": ["--cell 0,0,0", "--any", "--to FILE", "--at here", "--hk 1", "--name NAM", "--base-name FILE",
                 "--at x,nan,0"],
    "plans": ["--base nothing", "--cell 7,7,7"],
    "certify": ["--digits -1", "--theta x", "--theta nan", "--theta -1", "--zones FILE", "--convertible",
                "--digits 18"],
    "check": ["--to NAM", "--zones FILE", "--parts 2"],
    "hds": ["--lower --upper", "--name FILE", "--single --name NAM"],
    "export": ["--name NAM --as shp", "--name NAM --at here", "--name FILE", "", "--name NAM --minus FILE",
               "--name NAM --at nan,0", "--name NAM --start 2024-13-01", "--name NAM --at 1e400,0,1e30,99999999",
               "--name NAM --plan plan.wel"],
    "observe": ["--name NAM --start x", "--name FILE", "", "--name NAM --picture a.jpg", "--name NAM --pest FILE",
                "--name NAM --plan plan.wel --part DRAWDOWN", "--name NAM --part x"],
    "template": ["--foo"],
    "ensemble": ["--tpl FILE --cell 1,1,1", "--tpl TPL --cell 1,1,1", "--tpl TPL --points FILE", "", "--tpl TPL"],
    "zonebudget": ["--name NAM", "--name FILE", ""],
    "exhibit": ["--digits 99", "--to FILE", "--plan FILE"],
    "batch": ["--jobs x", "--jobs -3", "--slurm --parallel", "--write-only --parallel"],
    "capture": ["--rate nan", "--rate 0", "--rate 1 --cell 9,9,9", "--rate 1 --every 0", "--rate 1 --reaches FILE", "",
                "--rate 1 --to FILE", "--rate 1e400"],
}
COUNT = 360
PLAN = TOP / "tools" / "tests" / "plan_listing" / "one.txt"


@pytest.fixture(scope="module")
def place(tmp_path_factory):
    """A folder with a model, its listing, and files that are none: empty, cut, of other bytes, a folder."""
    folder = tmp_path_factory.mktemp("wrong")
    for file in (TOP / "examples" / "three_cells").iterdir():
        if file.is_file() and file.suffix != ".heads":
            shutil.copy(file, folder)
    text = heads(["run", "a.nam"], folder).stdout
    made = {
        "m.heads": text.encode(),
        "cut.heads": text[: len(text) // 2].encode(),
        "nan.heads": text.replace("HEAD 1 1 2", "HEAD 1 x 2").encode(),
        "refused.heads": b"REFUSED 1 MissingFile x 0\n",
        "empty": b"",
        "noise": bytes(range(256)) * 9,
        "words": b"some words, and no more\n",
        "table.csv": b"name,x,y\na,1,2\n",
        "layer.csv": b"layer,row,col,head\n1,1,1,5\n1,1,2,x\n",
        "other.nam": b"LIST 1 a.list\nDIS 2 nothing.dis\n",
        "loop.nam": b"DIS 2 loop.nam\nBAS6 3 loop.nam\nLPF 4 loop.nam\n",
        "m.list": b"a.nam\nmissing.nam\n",
        "a.lpf.tpl": b"ptf @\n@hk@\n",
        "heads.csv": b"layer,row,col,head\n1,1,1,5\n1,1,2,4\n1,1,3,3\n",
        "m.zon": b"INTERNAL 1 (FREE) -1\n1 2 2\n",
        "short.zon": b"INTERNAL 1 (FREE) -1\n1\n",
        "mfsim.nam": b"BEGIN TIMING\n TDIS6 x.tdis\nEND TIMING\n",
        "plan.wel": b"1 0\n1 0\n1 1 2 -1\n",
        "plan.heads": PLAN.read_bytes(),
        "cut_plan.heads": PLAN.read_bytes()[:900],
        "Größe 1.heads": text.encode(),
        "other.heads": text.replace("HEAD 1 1 3", "HEAD 1 1 7").encode(),
        "huge.csv": b"layer,row,col,head\n1,1,1,5\n1,1,99999999999999999999999,1\n",
        "dates.csv": b"name,x,y,layer,date,measured\na,1,0.5,1,2024-13-45,1e400\n",
    }
    for name, content in made.items():
        (folder / name).write_bytes(content)
    (folder / "sub").mkdir()
    return folder


def chosen(rng, kind):
    """A word of a call: mostly what is due, else something else."""
    right = dict(nam="a.nam", listing="m.heads", hds="heads.csv", folder="out", new="new.hds", file="m.zon")
    wrong = (
        "cut.heads nan.heads refused.heads empty noise words table.csv layer.csv other.nam loop.nam m.list m.zon"
        " short.zon mfsim.nam sub nothing a.nam m.heads a.dis a.lpf.tpl plan.wel plan.heads cut_plan.heads"
        " other.heads huge.csv dates.csv"
    )
    return right[kind] if rng.random() < 0.65 else rng.choice([*wrong.split(), "Größe 1.heads"])


@pytest.mark.parametrize("part", range(6))
def test_no_exception_reaches_a_user(part, place, tmp_path, tool, monkeypatch):
    rng = random.Random(part)
    names = {"NAM": "a.nam", "LISTING": "m.heads", "FOLDER": "sub", "TPL": "a.lpf.tpl"}
    for n in range(COUNT // 6):
        folder = tmp_path / str(n)
        shutil.copytree(place, folder)
        monkeypatch.chdir(folder)
        before = {path.name: path.read_bytes() for path in folder.iterdir() if path.is_file()}
        name = rng.choice(list(WORDS))
        words = [chosen(rng, kind) for kind in WORDS[name].split()]
        options = OPTIONS.get(name, [""]) if rng.random() < 0.6 else []
        for option in rng.sample(options, min(2, len(options))):
            words += [names.get(word, chosen(rng, "file") if word == "FILE" else word) for word in option.split()]
        if rng.random() < 0.1:
            words = words[:-1]
        status, out, err = tool(name, *words)
        told = f"{name} {' '.join(words)}: status {status}\n{out[-500:]}{err[-500:]}"
        assert isinstance(status, int) and 0 <= status <= 8 or status is None, told
        assert "Traceback" not in out + err and (out + err).strip(), told
        kept = {"a.nam", "a.dis", "a.bas", "a.lpf", "noise", "words", "table.csv", "other.nam", "m.zon", "m.list"}
        for file in kept & set(before):
            assert (folder / file).read_bytes() == before[file], told
