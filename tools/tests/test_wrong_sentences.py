"""Wrong calls whose sentence has to name what is wrong: the file, its line, and the cell where there is one."""
import os
import shlex
import shutil

import pytest
from conftest import TOP, heads

pytestmark = pytest.mark.program
POINTS = "name,x,y,layer,time,measured\n"
HEADS = "layer,row,col,head\n1,1,1,5\n"
ZONES = "INTERNAL 1 (FREE) -1\n"
FILES = {
    "empty": b"",
    "noise": bytes(range(256)) * 9,
    "nan.csv": f"{HEADS}1,1,2,nan\n",
    "infinite.csv": f"{HEADS}1,1,2,1e400\n",
    "outside.csv": f"{HEADS}1,1,9,3\n",
    "huge.csv": f"{HEADS}1,1,{'9' * 25},3\n",
    "twice.csv": f"{HEADS}1,1,2,3\n1,1,2,4\n",
    "short.zon": f"{ZONES}1\n",
    "large.zon": f"{ZONES}1 2 1000\n",
    "half.zon": f"{ZONES}1 2.5 2\n",
    "point.csv": f"{POINTS}a,1,0.5,1,1,3\n",
    "word.csv": f"{POINTS}a,1,0.5,1,1,3\nb,x,2,1,1,3\n",
    "nowhere.csv": f"{POINTS}a,nan,2,1,1,3\n",
    "endless.csv": f"{POINTS}a,1,0.5,1,1,inf\n",
    "month.csv": "name,x,y,layer,date,measured\na,1,0.5,1,2024-13-01,3\n",
    "out.wel": "1 0\n1 0\n1 1 9 -1\n",
    "nan.wel": "1 0\n1 0\n1 1 2 nan\n",
    "huge.wel": "1 0\n1 0\n1 1 2 -1e300\n",
    "plan.wel": "1 0\n1 0\n1 1 2 -1\n",
    "lacks.list": "a.nam\nmissing.nam\n",
    "blank.list": "Modell Ü.nam\n",
    "one.list": "a.nam\n",
    "no_dis.nam": "LIST 1 a.list\nDIS 2 nothing.dis\n",
    "folder.nam": "DIS 2 sub\nBAS6 3 sub\nLPF 4 sub\n",
    "values.csv": "name,hk\na,1\nb,x\n",
    "a.lpf.tpl": "ptf @\n@hk@\n",
    "Größe 1.heads": "HEADS 2 DIGITS 12 UNIT 2\nSTEP 1 1\nHEAD 1 1 1 x 2\nEND\n",
}
OTHER = "other_cells.heads has cells up to (1, 1, 7), and the model's grid is (1, 1, 3): another model"
GRID = "layer, row, column (1, 1, 9) lie outside the grid of (1, 1, 3)"
# The words of a call, and what is said.
CALLS = [
    ("look word.heads out", "word.heads, line 4: `HEAD 1 1 2 nan"),
    ("look empty out", "empty is empty: the write failed, or the run was stopped"),
    ("look noise out", "noise, line 1: no listing of `heads` begins with"),
    ("look sub out", "sub is a folder; a file is due here"),
    ("look nothing out", "there is no file nothing"),
    ("look 'Größe 1.heads' out", "Größe 1.heads, line 3: `HEAD 1 1 1 x 2`"),
    ("look m.heads a.dis", "a.dis is a file, and a folder is due"),
    ("look m.heads out --cell 1,1,9", "cell 1,1,9 isn't in the listing"),
    ("look m.heads out --name no_dis.nam", "no_dis.nam: the name file lacks BAS6"),
    ("look m.heads out --name folder.nam", "sub is a folder; a file is due here"),
    ("look other_cells.heads out --name a.nam", OTHER),
    ("look m.heads out --name a.nam --zones short.zon", "short.zon ends after line 2"),
    ("look m.heads out --name a.nam --zones large.zon", "large.zon, cell 1 1 3 (layer row column): 1000 is no zone"),
    ("zonebudget m.heads half.zon --name a.nam", "half.zon, cell 1 1 2 (layer row column): 2.5 is no zone"),
    ("compare m.heads nan.csv", "nan.csv, line 3"),
    ("compare m.heads infinite.csv", "infinite.csv, line 3"),
    ("compare m.heads huge.csv", "huge.csv, line 3: layer, row, column (1, 1, 9999999999999999999999999) lie outside"),
    ("compare m.heads outside.csv --name a.nam", f"outside.csv, line 3: {GRID}"),
    ("certify a.nam outside.csv", f"outside.csv, line 3: {GRID}"),
    ("certify a.nam twice.csv", "twice.csv, line 4: its cell stands in line 3, too"),
    ("certify a.nam noise", "noise is neither a head file of MODFLOW nor a table"),
    ("certify a.nam heads.csv --theta -1", "argument --theta: a number above 0 is due, and not -1"),
    ("certify a.nam heads.csv --theta nan", "argument --theta: a number above 0 is due, and not nan"),
    ("certify a.nam heads.csv --digits 19", "argument --digits: a whole number from 0 to 18 is due, and not 19"),
    ("observe m.heads word.csv --name a.nam", "word.csv, line 3: a line is name,x,y"),
    ("observe m.heads nowhere.csv --name a.nam", "nowhere.csv, line 2: a line is name,x,y"),
    ("observe m.heads endless.csv --name a.nam", "endless.csv, line 2: a line is name,x,y"),
    ("observe m.heads month.csv --name a.nam --start 2024-01-01", "month.csv, line 2: `2024-13-01`: a date is"),
    ("observe m.heads point.csv --name a.nam --start 2024-02-30", "`2024-02-30`: a start date is YYYY-MM-DD"),
    ("observe m.heads point.csv --name a.nam --at nan,0", "`nan,0`: a place is X0,Y0[,ANGLE[,EPSG]]"),
    ("export m.heads out --name a.nam --at 1e400,0", "`1e400,0`: a place is X0,Y0[,ANGLE[,EPSG]]"),
    ("export m.heads out --name a.nam --at 0,0,1e30", "`0,0,1e30`: a place is X0,Y0[,ANGLE[,EPSG]]"),
    ("export m.heads out --name a.nam --as shp", "--as is a list of nc, tif, gpkg, vtu, csv"),
    ("export cut.heads out --name a.nam", "cut.heads isn't whole: it ends with"),
    ("hds m.heads a.dis --name a.nam", "a.dis isn't written over"),
    ("drawdown m.heads other_cells.heads out", "other_cells.heads has other cells with flow than"),
    ("drawdown a.nam out.wel out", "out.wel, line 3: layer, row, column (1, 1, 9) lie outside the grid"),
    ("drawdown a.nam nan.wel out", "nan.wel, line 3: `nan` is no number"),
    ("drawdown a.nam huge.wel out", "huge.wel, line 3: `-1e300`: the exponent lies outside -40 to 40"),
    ("drawdown a.nam plan.wel out --at x,nan,0", "a point is NAME,X,Y or NAME,X,Y,LAYER, and not x,nan,0"),
    ("drawdown a.nam plan.wel out --cell 1,1,9", "cell 1,1,9 has no flow, or lies outside the grid"),
    ("capture a.nam out --rate nan", "`nan` is no number"),
    ("capture a.nam out --rate 1 --every 0", "argument --every: a whole number from 1 to 1,000,000,000 is due"),
    ("capture a.nam out --rate 1 --layer 7", "a.nam has 1 layer, and no layer 7"),
    ("between a.nam out --recharge nan..1", "argument --recharge: a range is LOW..HIGH"),
    ("batch lacks.list", "lacks.list, line 2: there is no file missing.nam"),
    ("batch blank.list", "blank.list, line 1: there is no file Modell"),
    ("batch one.list --jobs -3", "argument --jobs: a whole number from 0 to 1,000,000,000 is due, and not -3"),
    ("ensemble a.nam values.csv out --tpl a.lpf.tpl --cell 1,1,2", "values.csv, sample 2: `x` is no number"),
    ("ensemble a.nam values.csv out --tpl noise --cell 1,1,2", "noise is no template"),
    ("inside a.nam --most -1", "argument --most: a whole number from 1 to 1,000,000,000 is due, and not -1"),
    ("check a.nam cell.heads", "cell.heads has cells up to (1, 1, 7)"),
    ("run a.nam --plan out.wel", "CellOutside in out.wel, line 3"),
    ("run a.nam --zones large.zon", "BadProperty in large.zon, cell 1 1 3 (layer row column)"),
    ("run a.nam --out sub", "sub is a folder; a file is due here"),
    ("run a.nam --out a.dis", "a.dis isn't written over"),
    ("model folder.nam", "sub is a folder; a file is due here"),
]


@pytest.fixture(scope="module")
def place(tmp_path_factory):
    """A folder with a model, its listing, and what is wrong."""
    folder = tmp_path_factory.mktemp("wrong")
    for file in (TOP / "examples" / "three_cells").glob("a.*"):
        shutil.copy(file, folder)
    text = heads(["run", "a.nam"], folder).stdout
    made = FILES | {
        "m.heads": text,
        "heads.csv": f"{HEADS}1,1,2,4\n1,1,3,3\n",
        "cut.heads": text[: len(text) // 2],
        "word.heads": text.replace("HEAD 1 1 2 15", "HEAD 1 1 2 nan"),
        "cell.heads": text.replace("HEAD 1 1 3", "HEAD 1 1 7"),
        "other_cells.heads": text.replace("HEAD 1 1 3", "HEAD 1 1 7"),
    }
    for name, content in made.items():
        (folder / name).write_bytes(content if isinstance(content, bytes) else content.encode())
    (folder / "sub").mkdir()
    return folder


@pytest.mark.parametrize("words, said", CALLS, ids=[words for words, _ in CALLS])
def test_the_sentence_names_what_is_wrong(words, said, place, tmp_path, tool, monkeypatch):
    folder = tmp_path / "deck"
    shutil.copytree(place, folder)
    monkeypatch.chdir(folder)
    status, out, err = tool(*shlex.split(words))
    assert status in (1, 2) and said in out + err, out + err
    assert "Traceback" not in out + err
    assert not (folder / "out").exists() and (folder / "a.dis").read_bytes() == (place / "a.dis").read_bytes()


def test_a_batch_names_the_folder_that_it_may_not_write(place, tmp_path, tool, monkeypatch):
    folder = tmp_path / "deck"
    shutil.copytree(place, folder)
    monkeypatch.chdir(folder)
    monkeypatch.setattr(os, "access", lambda _, mode: mode != os.W_OK)
    status, out, err = tool("batch", "one.list")
    assert status == 2 and f"{folder} can't be written: Permission denied" in err, out + err
