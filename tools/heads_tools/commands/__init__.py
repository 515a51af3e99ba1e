"""The commands of heads-tools: a module each, with its parser (`add`) and its run (`do`). Here is what each is for."""
from __future__ import annotations

from importlib import import_module
from types import ModuleType

HELP = {
    "run": "run the model in its folder into NAME.heads, with progress; all further options go to heads run",
    "explain": "what the last line of an output means, and what to change",
    "inside": "is the model inside? All reasons at once, the digits it needs, and where MODFLOW reads it otherwise",
    "plain": "the deck in the one spelling of heads write, or rewritten so that heads reads it, with notes",
    "between": "two decks of one shape, for bounds that hold for every deck between them",
    "model": "what was read: sizes, ranges of arrays, entries, steps",
    "look": "tables, maps, sections, hydrographs, budget and a page",
    "compare": "how far given heads are from every exact solution",
    "drawdown": "what a plan does: the differences of two listings; or of a base deck and a plan, whatever the weather",
    "capture": "which share of a well's water each term gives, for a well at each of some cells, with maps",
    "plans": "one page that compares all listings of a batch with the first of them",
    "certify": "certified bounds from any solver's heads: margins by a sparse solve, then heads check",
    "check": "certify a listing by heads check",
    "hds": "a head file for FloPy, ModelMuse, Model Viewer",
    "export": "NetCDF, GeoTIFF, GeoPackage, VTK and CSV of a listing, each if its package is here",
    "observe": "heads at points, by a table name,x,y,layer,time,measured or a HOB file: lower, upper, measured",
    "template": "the deck with templates of its arrays in the form of PEST, for calibration and `ensemble`",
    "ensemble": "many samples of a deck from templates and a table: least and most head at chosen places, no bounds",
    "zonebudget": "the water budget of each zone, with bounds: wells, rivers, recharge, storage, faces",
    "mf2005": "run as MODFLOW-2005 is called by FloPy and ModelMuse: head file and list file",
    "exhibit": "for a report or a court: deck, listing, verdicts, hashes, versions, pictures; further options go to"
    " heads run",
    "batch": "run many models and collect their ends; further options go to heads",
    "version": "the program, its sources and kit, and whether its hash is the recorded one",
}
# A call of each, for the end of its help.
EXAMPLES = {
    "run": "run model/m.nam",
    "explain": "explain model/m.heads",
    "inside": "inside model/m.nam",
    "plain": "plain mfsim.nam plain",
    "between": "between m.nam two --wells 0..1 --recharge 0.8..1.2",
    "model": "model m.nam",
    "look": "look m.heads look --name m.nam",
    "compare": "compare m.heads run.hds --name m.nam",
    "drawdown": "drawdown base.nam plan.wel --to wet.nam",
    "capture": "capture base.nam capture --to wet.nam --rate 500 --every 5",
    "plans": "plans plans.list page",
    "certify": "certify m.nam run.hds",
    "check": "check m.nam m.heads",
    "hds": "hds m.heads bounds.hds --lower --name m.nam",
    "export": "export m.heads gis --name m.nam --at 155000,463000",
    "observe": "observe m.heads points.csv --name m.nam --picture p.png",
    "template": "template m.nam pest",
    "ensemble": "ensemble m.nam v.csv out --tpl m.lpf.tpl --cell 1,8,17",
    "zonebudget": "zonebudget m.heads m.zon --name m.nam",
    "mf2005": "mf2005 m.nam",
    "exhibit": "exhibit m.nam exhibit",
    "batch": "batch plans.list",
    "version": "version",
}
# Commands whose further words go to the program.
PASSING = {"run", "exhibit", "batch", "mf2005"}


def command(name: str) -> ModuleType:
    """The module of a command. Only the one at hand is loaded, and what it draws or solves with only where it does:
    matplotlib and scipy take longer than most commands."""
    return import_module(f".{name}", __name__)
