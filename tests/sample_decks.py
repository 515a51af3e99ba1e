"""Small decks with listings that were worked by hand, and the program's commands on them, for the scripts that hand
the program bad files, failing reads and writes, and little memory.

A deck is a map from names to bytes. The listings are those of an exact solution by hand: nothing here came from the
program. Of a quick run the listing isn't promised; those here are by its method, as it is written down: balanced heads
less the whole room.
"""
import os
import re
import subprocess

# the names of listings, with lines ZONE and without, and of a plan
LISTINGS = ("l.txt", "lz.txt", "pl.txt")

ZERO = "0.000000000000000000000"
TERMS = ["STORAGE", "CONSTANT HEAD", "WELLS", "DRAINS", "RIVER LEAKAGE", "HEAD DEP BOUNDS", "RECHARGE"]

USAGE = (b"USAGE: heads run NAME [--digits S] [--workers W] [--rounds P] [--zones Z] [--watch N] "
         b"| heads check NAME LISTING [--digits S] | heads make SEED SIZE "
         b"| heads batch LIST [--digits S] [--workers W] [--rounds P]\n")


def text(*lines):
    return "".join(line + "\n" for line in lines).encode()


def deck(columns="3", ibound="-1 1 -1", heads="10 0 20", period="1 1 1 SS", flow=("CONSTANT 1", "CONSTANT 1"),
         more=()):
    """A row of cells of unit size and conductivity between two constant heads; `more` are pairs of a package and its
    lines."""
    files = {
        "a.nam": text("DIS 11 a.dis", "BAS6 12 a.bas", "LPF 13 a.lpf",
                      *(f"{name} {14 + i} a.{name.lower()}" for i, (name, _) in enumerate(more))),
        "a.dis": text(f"1 1 {columns} 1 4 2", "0", "CONSTANT 1", "CONSTANT 1", "CONSTANT 1", "CONSTANT 0", period),
        "a.bas": text("FREE", "INTERNAL 1 (FREE) -1", ibound, "-999.99", "INTERNAL 1 (FREE) -1", heads),
        "a.lpf": text("0 -1E+30 0", "0", "0", "1", "0", "0", *flow),
    }
    return files | {f"a.{name.lower()}": text(*lines) for name, lines in more}


def step(number, heads, inward, outward, zones=()):
    """A step's lines: heads as pairs by column, terms as pairs by name, lines of zones."""
    def lines(side, terms):
        return [f"{side} {' '.join(terms.get(name, (ZERO, ZERO)))} {name}" for name in TERMS]
    cells = [f"HEAD 1 1 {column} {low} {high}" for column, (low, high) in enumerate(heads, 1)]
    return text(f"STEP 1 {number}", *cells, *lines("IN", inward), *lines("OUT", outward), *zones)


FIRST = text("HEADS 2 DIGITS 12 UNIT 2")
LAST = text("END")


def twice(value):
    return value, value


SHEET = ["INTERNAL 1 (FREE) -1"]
FLOW_5 = twice("5.000000000000000000000")
THIRD = "3.333333333000000000000", "3.333333334000000000000"

# Two constant heads of 10 and 20, and a cell halfway.
THREE_CELLS = deck()
THREE_CELLS_STEP = step(1, [twice("10.000000000"), twice("15.000000000"), twice("20.000000000")],
                        {"CONSTANT HEAD": FLOW_5}, {"CONSTANT HEAD": FLOW_5})
THREE_CELLS_PUTS = [FIRST, THREE_CELLS_STEP, LAST]

# The same deck in one spelling.
THREE_CELLS_WRITTEN = text(
    "FILE p.nam", "DIS 11 p.dis", "BAS6 12 p.bas", "LPF 13 p.lpf",
    "FILE p.dis", "1 1 3 1 0 2", "0", *SHEET, "1E0 1E0 1E0", *SHEET, "1E0", *SHEET, "1E0 1E0 1E0", *SHEET,
    "0E0 0E0 0E0", "1E0 1 1E0 SS",
    "FILE p.bas", "FREE", *SHEET, "-1 1 -1", "0", *SHEET, "1E1 0E0 2E1",
    "FILE p.lpf", "0 0 0", "0", "0", "-1", "0", "0", *[*SHEET, "1E0 1E0 1E0"] * 3, "END")

# And with zone 1 at the first cell, and zone 2 at the others, as a file more.
THREE_CELLS_ZONED = THREE_CELLS_WRITTEN.removesuffix(LAST) + text("FILE p.zon", *SHEET, "1 2 2", "END")

# The same with zone 1 at the first cell, and zone 2 at the others: 5 units flow from zone 2 to zone 1.
ZONES = THREE_CELLS | {"z.txt": text("INTERNAL 1 (FREE) -1", "1 2 2")}
ZONES_PUTS = [FIRST, THREE_CELLS_STEP + text("ZONE 1 2 -5.000000000000000000000 -5.000000000000000000000"), LAST]

# Two constant heads of 0 and 10, and heads of thirds.
FOUR_CELLS = deck("4", "-1 1 1 -1", "0 0 0 10")
FOUR_CELLS_PUTS = [FIRST, step(1, [twice("0.000000000"), ("3.333333333", "3.333333334"),
                                   ("6.666666666", "6.666666667"), twice("10.000000000")],
                               {"CONSTANT HEAD": THIRD}, {"CONSTANT HEAD": THIRD}), LAST]

# One cell whose well takes 5 units a day from storage, for three days.
THREE_STEPS = deck("1", "1", "10", "3 3 1 TR", ("CONSTANT 1", "CONSTANT 1", "CONSTANT 1"),
                   [("WEL", ["1 0", "1 0", "1 1 1 -5"])])
THREE_STEPS_PUTS = [FIRST, *(step(n, [twice(head)], {"STORAGE": FLOW_5}, {"WELLS": FLOW_5})
                             for n, head in [(1, "5.000000000"), (2, "0.000000000"), (3, "-5.000000000")]), LAST]

# A quick run moves each balanced head outwards by 33/32 of the room: a rounding of 10^-9 times the conductances at the
# cell, over what holds the cell; and rounds it outwards. Where all neighbours are constant heads the room is one unit,
# so that a head is two units off; and each step begins with the room of the one before. No head passes the barrier:
# where a well takes from storage alone, the lower heads are the floor, the least old head less Q / C.
def around(whole, units, places=9):
    """The pair of a whole number above 0 less and more units of 10^-9, with so many places."""
    zeros = "0" * (places - 9)
    return f"{whole - 1}.{10**9 - units:09d}{zeros}", f"{whole}.{units:09d}{zeros}"


QUICK_STEP = step(1, [twice("10.000000000"), around(15, 2), twice("20.000000000")],
                  {"CONSTANT HEAD": around(5, 2, 21)}, {"CONSTANT HEAD": around(5, 2, 21)})
QUICK_PUTS = [FIRST, QUICK_STEP, LAST]
QUICK_STEPS = [(("5.000000000", "5.000000002"), ("4.999999998", "5.000000000")),
               (("0.000000000", "0.000000004"), ("4.999999996", "5.000000002")),
               (("-5.000000000", "-4.999999994"), ("4.999999994", "5.000000004"))]
QUICK_STEPS_PUTS = [FIRST, *(step(n, [head], {"STORAGE": tuple(f"{flow}{'0' * 12}" for flow in storage)},
                                  {"WELLS": FLOW_5})
                             for n, (head, storage) in enumerate(QUICK_STEPS, 1)), LAST]


def second(files, letter="b"):
    """The same files under names that begin with another letter."""
    return {name.replace("a.", f"{letter}."): content.replace(b"a.", b"%c." % ord(letter))
            for name, content in files.items()}


# Two decks: THREE_CELLS, and one whose constant heads are a unit higher. The head between them is from 15 to 16, and
# each constant head gives or takes from 4 to 6 units.
TWO_DECKS = THREE_CELLS | second(deck(heads="11 0 21"))
FLOW_4_TO_6 = "4.000000000000000000000", "6.000000000000000000000"
TWO_DECKS_FIRST = text("HEADS 2 DIGITS 12 UNIT 2 TO")
TWO_DECKS_STEP = step(1, [(f"{low}.000000000", f"{low + 1}.000000000") for low in (10, 15, 20)],
                      {"CONSTANT HEAD": FLOW_4_TO_6}, {"CONSTANT HEAD": FLOW_4_TO_6})
TWO_DECKS_PUTS = [TWO_DECKS_FIRST, TWO_DECKS_STEP, LAST]
TWO_DECKS_ZONED = THREE_CELLS_ZONED + THREE_CELLS_ZONED.replace(b"\n1E1 0E0 2E1\n", b"\n11E0 0E0 21E0\n")
TWO_DECKS_VIEW = rb"WATCH 1 1\nHEAD 1 1 2 (1\d\.\d{9}) ((?:1\d|20)\.\d{9}|21\.000000000)\n"
TWO_DECKS_ZONES_PUTS = [TWO_DECKS_FIRST, TWO_DECKS_STEP
                        + text("ZONE 1 2 -6.000000000000000000000 -4.000000000000000000000"), LAST]

def units_apart(low, high, units, places):
    return around(low, units, places)[0], around(high, units, places)[1]


QUICK_4_TO_6 = units_apart(4, 6, 2, 21)
TWO_DECKS_QUICK_STEP = step(1, [("10.000000000", "11.000000000"), units_apart(15, 16, 2, 9),
                                ("20.000000000", "21.000000000")],
                            {"CONSTANT HEAD": QUICK_4_TO_6}, {"CONSTANT HEAD": QUICK_4_TO_6})
TWO_DECKS_QUICK_PUTS = [TWO_DECKS_FIRST, TWO_DECKS_QUICK_STEP
                        + text("ZONE 1 2 -6.000000002000000000000 -3.999999998000000000000"), LAST]

# A plan whose well takes 4 units from the cell halfway: its head is 2 lower, and each constant head gives 2 more, in
# all weathers between the two decks. What flows more from zone 1 to zone 2 is the 2 of the first constant head.
PLAN = {"p.wel": text("1 0", "1 0", "1 1 2 -4")}


def plan_step(base, zones=()):
    """A step's lines by the heads of base as pairs: those of the plan are 2 lower between the constant heads."""
    cells = [(low, high, 2 * (column == 1)) for column, (low, high) in enumerate(base)]
    lines = [f"{part} 1 1 {column} {one}.000000000 {two}.000000000" for column, (low, high, less) in enumerate(cells, 1)
             for part, one, two in (("BASE", low, high), ("PLAN", low - less, high - less), ("DRAWDOWN", less, less))]
    more = {"CONSTANT HEAD": "4.000000000000000000000"}
    terms = [name for name in TERMS if name not in ("WELLS", "RECHARGE")]
    sources = [f"SOURCE {more.get(name, ZERO)} {more.get(name, ZERO)} {name}" for name in terms]
    return text("STEP 1 1", *lines, *sources, *zones)


PLAN_PUTS = [text("DRAWDOWN 1 DIGITS 12 UNIT 2"), plan_step([(10, 10), (15, 15), (20, 20)]), LAST]
TWO_DECKS_PLAN_PUTS = [text("DRAWDOWN 1 DIGITS 12 UNIT 2 TO"),
                       plan_step([(10, 11), (15, 16), (20, 21)],
                                 ["ZONE 1 2 2.000000000000000000000 2.000000000000000000000"]), LAST]

# Two cells joined by 2, whose wells take and give 4.2E9; the first is joined by 1 to a general head of 10. So its head
# is 10, and the second one 2.1E9 higher. Its balance changes by 3 with its head: settling stops where less than 3
# units are left, two units away from the solution. The floor of the first cell, 10 - 4.2E9, is below the range of
# heads, and its ceiling above it.
CUT_FLOORS = deck("2", "1 1", "10 10", flow=("CONSTANT 2", "CONSTANT 1"),
                  more=[("WEL", ["2 0", "2 0", "1 1 1 -4.2E9", "1 1 2 4.2E9"]), ("GHB", ["1 0", "1 0", "1 1 1 10 1"])])
TAKEN = twice("4200000000.000000000000000000000")
AT_MOST_2 = ZERO, "0.000000002000000000000"
CUT_PUTS = [FIRST, step(1, [around(10, 2), around(2_100_000_010, 2)], {"WELLS": TAKEN, "HEAD DEP BOUNDS": AT_MOST_2},
                        {"WELLS": TAKEN, "HEAD DEP BOUNDS": AT_MOST_2}), LAST]
OUT_OF_RANGE_PUTS = [FIRST, text("NOBOUND 26 RangeLow 1 1 1 1 1")]

MADE = text("MADE 1 1", "STEPS 4", "HEADS 8", "WIDEST 0.000000000", "LOWSUM 79.840750000", "HIGHSUM 79.840750000",
            "END")

# One piece of a view: two constant heads aren't shown.
VIEW = rb"WATCH 1 1\nHEAD 1 1 2 (1\d\.\d{9}) (1\d\.\d{9}|20\.000000000)\n"


class Command:
    """Words, the files that they name in the order in which they are read, the pieces that are written, the form of
    what is written to standard error, and how often a file is opened."""

    def __init__(self, words, files, puts, side=b"", status=0, opens=None):
        self.words, self.files, self.puts, self.side, self.status = words.split(" "), files, puts, side, status
        self.opens = len(files) if opens is None else opens
        self.name = " ".join(word for word in self.words[:1] + [word for word in self.words if word.startswith("--")])

    def reads(self):
        return list(self.files)

    def out(self):
        return b"".join(self.puts)

    def is_side(self, written):
        return re.fullmatch(self.side, written) is not None


def reading_order(*names):
    """The files of THREE_CELLS and the others named, in the order in which a command reads them."""
    files = THREE_CELLS | {"z.txt": ZONES["z.txt"], "l.txt": b"".join(THREE_CELLS_PUTS),
                           "lz.txt": b"".join(ZONES_PUTS), "pl.txt": b"".join(PLAN_PUTS),
                           "list.txt": text("a.nam")} | PLAN
    return {name: files[name] for name in names}


RUN = Command("run a.nam", reading_order("a.nam", "a.dis", "a.bas", "a.lpf"), THREE_CELLS_PUTS)
COMMANDS = [
    RUN,
    Command("check a.nam l.txt", reading_order("a.nam", "a.dis", "a.bas", "a.lpf", "l.txt"), [text("CERTIFIED")]),
    Command("make 1 1", {}, [MADE]),
    Command("write a.nam", reading_order("a.nam", "a.dis", "a.bas", "a.lpf"), [THREE_CELLS_WRITTEN]),
    Command("run a.nam --zones z.txt", reading_order("a.nam", "a.dis", "a.bas", "a.lpf", "z.txt"), ZONES_PUTS),
    Command("check a.nam lz.txt --zones z.txt", reading_order("a.nam", "a.dis", "a.bas", "a.lpf", "z.txt", "lz.txt"),
            [text("CERTIFIED")]),
    Command("batch list.txt", reading_order("list.txt", "a.nam", "a.dis", "a.bas", "a.lpf"),
            [text("MODEL a.nam") + b"".join(THREE_CELLS_PUTS), LAST]),
    Command("run a.nam --watch 2", reading_order("a.nam", "a.dis", "a.bas", "a.lpf"), THREE_CELLS_PUTS,
            side=rb"(?:(?:%s){2})+" % VIEW),
    Command("run a.nam --quick", reading_order("a.nam", "a.dis", "a.bas", "a.lpf"), QUICK_PUTS),
    Command("run a.nam --to b.nam", TWO_DECKS, TWO_DECKS_PUTS),
    Command("check a.nam l.txt --to b.nam", TWO_DECKS | {"l.txt": b"".join(TWO_DECKS_PUTS)}, [text("CERTIFIED")]),
    Command("run a.nam --plan p.wel", reading_order("a.nam", "a.dis", "a.bas", "a.lpf", "p.wel"), PLAN_PUTS),
    Command("check a.nam pl.txt --plan p.wel", reading_order("a.nam", "a.dis", "a.bas", "a.lpf", "p.wel", "pl.txt"),
            [text("CERTIFIED")]),
]

# Three models as a batch: the second one has no files, so its refusal is its text, and decides the status.
BATCH = THREE_CELLS | second(FOUR_CELLS) | {"list.txt": text("a.nam", "none.nam", "b.nam")}
BATCH_PUTS = [text("MODEL a.nam") + b"".join(THREE_CELLS_PUTS),
              text("MODEL none.nam", "REFUSED 1 MissingFile none.nam 0"),
              text("MODEL b.nam") + b"".join(FOUR_CELLS_PUTS), LAST]

# Further decks: a batch, heads of thirds, three steps, a listing of thirds that is checked, two decks with zones, with
# views, and with another conductivity in the second, an array in a file of its own, quick runs of three steps, of a
# batch and of two decks, floors that are out of range, and cut, and a plan in all weathers between two decks.
FURTHER = [
    Command("batch list.txt --workers 2", BATCH, BATCH_PUTS, status=2, opens=10),
    Command("run a.nam --workers 3", FOUR_CELLS, FOUR_CELLS_PUTS),
    Command("run a.nam", THREE_STEPS, THREE_STEPS_PUTS),
    Command("check a.nam l.txt", FOUR_CELLS | {"l.txt": b"".join(FOUR_CELLS_PUTS)}, [text("CERTIFIED")]),
    Command("run a.nam --to b.nam --zones z.txt", TWO_DECKS | {"z.txt": ZONES["z.txt"]}, TWO_DECKS_ZONES_PUTS),
    Command("run a.nam --to b.nam --watch 2", TWO_DECKS, TWO_DECKS_PUTS, side=rb"(?:(?:%s){2})+" % TWO_DECKS_VIEW),
    Command("run a.nam --to b.nam", THREE_CELLS | second(deck(flow=("CONSTANT 2", "CONSTANT 1"))),
            [text("REFUSED 28 NotAlike b.lpf 0 1 1 1")], status=2),
    Command("run a.nam", deck(flow=("OPEN/CLOSE hk.txt 1 (FREE)", "CONSTANT 1")) | {"hk.txt": text("3*1")},
            THREE_CELLS_PUTS),
    Command("run a.nam --quick", THREE_STEPS, QUICK_STEPS_PUTS),
    Command("batch list.txt --quick", reading_order("list.txt", "a.nam", "a.dis", "a.bas", "a.lpf"),
            [text("MODEL a.nam") + b"".join(QUICK_PUTS), LAST]),
    Command("run a.nam --to b.nam --zones z.txt --quick", TWO_DECKS | {"z.txt": ZONES["z.txt"]}, TWO_DECKS_QUICK_PUTS),
    Command("run a.nam", CUT_FLOORS, OUT_OF_RANGE_PUTS, status=3),
    Command("run a.nam --wide", CUT_FLOORS, CUT_PUTS),
    Command("check a.nam l.txt --wide", CUT_FLOORS | {"l.txt": b"".join(CUT_PUTS)}, [text("CERTIFIED")]),
    Command("batch list.txt --wide", CUT_FLOORS | {"list.txt": text("a.nam")},
            [text("MODEL a.nam") + b"".join(CUT_PUTS), LAST]),
    Command("run a.nam --to b.nam --zones z.txt --wide", TWO_DECKS | {"z.txt": ZONES["z.txt"]}, TWO_DECKS_ZONES_PUTS),
    Command("write a.nam --wide", THREE_CELLS, [THREE_CELLS_WRITTEN]),
    Command("run a.nam --deck", THREE_CELLS, [THREE_CELLS_WRITTEN, *THREE_CELLS_PUTS]),
    Command("run a.nam --zones z.txt --deck", ZONES, [THREE_CELLS_ZONED, *ZONES_PUTS]),
    Command("run a.nam --to b.nam --zones z.txt --deck", TWO_DECKS | {"z.txt": ZONES["z.txt"]},
            [TWO_DECKS_ZONED, *TWO_DECKS_ZONES_PUTS]),
    Command("run a.nam --to b.nam --plan p.wel --zones z.txt", TWO_DECKS | PLAN | {"z.txt": ZONES["z.txt"]},
            TWO_DECKS_PLAN_PUTS),
    Command("check a.nam pl.txt --to b.nam --plan p.wel --zones z.txt",
            TWO_DECKS | PLAN | {"z.txt": ZONES["z.txt"], "pl.txt": b"".join(TWO_DECKS_PLAN_PUTS)}, [text("CERTIFIED")]),
]


def write_files(folder, files):
    for name, content in files.items():
        with open(os.path.join(folder, name), "wb") as file:
            file.write(content)


# The name file of what `heads write` puts.
WRITTEN = "p.nam"


def files_of(text):
    """The files of what `heads write` puts, by their names; None where that has another form."""
    begin, *parts = re.split(rb"^FILE (.+)\n", text.removesuffix(b"END\n"), flags=re.MULTILINE)
    files = {name.decode(): content for name, content in zip(parts[::2], parts[1::2])}
    return files if text.endswith(b"\nEND\n") and not begin and 2 * len(files) == len(parts) else None


def built(program, commands):
    """Those of the commands that this program has: it takes the words of one that it hasn't as usage."""
    def is_built(command):
        done = subprocess.run([program, *command.words], cwd="/", capture_output=True, check=False)
        return done.returncode != 1
    return [command for command in commands if is_built(command)]


def built_commands(program):
    return built(program, COMMANDS)


def left_out(commands):
    """What to say of the commands that a program hasn't."""
    names = [command.name for command in COMMANDS if command not in commands]
    return f"; not built: {', '.join(names)}" if names else ""
