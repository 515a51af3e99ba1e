"""Decks of other programs that mean another model than that of spelled.py: each as two changes of its files, the
spelling and a plain deck of the same model. All are decks that MODFLOW-2005 runs."""
from sampled import FREE, ZONE, list_of_parameter, lpf, named
from spelled import HK, HK_FREE, HK_ROWS, both, fixed, hk, more, swap

ROWS_OF_FLOW = "\n".join(" ".join(f"{15 * v:g}" for v in row) for row in HK) + "\n"
BY_BCF = {"m.nam": ("LPF 15 m.lpf", "BCF6 15 m.bcf")}
RATES = "INTERNAL 1 (FREE) -1\n" + "0.002 0.002 0.004 0.004 0\n" * 4
WEL, RIV, DRN = "1 53\n1 0\n2 2 3 -50\n-1 0\n", "1 53\n1 0\n1 2 4 19.5 20 18\n-1 0\n", "1 53\n1 0\n1 4 5 19 10\n-1 0\n"
LEAKS = both(swap("m.lpf", "CONSTANT 0.5\n", "CONSTANT 0.6\n"), swap("m.lpf", "CONSTANT 0.4\n", "CONSTANT 0.6\n"))


def steady(change):
    """A change of the deck with its first period alone, which is steady: no storage is given."""

    def changed(files):
        first = {
            "m.dis": files["m.dis"].replace("2 4 5 2 4 2", "2 4 5 1 4 2").replace("10 3 1.5 TR\n", ""),
            "m.lpf": files["m.lpf"].replace("CONSTANT 0.00001\n", "").replace("CONSTANT 0.00002\n", ""),
        }
        out = files | first
        out |= change(out)
        return {name: text for name, text in out.items() if files.get(name) != text}

    return changed


def bcf(files):
    """BCF6 of two layers as FloPy writes it: the transmissivity is 15 times HK, and 1 / VCONT is 12.5 + 12.5."""
    text = (
        "         0 -1.00E+30         0  1.000000         1         0\n00 00\nCONSTANT 1\n"
        f"CONSTANT 0.00015\n{FREE}{ROWS_OF_FLOW}CONSTANT 0.04\nCONSTANT 0.0003\nCONSTANT 60\n"
    )
    return {"m.nam": files["m.nam"].replace(*BY_BCF["m.nam"]), "m.bcf": text}


def bed(files):
    """A confining bed of 5 below layer 1."""
    return both(
        swap("m.dis", "0 0\n", "1 0\n"),
        swap("m.dis", "CONSTANT 15\n", "CONSTANT 15\nCONSTANT 10\n"),
        swap("m.lpf", "CONSTANT 0.00001\n", "CONSTANT 0.00001\nCONSTANT 0.002\n"),
    )(files)


def bed_in_columns(files):
    """The same with the bed's arrays in records of fixed columns."""
    constant = lambda value: f"{0:>10}{value:>10}\n"
    return both(
        bed,
        swap("m.dis", "CONSTANT 10\n", constant("10.")),
        swap("m.lpf", "CONSTANT 0.002\n", constant("2.E-3")),
    )(files)


PAIRS = {
    "flopy's bcf6 of two layers": (bcf, LEAKS),
    "recharge by parameters, arrays and zones": (
        both(
            lambda _: {
                "m.rch": "PARAMETER 2\n3 53\na RCH 2 1\nm z 1 3\nb RCH 0.004 1\nNONE z 2\n2\na\nb\n2\na\nb\n",
                "m.mlt": "1\nm\n" + FREE + "0.001 0.001 0.002 0.002 0\n" * 4,
                "m.zon": ZONE,
            },
            named("MULT 40 m.mlt", "ZONE 41 m.zon"),
        ),
        lambda _: {"m.rch": "3 53\n0\n" + RATES + "-1\n"},
    ),
    "two parameters of wells and a file of values": (
        both(
            lambda _: {
                "m.wel": "PARAMETER 2 3\n3 53\np Q -1 2\n2 2 3 50\n1 3 2 10\nq Q 7 1\n1 1 3 2\n0 1\np\n0 2\np\nq\n",
                "m.pval": "2\np -2\nq 3\n",
            },
            named("PVAL 42 m.pval"),
        ),
        lambda _: {"m.wel": "3 53\n2 0\n2 2 3 -100\n1 3 2 -20\n3 0\n2 2 3 -100\n1 3 2 -20\n1 1 3 6\n"},
    ),
    "rivers of a parameter beside others": (
        list_of_parameter("riv", "RIV", 10, "1 2 4 19.5 2 18\n", "1 1\n1 3 2 19 5 17\np\n-1 1\np\n"),
        lambda _: {"m.riv": "2 53\n2 0\n1 3 2 19 5 17\n1 2 4 19.5 20 18\n-1 0\n"},
    ),
    "parameters of each zone": (
        both(
            lpf("a HK 2 1\n1 NONE z 1\nb HK 3 1\n1 NONE z 2\nc HK 5 2\n1 NONE z 3\n2 NONE ALL\n"),
            more(m_zon=ZONE),
            named("ZONE 41 m.zon"),
        ),
        both(
            swap("m.lpf", HK_FREE, FREE + "2 2 3 3 5\n" * 4),
            swap("m.lpf", "CONSTANT 4\n", "CONSTANT 5\n"),
        ),
    ),
    "clusters that lie over one another": (
        lpf("a HK 2 2\n1 NONE ALL\n1 NONE ALL\nb HK 4 1\n2 NONE ALL\n"),
        swap("m.lpf", HK_FREE, "CONSTANT 4\n"),
    ),
    "the word for no parameters": (
        both(swap("m.wel", "1 53\n", "PARAMETER 0 0\n1 53\n"), swap("m.rch", "3 53\n", "PARAMETER 0\n3 53\n")),
        lambda _: {},
    ),
    "quoted format of two fields": (
        hk("INTERNAL 1 '(2F8.2,3X,3F8.2)' -1\n" + "".join(
            "|||".join(fixed([f"{float(v):.2f}" for v in part], 8) for part in (row[:2], row[2:])) + "\n"
            for row in HK)),
        lambda _: {},
    ),
    "format that skips": (
        hk("INTERNAL 1 (4X,5F6.1) -1\n" + "".join(
            f"r{n}: " + fixed([f"{float(v):.1f}" for v in row], 6) + "\n" for n, row in enumerate(HK, 1))),
        lambda _: {},
    ),
    "the top as the head at the start": (
        steady(both(
            swap("m.lpf", "53 -1E+30 0\n0 0\n", "53 -1E+30 0 THICKSTRT\n-1 0\n"),
            swap("m.bas", "CONSTANT 20\nCONSTANT 20\n", "CONSTANT 25\nCONSTANT 20\n"),
        )),
        steady(both(
            swap("m.dis", "CONSTANT 30\n", "CONSTANT 25\n"),
            swap("m.bas", "CONSTANT 20\nCONSTANT 20\n", "CONSTANT 25\nCONSTANT 20\n"),
        )),
    ),
    "groundwater vistas' records": (
        both(
            hk(f"{15:>10}{'1.000000':>10}{'(10e12.4)':<20}{-1:>10}     Kx layer 1\n" + "".join(
                "".join(f"{float(v):12.4e}" for v in row) + "\n" for row in HK)),
            swap("m.riv", RIV, "         1        53\n         1         0 Stress Period  1\n"
                 "         1         2         4 19.50000 20.00000 18.00000        0.\n        -1         0\n"),
        ),
        lambda _: {},
    ),
    "a bed in columns": (bed_in_columns, bed),
    "factors for each list": (
        both(
            swap("m.drn", DRN, "2 53\n2 0\nSFAC 0.5\n1 4 5 19 20\n1 3 3 18 4\n-1 0\n"),
            swap("m.wel", WEL, "2 53\n2 0\nOPEN/CLOSE w.txt\n1 0\nSFAC 2\n2 2 3 -20\n"),
            lambda files: files | {"w.txt": "SFAC 10\n2 2 3 -5\n1 1 2 -1\n"},
        ),
        both(
            swap("m.drn", DRN, "2 53\n2 0\n1 4 5 19 10\n1 3 3 18 2\n-1 0\n"),
            swap("m.wel", WEL, "2 53\n2 0\n2 2 3 -50\n1 1 2 -10\n1 0\n2 2 3 -40\n"),
        ),
    ),
    "zeros of horizontal conductivity in a layer by itself": (
        both(
            swap("m.lpf", HK_FREE, FREE + "1 2 3 4 5\n6 0 8 9 10\n1.5 2.5 3.5 4.5 5.5\n10 9 8 7 6\n"),
            swap("m.lpf", "CONSTANT 0.5\n", FREE + "5*0.5\n0.5 0 3*0.5\n" + "5*0.5\n" * 2),
        ),
        swap("m.bas", "-1 1 1 1 1\n-1 1 1 1 1\n", "-1 1 1 1 1\n-1 0 1 1 1\n"),
    ),
    "arrays of functions and zones": (
        both(
            lpf("a HK 1 1\n1 f z 1 2\nb HK 6 1\n1 NONE z 3\nc HK 4 1\n2 NONE ALL\n"),
            more(m_zon=ZONE, m_mlt="2\nm\n" + FREE + HK_ROWS + "f FUNCTION\nm + m\n"),
            named("ZONE 41 m.zon", "MULT 40 m.mlt"),
        ),
        swap("m.lpf", HK_FREE, FREE + "2 4 6 8 6\n12 14 16 18 6\n3 5 7 9 6\n20 18 16 14 6\n"),
    ),
}
