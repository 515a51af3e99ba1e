"""More spellings of the deck of spelled.py, by habits of FloPy, ModelMuse, MODFLOW-2000 and hand editors: parameters of
each kind, formats, name files, lists. `SAMPLES` has the form of `spelled.SPELLINGS`."""
import struct

from spelled import HK, HK_FREE, HK_ROWS, IBOUND, both, fixed, fixed_deck, hk, more, swap

WEL, CHD = "1 53\n1 0\n2 2 3 -50\n-1 0\n", "1 53\n0 0\n1 0\n2 1 5 20 21\n"
RCH, EVT = "3 53\n0\nCONSTANT 0.001\n-1\n", "3 53\n0 0 0\nCONSTANT 25\nCONSTANT 0.0005\nCONSTANT 10\n-1 -1 -1\n"
TYPES = ("HK", "HANI", "VK", "VANI", "SS")
FREE = "INTERNAL 1 (FREE) -1\n"
ZONE = "1\nz\n" + FREE + "1 1 2 2 3\n" * 4


def named(*lines):
    """More lines in the name file."""
    return swap("m.nam", "OC 14", "\n".join([*lines, "OC 14"]))


def rows(form, width):
    """HK's rows, each value by a Python format."""
    return "".join("".join(f"{format(float(v), form):>{width}}" for v in row) + "\n" for row in HK)


def lpf(parameters="", words="53 -1E+30", chani="1 1", layvka="0 0", **arrays):
    """LPF with definitions of parameters; the arrays of their types are print codes."""
    heads = [w for w in map(str.split, parameters.splitlines()) if len(w) == 4 and w[1] in TYPES]
    types = {w[1].replace("VANI", "VK") for w in heads}
    own = {"HK": (HK_FREE, "CONSTANT 4\n"), "HANI": ("", ""), "VK": ("CONSTANT 0.5\n", "CONSTANT 0.4\n")}
    own |= {"SS": ("CONSTANT 0.00001\n", "CONSTANT 0.00002\n")} | arrays
    text = f"{words} {len(heads)}\n0 0\n0 0\n{chani}\n{layvka}\n0 0\n{parameters}"
    for layer in range(2):
        for name, both_layers in own.items():
            text += "0\n" if name in types else both_layers[layer]
    return lambda _: {"m.lpf": text}


def list_of_parameter(file, kind, head, entries, periods):
    """A list that has a parameter's entries."""
    size = entries.count("\n") - entries.count("SFAC")
    return lambda _: {f"m.{file}": f"PARAMETER 1 {size}\n{size} 53\np {kind} {head} {size}\n{entries}{periods}"}


def saved_heads(files):
    """STRT from the head file of another run, as MODFLOW saves it."""
    record = lambda k: struct.pack("<2i2f16s3i20f", 1, 1, 1.0, 1.0, b"            HEAD", 5, 4, k, *[20.0] * 20)
    change = both(
        swap("m.bas", "CONSTANT 20\nCONSTANT 20\n", "EXTERNAL 61 1 (BINARY) -1\nEXTERNAL 61 1 (BINARY) -1\n"),
        named("DATA(BINARY) 61 old.hds OLD"),
    )
    return change(files) | {"old.hds": record(1) + record(2)}


def glued_list(files):
    """A list in columns of ten without a blank between them, in a deck without FREE."""
    changed = fixed_deck(files)
    return changed | {"m.riv": fixed([1, 53], 10) + "\n" + fixed([1, 0], 10) + "\n" + fixed([1, 2, 4], 10)
                      + "19.500000020.000000018.0000000\n" + fixed([-1, 0], 10) + "\n"}


def binary_list(*entries):
    """A list as FloPy writes it for (BINARY): singles."""
    return b"".join(struct.pack(f"<{len(entry)}f", *entry) for entry in entries)


def binary_wells(option, factor, *entries):
    text = f"1 53{option}\n1 0\n{factor}OPEN/CLOSE w.bin (BINARY)\n-1 0\n"
    return lambda _: {"m.wel": text, "w.bin": binary_list(*entries)}


def segments(text):
    """The evapotranspiration by a file of ETS."""
    return lambda f: {"m.nam": f["m.nam"].replace("EVT 26 m.evt", "ETS 26 m.ets"), "m.ets": text}


SAMPLES = {
    # FloPy
    "flopy's binary list": (binary_wells(" AUX IFACE", "", (2, 2, 3, -50, 0)), "plain"),
    "binary lists of a unit": (
        lambda f: named("DATA(BINARY) 60 chd.bin")(f)
        | {"m.chd": "1 53\n0 0\n1 0\nEXTERNAL 60 (BINARY)\n", "chd.bin": binary_list((2, 1, 5, 20, 21))},
        "plain",
    ),
    "factor of a binary list": (binary_wells("", "SFAC 0.5\n", (2, 2, 3, -100)), "plain"),
    "flopy's lists": (
        both(
            swap("m.wel", WEL, "# WEL package\n         1        53\n         1         0 # stress period 1\n"
                 "         2         2         3 -5.000000E+01\n        -1         0 # stress period 2\n"),
            swap("m.drn", "1 4 5 19 10", "         1         4         5  1.900000E+01  1.000000E+01"),
        ),
        "as it is",
    ),
    "flopy's arrays": (hk("INTERNAL     1.0     (FREE)   -1  #hk layer 1\n" + rows(".6E", 15)), "as it is"),
    "flopy's arrays in columns": (hk(f"{15:>10}{'1.0':>10}{'(5E15.6)':<20}{-1:>10} #hk\n" + rows(".6E", 15)), "plain"),
    "flopy's arrays in files": (
        lambda f: hk("OPEN/CLOSE ref/hk.ref 1.0 (FREE) -1 hk layer 1\n")(f) | {"ref/hk.ref": rows(".6E", 15)},
        "as it is",
    ),
    "outputs and solvers": (
        swap("m.nam", "PCG 27 m.pcg\n", "GMG 27 m.gmg\nHYD 70 m.hyd\nGAGE 71 m.gage\nLMT6 72 m.lmt\nMNWI 73 m.mnwi\n"),
        "plain",
    ),
    "other solvers": (swap("m.nam", "PCG 27 m.pcg\n", "SIP 27 m.sip\nDE4 28 m.de4\nPCGN 29 m.pcgn\n"), "as it is"),
    "recharge by layers": (
        swap("m.rch", RCH, f"2 53\n0 0\nCONSTANT 0.001\n{FREE}1 1 1 1 1\n1 1 1 1 1\n1 1 1 2 1\n1 1 1 1 1\n-1 -1\n"),
        "as it is",
    ),
    "evapotranspiration by layers": (
        swap("m.evt", EVT, "2 53\n0 0 0 0\nCONSTANT 25\nCONSTANT 0.0005\nCONSTANT 10\n(5I2)\n-1 -1 -1 -1\n".replace(
            "(5I2)\n", "INTERNAL 1 (5I2) -1\n" + " 1 1 1 1 1\n 1 1 1 1 1\n 1 1 1 2 1\n 1 1 1 1 1\n")),
        "plain",
    ),
    "heads of another run": (saved_heads, "plain"),
    # ModelMuse and parameters
    "modelmuse's options": (swap("m.bas", "FREE\n", "FREE STOPERROR 0.01 PRINTTIME # OPTIONS\n"), "as it is"),
    "modelmuse's parameters": (
        both(
            lpf("HK_1 HK 1 1\n1 HK_1_Mult ALL\nHK_2 HK 1 1\n2 NONE ALL\n"),
            more(m_mlt="# Multiplier file\n1\nHK_1_Mult\n" + FREE + HK_ROWS, m_pval="2\nHK_1 1.0\nHK_2 4.0\n"),
            named("MULT 40 m.mlt", "PVAL 42 m.pval"),
        ),
        "plain",
    ),
    "conductivity by zones": (
        both(
            lpf("a HK 4 1\n2 NONE z 1 3\nb HK 4 1\n2 NONE z 2\nc HK 1 1\n1 m ALL\n"),
            more(m_zon=ZONE, m_mlt="1\nm\n" + FREE + HK_ROWS),
            named("ZONE 41 m.zon", "MULT 40 m.mlt"),
        ),
        "plain",
    ),
    "functions of arrays": (
        both(
            lpf("a HK 1 1\n1 half ALL\nb HK 4 1\n2 NONE ALL\n"),
            more(m_mlt="3\nm\n" + FREE + HK_ROWS + "two\nCONSTANT 2.\nhalf FUNCTION\nm * two / two\n"),
            named("MULT 40 m.mlt"),
        ),
        "plain",
    ),
    "vertical conductivity by parameters": (lpf("a VK 0.5 1\n1 NONE ALL\nb VK 0.4 1\n2 NONE ALL\n"), "plain"),
    "ratios by parameters": (
        both(
            lpf("a VANI 10 1\n2 NONE ALL\nb VANI 2 1\n1 m ALL\n", layvka="1 1", VK=("0\n", "0\n")),
            more(m_mlt="1\nm\n" + FREE + HK_ROWS),
            named("MULT 40 m.mlt"),
        ),
        "plain",
    ),
    "storage by zones": (
        both(
            lpf("a SS 1e-5 1\n1 NONE z 1 2\nb SS 0.00001 1\n1 NONE z 3\nc SS 2e-5 1\n2 NONE ALL\n"),
            more(m_zon=ZONE),
            named("ZONE 41 m.zon"),
        ),
        "plain",
    ),
    "anisotropy by parameters": (
        lpf("a HANI 1 2\n1 NONE ALL\n2 NONE ALL\n", chani="-1 -1", HANI=("0\n", "0\n")), "plain"
    ),
    "wells by instances": (
        more(
            m_wel="PARAMETER 1 2\n1 53\nq Q -25 1 INSTANCES 2\nfirst\n2 2 3 2\nlater\n2 2 3 2\n"
            "0 1\nq first\n0 1\nq later\n"
        ),
        "plain",
    ),
    "river by a parameter": (list_of_parameter("riv", "RIV", 10, "1 2 4 19.5 2 18\n", "0 1\np\n0 1\np\n"), "plain"),
    "drain by a parameter": (list_of_parameter("drn", "DRN", 2.5, "1 4 5 19 4\n", "0 1\np\n0 1\np\n"), "plain"),
    "boundary by a parameter": (list_of_parameter("ghb", "GHB", 0.5, "2 4 1 18 10\n", "0 1\np\n0 1\np\n"), "plain"),
    "factor before a parameter's entries": (
        list_of_parameter("riv", "RIV", 10, "SFAC 2\n1 2 4 19.5 1 18\n", "0 1\np\n0 1\np\n"), "plain"
    ),
    "given heads by a parameter": (list_of_parameter("chd", "CHD", 0.5, "2 1 5 40 42\n", "0 0\n0 1\np\n"), "plain"),
    "recharge by a parameter": (
        lambda _: {"m.rch": "PARAMETER 1\n3 53\nr RCH 0.001 1\nNONE ALL\n1\nr\n1\nr\n"}, "plain"
    ),
    "evapotranspiration by a parameter": (
        more(
            m_evt="PARAMETER 1\n3 53\ne EVT 0.0005 1\nNONE ALL\n"
            "0 1 0\nCONSTANT 25\ne\nCONSTANT 10\n-1 1 -1\ne\n"
        ),
        "plain",
    ),
    "wells and a parameter": (
        lambda _: {"m.wel": "PARAMETER 1 1\n2 53\np Q -20 1\n2 2 3 1\n1 1\n2 2 3 -30\np\n-1 1\np\n"}, "plain"
    ),
    # packages that say nothing more than those that are read
    "evapotranspiration of one segment": (segments(EVT.replace("3 53", "3 53 0 1")), "plain"),
    "one segment by a parameter": (
        segments("3 53 1 1\ne ETS 0.0005 1\nNONE ALL\n0 1 0\nCONSTANT 25\ne\nCONSTANT 10\n-1 1 -1\ne\n"),
        "plain",
    ),
    "two segments": (segments(EVT.replace("3 53", "3 53 0 2")), "one straight piece"),
    "no barrier": (lambda f: named("HFB6 40 m.hfb")(f) | {"m.hfb": "# none\n0 0 0\n0\n0\n"}, "plain"),
    "a barrier": (lambda f: named("HFB6 40 m.hfb")(f) | {"m.hfb": "0 0 1\n1 1 1 1 2 0.1\n"}, "barriers change"),
    # formats
    "groups of a format": (
        hk("INTERNAL 1 (2(F8.2,1X),3(1X,F7.2)) -1\n" + "".join(
            "".join(f"{v:8.2f}x" for v in map(float, r[:2])) + "".join(f"y{float(v):7.2f}" for v in r[2:]) + "\n"
            for r in HK)),
        "plain",
    ),
    "scaled format with a comma": (hk("INTERNAL 1 (1P,5E14.5) -1\n" + rows(".5E", 14)), "plain"),
    "double format": (hk("INTERNAL 1 (5D14.5) -1\n" + rows(".5E", 14).replace("E", "D")), "plain"),
    "rows over two lines by a format": (
        hk("INTERNAL 1 (3F8.2) -1\n" + "".join(
            "".join(f"{float(v):8.2f}" for v in part) + "\n" for r in HK for part in (r[:3], r[3:]))),
        "plain",
    ),
    "format of blanks": (
        swap("m.bas", IBOUND, "INTERNAL 1 (5(I3)) -1\n" + "".join(fixed([-1, 1, 1, 0 if i == 2 else 1, 1], 3) + "\n"
                                                                   for i in range(4))),
        "plain",
    ),
    "widths in columns": (
        both(
            swap("m.dis", "CONSTANT 100\n", f"{11:>10}{'1.':>10}{'(5F10.0)':<20}\n" + fixed(["100."] * 5, 10) + "\n"),
            swap("m.dis", "CONSTANT 50\n", f"{0:>10}{'50.':>10}\n"),
        ),
        "plain",
    ),
    "columns without blanks": (glued_list, "plain"),
    # name files and lists
    "name file by hand": (
        both(
            lambda f: {"m.nam": f"# a comment\n\n{f['m.nam'].lower()}# the end\n"},
            swap("m.nam", "wel 20 m.wel", "\twel 20 .\\m.wel OLD # wells"),
            swap("m.nam", "bas6", "  bas6"),
        ),
        "as it is",
    ),
    "modflow-2000's output": (
        swap("m.nam", "LIST 2 m.list\n", "GLOBAL 3 m.glo\nLIST 2 m.list\nDATAGLO(BINARY) 4 m.b\nOBS 5 m.o\nLMG 6 m\n"),
        "plain",
    ),
    "list of two places": (
        both(swap("m.wel", "2 2 3 -50\n", "OPEN/CLOSE lists\\w.txt\n"),
             lambda f: f | {"lists/w.txt": "SFAC 0.5\n2,2,3,-1.D2 boundary\n"}),
        "plain",
    ),
    "lists of a unit in turn": (
        both(
            swap("m.chd", CHD, "1 53\n0 0\n1 0\nEXTERNAL 60\n"),
            more(chd_txt="2 1 5 20 21\n"),
            named("DATA 60 chd.txt"),
        ),
        "plain",
    ),
    "commas and tabs": (swap("m.ghb", "2 4 1 18 5", "2,4,\t1,18.D0\t+.5E1"), "as it is"),
    "exponents of three digits": (swap("m.lpf", "CONSTANT 0.00001", "CONSTANT 1.0e-005"), "as it is"),
    "auxiliary columns without values": (
        swap("m.riv", "1 53\n", "1 53 AUX IFACE AUX CELLGRP CBCALLOCATE\n"), "as it is"
    ),
    "surplus words": (swap("m.lpf", "6 7 8 9 10\n", "6 7 8 9 10 77 surplus\n"), "as it is"),
    "entry without its last number": (swap("m.wel", WEL, "2 53\n2 0\n2 2 3 -50\n1 2 2\n-1 0\n"), "plain"),
}
