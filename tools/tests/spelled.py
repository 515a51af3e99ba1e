"""Decks as other programs of the MODFLOW family spell them: one model of 2 layers, 4 rows, 5 columns in many spellings.

Each spelling is a function that changes the files of the deck; `SPELLINGS` names what has to come of it: `as it is`,
`plain` (inside after plain, with the same model as the unchanged deck), or a part of the reason why it isn't inside."""
import struct

PLAIN = {
    "m.nam": (
        "LIST 2 m.list\nDIS 11 m.dis\nBAS6 13 m.bas\nLPF 15 m.lpf\nWEL 20 m.wel\nRIV 21 m.riv\nDRN 22 m.drn\nGHB 23"
        " m.ghb\nCHD 24 m.chd\nRCH 25 m.rch\nEVT 26 m.evt\nOC 14 m.oc\nPCG 27 m.pcg\n"
    ),
    "m.dis": (
        "2 4 5 2 4 2\n0 0\nCONSTANT 100\nCONSTANT 50\nCONSTANT 30\nCONSTANT 15\nCONSTANT 0\n1 1 1 SS\n10 3 1.5 TR\n"
    ),
    "m.bas": (
        "FREE\nINTERNAL 1 (FREE) -1\n-1 1 1 1 1\n-1 1 1 1 1\n-1 1 1 0 1\n-1 1 1 1 1\nCONSTANT 1\n-999.99\nCONSTANT"
        " 20\nCONSTANT 20\n"
    ),
    "m.lpf": (
        "53 -1E+30 0\n0 0\n0 0\n1 1\n0 0\n0 0\n"
        "INTERNAL 1 (FREE) -1\n1 2 3 4 5\n6 7 8 9 10\n1.5 2.5 3.5 4.5 5.5\n10 9 8 7 6\n"
        "CONSTANT 0.5\nCONSTANT 0.00001\nCONSTANT 4\nCONSTANT 0.4\nCONSTANT 0.00002\n"
    ),
    "m.wel": "1 53\n1 0\n2 2 3 -50\n-1 0\n",
    "m.riv": "1 53\n1 0\n1 2 4 19.5 20 18\n-1 0\n",
    "m.drn": "1 53\n1 0\n1 4 5 19 10\n-1 0\n",
    "m.ghb": "1 53\n1 0\n2 4 1 18 5\n-1 0\n",
    "m.chd": "1 53\n0 0\n1 0\n2 1 5 20 21\n",
    "m.rch": "3 53\n0\nCONSTANT 0.001\n-1\n",
    "m.evt": "3 53\n0 0 0\nCONSTANT 25\nCONSTANT 0.0005\nCONSTANT 10\n-1 -1 -1\n",
}


def swap(name, old, new):
    def change(files):
        text = files[name]
        assert old in text, (name, old)
        return {name: text.replace(old, new, 1)}

    return change


def both(*changes):
    def change(files):
        out = dict(files)
        for one in changes:
            out |= one(out)
        return {k: v for k, v in out.items() if files.get(k) != v}

    return change


def more(**files):
    return lambda _: {k.replace("_", "."): v for k, v in files.items()}


def fixed(values, width):
    return "".join(f"{v:>{width}}" for v in values)


HK = [[1, 2, 3, 4, 5], [6, 7, 8, 9, 10], [1.5, 2.5, 3.5, 4.5, 5.5], [10, 9, 8, 7, 6]]
HK_FREE = "INTERNAL 1 (FREE) -1\n1 2 3 4 5\n6 7 8 9 10\n1.5 2.5 3.5 4.5 5.5\n10 9 8 7 6\n"
HK_ROWS = "\n".join(" ".join(map(str, r)) for r in HK) + "\n"
HK_TWO_FIELDS = "\n".join(
    fixed([f"{float(v):.2f}" for v in r[:2]], 8) + "xyz" + fixed([f"{float(v):.2f}" for v in r[2:]], 8) for r in HK
) + "\n"
HK_FIXED = "\n".join(fixed([f"{float(v):.2f}" for v in r], 8) for r in HK) + "\n"
IBOUND = "INTERNAL 1 (FREE) -1\n-1 1 1 1 1\n-1 1 1 1 1\n-1 1 1 0 1\n-1 1 1 1 1\n"
IBOUND_FIXED = "\n".join(fixed([-1, 1, 1, 0 if i == 2 else 1, 1], 3) for i in range(4)) + "\n"


def hk(text, **extra):
    return both(swap("m.lpf", HK_FREE, text), more(**extra))


def binary(kind):
    values = [v for r in HK for v in r]
    data = struct.pack(f"<20{kind}", *values)
    size = struct.calcsize(kind)
    header = struct.pack(f"<2i2{kind}16s3i", 1, 1, 1.0, 1.0, b"              HK", 5, 4, 1)
    assert len(header) == 36 + 2 * size
    return data, header


def fixed_deck(files):
    """The deck without FREE, as MODFLOW-96 wrote it: columns of 10, records LOCAT CNSTNT FMTIN."""
    constant = lambda v: f"{0:>10}{v:>10}\n"
    return {
        "m.bas": (
            "\n"
            + f"{13:>10}{1:>10}{'(5I3)':<20}{-1:>10}\n"
            + IBOUND_FIXED
            + constant(1)
            + "   -999.99\n"
            + constant("20.")
            + constant("20.")
        ),
        "m.lpf": files["m.lpf"].replace(HK_FREE, f"{15:>10}{'1.':>10}{'(5F8.2)':<20}{-1:>10}\n" + HK_FIXED),
        "m.wel": (
            fixed([1, 53], 10)
            + "\n"
            + fixed([1, 0], 10)
            + "\n"
            + fixed([2, 2, 3, "-50."], 10)
            + "\n"
            + fixed([-1, 0], 10)
            + "\n"
        ),
        "m.riv": (
            fixed([1, 53], 10)
            + "\n"
            + fixed([1, 0], 10)
            + "\n"
            + fixed([1, 2, 4, "19.5", "20.", "18."], 10)
            + "\n"
            + fixed([-1, 0], 10)
            + "\n"
        ),
        "m.drn": (
            fixed([1, 53], 10)
            + "\n"
            + fixed([1, 0], 10)
            + "\n"
            + fixed([1, 4, 5, "19.", "10."], 10)
            + "\n"
            + fixed([-1, 0], 10)
            + "\n"
        ),
        "m.ghb": (
            fixed([1, 53], 10)
            + "\n"
            + fixed([1, 0], 10)
            + "\n"
            + fixed([2, 4, 1, "18.", "5."], 10)
            + "\n"
            + fixed([-1, 0], 10)
            + "\n"
        ),
        "m.chd": (
            fixed([1, 53], 10)
            + "\n"
            + fixed([0, 0], 10)
            + "\n"
            + fixed([1, 0], 10)
            + "\n"
            + fixed([2, 1, 5, "20.", "21."], 10)
            + "\n"
        ),
        "m.rch": fixed([3, 53], 10) + "\n" + fixed([0], 10) + "\n" + constant(".001") + fixed([-1], 10) + "\n",
        "m.evt": (
            fixed([3, 53], 10)
            + "\n"
            + fixed([0, 0, 0], 10)
            + "\n"
            + constant("25.")
            + constant(".0005")
            + constant("10.")
            + fixed([-1, -1, -1], 10)
            + "\n"
        ),
    }


def crlf(files):
    return {name: text.replace("\n", "\r\n") for name, text in files.items()}


def upw(files):
    return {
        "m.nam": files["m.nam"].replace("LPF 15 m.lpf", "UPW 15 m.upw").replace("PCG 27 m.pcg", "NWT 27 m.nwt"),
        "m.upw": files["m.lpf"].replace("53 -1E+30 0\n", "53 -1E+30 0 1\n"),
    }


SPELLINGS = {
    "as it is": (lambda f: {}, "as it is"),
    "flopy": (
        both(
            swap(
                "m.nam",
                "LIST 2",
                (
                    "# Name file for MODFLOW-2005, generated by Flopy version 3.3.5.\n#xll:0.0; yll:0.0\nLIST          "
                    "     2"
                ),
            ),
            swap(
                "m.dis",
                "2 4 5 2 4 2\n0 0\n",
                "# DIS package\n         2         4         5         2         4         2\n  0  0\n",
            ),
            swap("m.dis", "CONSTANT 100\n", "CONSTANT    1.000000E+02                           #delr\n"),
        ),
        "as it is",
    ),
    "modelmuse": (
        both(
            swap(
                "m.dis",
                "2 4 5 2 4 2",
                "# Discretization File created by ModelMuse\n 2 4 5 2 4 2  # NLAY, NROW, NCOL, NPER, ITMUNI, LENUNI",
            ),
            swap("m.bas", "FREE\n", "FREE # OPTIONS\n"),
            swap("m.lpf", HK_FREE, "INTERNAL 1 (FREE) 12 # HK\n" + HK_ROWS),
        ),
        "as it is",
    ),
    "windows line ends": (crlf, "as it is"),
    "lower case": (
        both(swap("m.lpf", "INTERNAL", "internal"), swap("m.dis", "SS", "ss"), swap("m.bas", "FREE\n", "free\n")),
        "as it is",
    ),
    "auxiliary columns": (
        both(swap("m.wel", "1 53\n1 0\n2 2 3 -50\n", "1 53 AUX IFACE NOPRINT\n1 0 # period 1\n2 2 3 -50 0\n")),
        "as it is",
    ),
    "open/close array": (hk("OPEN/CLOSE hk.txt 1 (FREE) -1\n", hk_txt=HK_ROWS), "as it is"),
    "open/close in a folder": (
        lambda f: swap("m.lpf", HK_FREE, "OPEN/CLOSE ref\\hk.txt 1 (FREE) -1\n")(f) | {"ref/hk.txt": HK_ROWS},
        "as it is",
    ),
    "factor": (
        swap(
            "m.lpf",
            HK_FREE,
            "INTERNAL 0.1 (FREE) -1\n10 20 30 40 50\n60 70 80 90 100\n15 25 35 45 55\n100 90 80 70 60\n",
        ),
        "as it is",
    ),
    "repeats": (swap("m.bas", "-1 1 1 1 1\n-1 1 1 1 1\n", "-1 4*1\n-1, 4*1\n"), "as it is"),
    "values run on": (swap("m.lpf", "6 7 8 9 10\n", "6 7\n8 9\n10\n"), "as it is"),
    "d exponents": (swap("m.lpf", "CONSTANT 0.00001\n", "CONSTANT 1.D-5\n"), "as it is"),
    "data files named": (
        swap("m.nam", "OC 14", "DATA(BINARY) 53 m.cbc REPLACE\nDATA(BINARY) 51 m.hds REPLACE\nOC 14"),
        "as it is",
    ),
    "comment lines before a package": (swap("m.wel", "1 53\n", "# wells\n#\n1 53\n"), "as it is"),
    "storage coefficient": (
        both(
            swap("m.lpf", "53 -1E+30 0\n", "53 -1E+30 0 STORAGECOEFFICIENT\n"),
            swap("m.lpf", "CONSTANT 0.00001\n", "CONSTANT 0.00015\n"),
            swap("m.lpf", "CONSTANT 0.00002\n", "CONSTANT 0.0003\n"),
        ),
        "as it is",
    ),
    "layvka 1": (
        both(
            swap("m.lpf", "1 1\n0 0\n0 0\nINTERNAL", "1 1\n0 1\n0 0\nINTERNAL"),
            swap("m.lpf", "CONSTANT 4\nCONSTANT 0.4\n", "CONSTANT 4\nCONSTANT 10\n"),
        ),
        "as it is",
    ),
    "external array": (
        both(hk("EXTERNAL 31 1 (FREE) -1\n", hk_txt=HK_ROWS), swap("m.nam", "OC 14", "DATA 31 hk.txt\nOC 14")),
        "plain",
    ),
    "external unit read twice": (
        both(
            swap("m.lpf", HK_FREE, "EXTERNAL 31 1 (FREE) -1\n"),
            swap("m.lpf", "CONSTANT 4\n", "EXTERNAL 31 1 (FREE) -1\n"),
            more(hk_txt=HK_ROWS + "4 4 4 4 4\n" * 4),
            swap("m.nam", "OC 14", "DATA 31 hk.txt\nOC 14"),
        ),
        "plain",
    ),
    "fixed format": (hk("INTERNAL 1 (5F8.2) -1\n" + HK_FIXED), "plain"),
    "format without points": (
        hk("INTERNAL 1 (5F6.1) -1\n" + "\n".join(fixed([round(10 * v) for v in r], 6) for r in HK) + "\n"),
        "plain",
    ),
    "format of exponents": (
        hk("INTERNAL 1 (1P5E12.4) -1\n" + "\n".join(fixed([f"{float(v):.4E}" for v in r], 12) for r in HK) + "\n"),
        "plain",
    ),
    "general format": (
        hk("INTERNAL 1 (5G10.3) -1\n" + "\n".join(fixed([f"{float(v):.2f}" for v in r], 10) for r in HK) + "\n"),
        "plain",
    ),
    "blanks are zeros": (
        both(swap("m.bas", IBOUND, "INTERNAL 1 (5I3) -1\n" + IBOUND_FIXED.replace("  0", "   "))),
        "plain",
    ),
    "values that touch": (
        hk(
            "INTERNAL 1 (5F4.1) -1\n"
            + "\n".join(fixed([f"{float(v):.1f}" for v in r], 4) for r in HK).replace(" 10.0", " 10.0")
            + "\n"
        ),
        "plain",
    ),
    "quoted format": (hk("INTERNAL 1 '(FREE)' -1\n" + HK_ROWS), "plain"),
    "record in fixed columns": (hk(f"{15:>10}{'1.0':>10}{'(5F8.2)':<20}{-1:>10}\n" + HK_FIXED), "plain"),
    "record of a constant": (swap("m.lpf", "CONSTANT 4\n", f"{0:>10}{'4.0':>10}\n"), "plain"),
    "modflow 96 columns": (fixed_deck, "plain"),
    "binary singles": (lambda f: hk("OPEN/CLOSE hk.bin 1 (BINARY) -1\n")(f) | {"hk.bin": binary("f")[0]}, "plain"),
    "binary doubles with header": (
        lambda f: hk("OPEN/CLOSE hk.bin 1 (BINARY) -1\n")(f) | {"hk.bin": binary("d")[1] + binary("d")[0]},
        "plain",
    ),
    "external binary": (
        lambda f: both(hk("EXTERNAL 31 1 (BINARY) -1\n"), swap("m.nam", "OC 14", "DATA(BINARY) 31 hk.bin\nOC 14"))(f)
        | {"hk.bin": binary("f")[1] + binary("f")[0]},
        "plain",
    ),
    "list in a file": (swap("m.wel", "2 2 3 -50\n", "OPEN/CLOSE wel_0.txt\n"), "plain"),
    "list of a unit": (
        both(
            swap("m.riv", "1 2 4 19.5 20 18\n", "EXTERNAL 32\n"),
            swap("m.nam", "OC 14", "DATA 32 riv.txt\nOC 14"),
            more(riv_txt="1 2 4 19.5 20 18\n"),
        ),
        "plain",
    ),
    "sfac": (swap("m.riv", "1 2 4 19.5 20 18\n", "SFAC 0.1\n1 2 4 19.5 200 18\n"), "plain"),
    "sfac of heads": (swap("m.chd", "2 1 5 20 21\n", "SFAC 2\n2 1 5 10 10.5\n"), "plain"),
    "quoted name": (swap("m.nam", "m.wel", "'m.wel'"), "plain"),
    "other letters on disk": (lambda f: {"m.nam": f["m.nam"].replace("m.wel", "M.WEL")}, "plain"),
    "path of another machine": (lambda f: {"m.nam": f["m.nam"].replace("m.wel", "C:\\models\\m.wel")}, "plain"),
    "name with a blank": (
        lambda f: {"m.nam": f["m.nam"].replace("m.wel", "'my wells.wel'"), "my wells.wel": f["m.wel"]},
        "plain",
    ),
    "observations": (swap("m.nam", "OC 14", "HOB 40 m.hob\nDROB 41 m.drob\nOC 14"), "plain"),
    "end mark of old editors": (lambda f: {"m.nam": f["m.nam"] + "\x1a\n"}, "plain"),
    "upstream weighting": (upw, "plain"),
    "chtoch": (swap("m.bas", "FREE\n", "FREE CHTOCH\n"), "plain"),
    "exponent without letter": (swap("m.lpf", "CONSTANT 0.00001\n", "CONSTANT 1.0-5\n"), "plain"),
    "too many digits": (swap("m.lpf", "CONSTANT 4\n", "CONSTANT 4.0000000000000000000000\n"), "as it is"),
    "marker past the exponents": (swap("m.bas", "-999.99\n", "1.0E+99\n"), "plain"),
    "byte order mark": (lambda f: {"m.wel": "\u00ef\u00bb\u00bf" + f["m.wel"]}, "plain"),
    "convertible layer": (swap("m.lpf", "0 0\n0 0\n1 1\n", "1 0\n0 0\n1 1\n"), "convertible"),
    "parameters": (
        both(
            more(m_mlt="1\nby\n" + "INTERNAL 0.5 (FREE) -1\n" + HK_ROWS, m_pval="1\nk1 2\n"),
            swap("m.nam", "OC 14", "MULT 40 m.mlt\nPVAL 41 m.pval\nOC 14"),
            swap("m.lpf", "53 -1E+30 0\n", "53 -1E+30 2\n"),
            swap("m.lpf", HK_FREE, "k1 HK 7 1\n1 by ALL\nk2 HK 4 1\n2 NONE ALL\n0\n"),
            swap("m.lpf", "CONSTANT 4\nCONSTANT 0.4\n", "0\nCONSTANT 0.4\n"),
        ),
        "plain",
    ),
    "well parameters": (
        swap("m.wel", "1 53\n1 0\n2 2 3 -50\n-1 0\n", "PARAMETER 1 1\n1 53\nq Q -25 1\n2 2 3 2\n0 1\nq\n-1 1\nq\n"),
        "plain",
    ),
    "format of two fields": (hk("INTERNAL 1 (2F8.2,3X,3F8.0) -1\n" + HK_TWO_FIELDS), "plain"),
    "streams": (swap("m.nam", "OC 14", "SFR 40 m.sfr\nOC 14"), "stages that SFR found"),
    "modflow 6": (
        lambda f: {"m.nam": "BEGIN options\nEND options\nBEGIN packages\n  DIS6 m.dis dis\nEND packages\n"},
        "MODFLOW 6",
    ),
    "cross section": (swap("m.bas", "FREE\n", "FREE XSECTION\n"), "XSECTION"),
    "cell outside": (swap("m.wel", "2 2 3 -50\n", "2 2 6 -50\n"), "outside the grid"),
    "value left out": (swap("m.lpf", "6 7 8 9 10\n", "6 7,,9 10\n"), "left out"),
    "script's nan": (swap("m.lpf", "6 7 8 9 10\n", "6 7 nan 9 10\n"), "no number"),
    "file ends early": (lambda f: {"m.dis": f["m.dis"].rsplit("\n", 2)[0] + "\n"}, "ends"),
}


def write(folder, spelling):
    """Writes the deck in a spelling; its name file."""
    folder.mkdir(parents=True, exist_ok=True)
    files = PLAIN | SPELLINGS[spelling][0](PLAIN)
    if spelling == "list in a file":
        files["wel_0.txt"] = "2 2 3 -50\n"
    if spelling == "name with a blank":
        del files["m.wel"]
    for name, text in files.items():
        path = folder / name
        path.parent.mkdir(exist_ok=True)
        path.write_bytes(text if isinstance(text, bytes) else text.encode("latin-1"))
    return folder / "m.nam"
