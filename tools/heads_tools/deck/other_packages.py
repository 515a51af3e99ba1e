"""Packages of MODFLOW that `heads` does not read, and what there is to say of each."""
from __future__ import annotations

UNKNOWN_PACKAGE = "it changes the equations, or is unknown. DIS BAS6 LPF WEL RIV DRN GHB RCH CHD EVT are read"
OTHER_PACKAGES = {
    "BCF6": "BCF6 gives transmissivities: of one or two confined layers `heads-tools plain` writes it as LPF, exactly",
    "HUF2": "write hydrogeologic units as layers of LPF",
    "UPW": (
        "UPW is MODFLOW-NWT's: where every LAYTYP is 0 and cells side by side are equally thick it says the same as"
        " LPF, and `heads-tools plain` writes LPF"
    ),
    "NWT": "the solver of MODFLOW-NWT: take the line out (`heads-tools plain` does)",
    "LMG": "a solver of MODFLOW-2000: take the line out (`heads-tools plain` does)",
    "SMS": "the solver of MODFLOW-USG: take the line out (`heads-tools plain` does)",
    "HFB6": (
        "barriers change conductances, so the equations; there is no way round in this version (a file without a"
        " barrier is dropped by `heads-tools plain`)"
    ),
    "SFR": (
        "streams that route water aren't inside. A river (RIV) with the stages that SFR found is another model: say so"
        " where you use it"
    ),
    "STR": (
        "streams that route water aren't inside. A river (RIV) with fixed stages is another model: say so where you"
        " use it"
    ),
    "LAK": "lakes whose stage is solved for aren't inside",
    "UZF": (
        "unsaturated flow isn't inside. Recharge (RCH) of the rates that reach the water table is another model: say so"
    ),
    "MNW1": "multi-node wells aren't inside. Entries of WEL by layer are another model: say so",
    "MNW2": "multi-node wells aren't inside. Entries of WEL by layer are another model: say so",
    "SEN": "the sensitivities of MODFLOW-2000 replace the values of parameters: write their values into PVAL",
    "PES": "the parameter estimation of MODFLOW-2000 changes the values of parameters: write those it found into PVAL",
    "FHB": "write its flows with WEL and its heads with CHD",
    "ETS": "only EVT, with one straight piece, is inside: `heads-tools plain` writes ETS with NETSEG 1 so",
    "TDIS6": "this is a model of MODFLOW 6; only MODFLOW-2005's files are read",
    "GWF6": "this is a model of MODFLOW 6; only MODFLOW-2005's files are read",
    "IMS6": "this is a model of MODFLOW 6; only MODFLOW-2005's files are read",
    "BEGIN": "this is a file of MODFLOW 6; only MODFLOW-2005's files are read",
    "END": "this is a file of MODFLOW 6; only MODFLOW-2005's files are read",
    "DISU": "unstructured grids (MODFLOW-USG) aren't inside",
    "BAS": "the name of the basic package of MODFLOW-96; MODFLOW-2005's is BAS6",
}
