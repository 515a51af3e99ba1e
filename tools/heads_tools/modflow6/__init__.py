"""Confined models of MODFLOW 6 as MODFLOW-2005 decks with the same equations. Written from knowledge of MODFLOW 6's
input (mf6io) and of its formulas (TM 6-A55)."""
