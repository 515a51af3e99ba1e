"""Decks of MODFLOW-2005: read in any spelling, paired, written."""
