"""Listings as files of other programs."""
