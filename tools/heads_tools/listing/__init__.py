"""Listings of `heads`: read, checked, compared, as tables."""
