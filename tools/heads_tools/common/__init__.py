"""What all parts share: texts, numbers as they are spelled, limits, files that are written whole."""
