"""Models with convertible layers."""
