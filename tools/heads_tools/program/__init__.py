"""The program `heads`: runs of it, and what its ends mean."""
