"""What bench/run measures, and what bench/plot draws of it."""
