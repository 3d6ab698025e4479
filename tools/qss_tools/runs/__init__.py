"""Runs: their rows, columns, machines and trajectories, and what is measured of them."""
