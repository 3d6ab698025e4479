"""Computations in floating point: linear algebra, rates of modes, rough runs and solutions."""
