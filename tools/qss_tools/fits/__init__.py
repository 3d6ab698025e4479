"""Fits: values of parameters for which runs of a model are near measured values."""
