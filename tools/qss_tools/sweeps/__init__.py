"""Sweeps: a model is run at many points."""
