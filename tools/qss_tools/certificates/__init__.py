"""Certificates and traces: their search, their inequalities, and the bands around a run."""
