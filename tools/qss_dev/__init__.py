"""Tools for those who work on qss: builds, measures of the sources, mutants, and independent computations."""
