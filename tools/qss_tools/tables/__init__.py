"""Tables of runs: values, measures, and distances from solutions."""
