"""The settings of a model: their limits, their effects, and proposals."""
