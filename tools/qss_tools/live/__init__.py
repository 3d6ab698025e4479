"""A page that follows a model while it is written, with a slider for each parameter."""
