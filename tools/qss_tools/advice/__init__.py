"""Advice: findings about settings, and explanations of what the program refuses or rejects."""
