"""Jobs, soil logs and sheets drawn from a seed, sound and bad."""
