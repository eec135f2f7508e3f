"""A sheet worked out step by step, as text that a reviewer follows with a pocket calculator; every number is the model's.

Each step is worked out here from the numbers that it shows, and must come to the figure of the model.
"""
