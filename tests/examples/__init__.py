"""Holds the examples to the model: the programs, and the module for Python.

Every check yields its name and whether it holds.
"""
