"""Checks of the model; every module yields (label, function, wanted) from `checks()`."""
