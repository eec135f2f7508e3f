"""Reference model of the base shear rules, in exact fractions and whole numbers."""
