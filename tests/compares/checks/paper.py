"""Roots on paper: the lines of R = 4.80 worked by hand, and every root digit by digit beside the one that is worked out at once."""

from tests.model import basin, limits, paper, response

UNITS = (10**6, response.UNIT)

# digit, and what is left with the zeros behind it left off
DESIGN_480 = ((2, 155), (4, 2300), (6, 11300), (3, 22325), (0, 2232500), (6, 1577300), (0, 157730000), (4, 994638800))
MCE_480 = ((2, 230), (9, 950), (3, 7550), (2, 168800), (5, 2218750), (7, 16597550), (5, 193468750), (6, 1751423200))


def written(n, d):
    """Digit and what is left of each line, as they are written on paper."""
    return tuple((line.digit, line.left // line.place**2) for line in paper.lines(n, d, response.UNIT))


def squares(R):
    """Root² as a fraction that is not reduced: design, MCE and the Basin's design."""
    return {(R - 25, 75): response.design_capacity, (R - 50, 50): response.mce_capacity, (R, 100): basin.capacity}


def checks():
    """The two roots by hand; of every R all lower and upper roots, in both units."""
    yield 'design, R 480', lambda: written(455, 75), DESIGN_480
    yield 'MCE, R 480', lambda: written(430, 50), MCE_480
    for R in limits.R_RANGE:
        at_once = [(response.lower_root(capacity(R)[1], s), response.upper_root(capacity(R)[1], s))
                   for capacity in squares(R).values() for s in UNITS]
        yield f'R {R}', lambda R=R: [paper.roots(n, d, s) for n, d in squares(R) for s in UNITS], at_once
