"""Strata of sites at a column of Table 2: S, the mapped value times its level's own near-fault factor, on it, or one factor below or above."""

import itertools

from tests.draws.strata import SIDES, Stratum
from tests.model import limits, site as sites

# each mapped value, what it may be, its level's own factor, and the columns that S is looked up in
MAPPED = (('SSD', limits.S_S_DESIGN, 'NA', sites.S_S_COLUMNS), ('S1D', limits.S_1_DESIGN, 'NV', sites.S_1_COLUMNS),
          ('SSM', limits.S_S_MCE, 'NAM', sites.S_S_COLUMNS), ('S1M', limits.S_1_MCE, 'NVM', sites.S_1_COLUMNS))
NORMAL_AND_SOFT = (2, 3)       # on hard ground F is 1.0 at every S


def factor_at(value, column, side):
    """The factor that brings a mapped value onto a column, the last one below it, or the first one above; None where there is none."""
    if side == 'on':
        return column // value if column % value == 0 else None
    return (column - 1) // value if side == 'below' else column // value + 1


def at_column(field, factor, column, side, met):
    """S on a column of Table 2, or one factor below or above it, by one of the mapped values and factors that meet it; not on hard ground."""
    def reach(inputs):
        """One of them, by turns; normal or soft ground for hard."""
        site = inputs.ground
        value, N = met[(inputs.frame.R * 601 + inputs.frame.alphay) % len(met)]
        cls = site.cls if site.cls in NORMAL_AND_SOFT else NORMAL_AND_SOFT[inputs.frame.alphay % 2]
        return inputs._replace(ground=site._replace(**{field: value, factor: N, 'cls': cls}))

    def holds(job):
        """S is there, and F depends on it."""
        return (getattr(job.ground, field), getattr(job.ground, factor)) in met and job.ground.cls in NORMAL_AND_SOFT

    return Stratum(f'{field}*{factor} {side} {column}', reach, holds)


def column_strata():
    """Each column that S of a level can be at."""
    for field, values, factor, columns in MAPPED:
        for column, side in itertools.product(columns, SIDES):
            met = [(value, factor_at(value, column, side)) for value in values]
            met = [each for each in met if each[1] in limits.FACTORS[factor]]
            if met:
                yield at_column(field, factor, column, side, met)
