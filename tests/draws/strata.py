"""Strata of random jobs: each has a name, a way to reach it and a test that a job lies in it."""

from fractions import Fraction
from math import ceil, floor
from typing import Callable, NamedTuple

from tests.model import response
from tests.model.calls import made_by

CORNERS = {'0.2': Fraction(1, 5), '0.6': Fraction(3, 5), '1': Fraction(1), '2.5': Fraction(5, 2)}
SIDES = ('below', 'on', 'above')


class Stratum(NamedTuple):
    """`reach(inputs)` gives changed inputs, or None where it cannot; `holds(job)` tells if it is hit."""

    name: str
    reach: Callable
    holds: Callable


def side_of(value, mark):
    """Where a value lies against a mark."""
    return 'below' if value < mark else 'on' if value == mark else 'above'


def with_period(inputs, T):
    """The calculated period T, of a steel frame of 2,000 dm where 14*t/10 would cut it."""
    frame = inputs.frame._replace(calculated_period=T)
    if response.period(response.approximate_period(frame.kind, inputs.heights[-1]), T) == T:
        return inputs._replace(frame=frame)
    return inputs._replace(frame=frame._replace(kind=1), heights=[*inputs.heights[:-1], 2_000])


def at_corner(hazard, label, side):
    """T within 1 ms of a corner of a hazard, on the given side, by the calculated period."""
    def reach(inputs):
        """The calculated period put at the corner."""
        A, B, _ = made_by(inputs.ground).hazard(hazard, inputs.ground, inputs.frame.R)
        mark = CORNERS[label] * response.corner(A, B)
        T = {'below': ceil(mark) - 1, 'on': floor(mark), 'above': floor(mark) + 1}[side]
        return inputs._replace(frame=inputs.frame._replace(calculated_period=T))

    def holds(job):
        """T lies there, the cut at 14*t/10 not in the way."""
        mark = CORNERS[label] * getattr(job, hazard).T0
        return abs(job.T - mark) <= 1 and side_of(job.T, mark) == side

    return Stratum(f'{hazard}: T {side} {label} T0', reach, holds)


def kept(name, holds):
    """A stratum of inputs as drawn; `holds` looks only at the inputs of a job."""
    return Stratum(name, lambda inputs: inputs if holds(inputs) else None, holds)


def with_levels(count):
    """So many levels, as drawn."""
    return kept(f'levels {count}', lambda job: len(job.weights) == count)


def about_levels(name):
    """The stratum of this name is one of levels: all of them must stay."""
    return name.rpartition(': ')[2].startswith(('levels', 'every weight', 'one level', 'top at'))


def in_table(field, factor, columns, place):
    """S = mapped value times near-fault factor, on, between or beyond the columns of Table 2."""
    def holds(job):
        """S lies there."""
        S = getattr(job.ground, field) * getattr(job.ground, factor)
        return place == ('on' if S in columns else 'beyond' if S > columns[-1] else 'between')

    return kept(f'{field}*{factor} {place} columns', holds)


def with_number(part, field, value):
    """One number of the ground or of the frame at a given value."""
    def reach(inputs):
        """The number put in its place."""
        return inputs._replace(**{part: getattr(inputs, part)._replace(**{field: value})})

    return Stratum(f'{field} {value}', reach, lambda job: getattr(getattr(job, part), field) == value)


def governed_by(name):
    """One of V, V_M, V* larger than the two others."""
    others = {'V', 'V_M', 'V_star'} - {name}
    return Stratum(f'{name} governs', lambda inputs: inputs,
                   lambda job: all(getattr(job, name) > getattr(job, other) for other in others))
