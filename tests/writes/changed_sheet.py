"""The job of a sheet with numbers changed, and its figures as the page on which way they move writes them."""

from fractions import Fraction

from tests.model.job import job
from tests.writes.by_hand.response import UNIT
from tests.writes.by_hand.text import comma, decimal

FIGURES = ('V, N', 'V_M, N', 'V*, N', 'V_D, N')


def with_frame(worked, **changes):
    """The job of a sheet with numbers of its frame changed."""
    return job(worked.ground, worked.frame._replace(**changes), worked.weights, worked.heights)


def with_weight(worked, level, weight):
    """The job of a sheet with another weight at a level, counted from 0."""
    return job(worked.ground, worked.frame, [*worked.weights[:level], weight, *worked.weights[level + 1:]], worked.heights)


def figures(result):
    """V, V_M, V* and V_D."""
    return result.V, result.V_M, result.V_star, result.V_D


def cells(result):
    """The four figures as cells of a table."""
    return tuple(map(comma, figures(result)))


def in_ones(number, digits=4):
    """A figure in the unit, in ones, cut off."""
    return decimal(Fraction(number, UNIT), digits)


def metres(height):
    """A height in dm, in m."""
    return decimal(Fraction(height, 10))


def arrow(one, other):
    """From a number to another."""
    return f'{comma(one)} → {comma(other)}'
