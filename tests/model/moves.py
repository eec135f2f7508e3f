"""Wish 14: which way the figures move between two answers with the same line 1 and "the same period in use".

SAID is what 02 says itself. BESIDES is what follows: V, V_M and V* have I, W and alpha-y as V_D has them; V* grows with its factor, and the factor
with R; and V* grows only where V is no smaller than all that V* can grow to, so V_D never does, and stays where it is V*.
"""

from typing import NamedTuple

LARGER_I, HEAVIER, SMALLER_ALPHA_Y, LARGER_R = 'a larger I', 'a larger weight at one level', 'a smaller alpha-y', 'a larger R'
LOADS = (LARGER_I, HEAVIER, SMALLER_ALPHA_Y)        # of a shear call the larger weight is that of W
AT_ONCE = 'a larger I, a larger weight and a smaller alpha-y'
CHANGES = (*LOADS, AT_ONCE, LARGER_R)


class Answer(NamedTuple):
    """What an accepted call gives: the four shears and T, of a job its forces and storey shears too, lowest level first."""

    V: int
    V_M: int
    V_star: int
    V_D: int
    T: int
    forces: tuple = ()
    shears: tuple = ()


def never_lowers(before, after):
    """A figure that a change "never lowers"."""
    return after >= before


def never_raises(before, after):
    """A figure that a change "never raises"."""
    return after <= before


SAID = {
    **dict.fromkeys(LOADS, {'V_D': never_lowers}),
    LARGER_R: {'V': never_raises, 'V_M': never_raises},
}
BESIDES = {
    **dict.fromkeys(LOADS, dict.fromkeys(('V', 'V_M', 'V_star'), never_lowers)),
    AT_ONCE: dict.fromkeys(('V', 'V_M', 'V_star', 'V_D'), never_lowers),
    LARGER_R: {'V_star': never_lowers, 'V_D': never_raises},
}


def meets(ways, before, after):
    """Each figure that is named moves its way."""
    return all(way(getattr(before, name), getattr(after, name)) for name, way in ways.items())


def said(change, before, after):
    """What 02 says of a change: "a larger I, a larger weight at one level or a smaller alpha-y never lowers V_D", "a larger R never raises V or V_M";
    nothing of three at once."""
    return meets(SAID.get(change, {}), before, after)


def at_most_V(before, after):
    """Of a larger R: where V* grows, it grows to V at most, as it was before."""
    return after.V_star <= max(before.V_star, before.V)


def level(before, after):
    """Of a larger R: where V_D is V*, it stays."""
    return before.V_D != before.V_star or after.V_D == before.V_D


def besides(change, before, after):
    """What follows besides: of a load that none of V, V_M and V* is lowered; of a larger R that V* is not, and grows to V at most, and that V_D is not
    raised, and stays where it is V*."""
    return meets(BESIDES[change], before, after) and (change != LARGER_R or at_most_V(before, after) and level(before, after))


def holds(change, before, after):
    """Both, and that they are "at the same period in use"."""
    return before.T == after.T and said(change, before, after) and besides(change, before, after)
