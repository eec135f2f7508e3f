"""Strata of the roof force: T at both ends of its rule, on each kind of ground.

There is none up to 700 ms, and from 3,572 ms on it is a quarter of V_D; 6,328 ms is the longest T.
"""

from tests.draws import basin, pairs, rare
from tests.draws.plain_jobs import draw_basin, draw_pairs, draw_site
from tests.draws.sample import in_turn
from tests.draws.strata import Stratum, with_period

ENDS = (*range(699, 703), *range(3_570, 3_574), 6_328)
BELOW = range(3_500, 3_572)     # at the quarter itself F_t is rounded up by 3/4 N at most, here by almost 1 N
NAMED = {draw_site: lambda stratum: stratum, draw_basin: basin.named, draw_pairs: pairs.named}


def at_period(T):
    """T itself, by the calculated period."""
    return Stratum(f'T = {T} ms', lambda inputs: with_period(inputs, T), lambda job: job.T == T)


def period_strata(draw_ground):
    """T at the ends of the rule."""
    return [NAMED[draw_ground](at_period(T)) for T in ENDS]


def roof_strata(draw_ground, each):
    """Each with how many jobs the comparison draws for it; `each` for those of T."""
    yield from ((stratum, each) for stratum in period_strata(draw_ground))
    yield NAMED[draw_ground](rare.light('just below the quarter', BELOW)), 5_000


def accepted_roof_jobs(seed, draw_ground):
    """A job at each end of the rule on a kind of ground."""
    return in_turn(seed, len(ENDS), period_strata(draw_ground), draw_ground)
