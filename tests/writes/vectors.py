"""Writes the jobs that the definitions are put through: crates/vectors/specs/Rows.antt, from a seed.

usage: python3 -m tests.writes.vectors [SEED [COUNT [BASIN [PAIRS]]]] > crates/vectors/specs/Rows.antt

COUNT jobs are on sites with one pair of near-fault factors for both levels, BASIN in the Basin, PAIRS on sites with a pair for each level. At each
end of the rule of the roof force there is one more of each kind of ground.
"""

import random
import sys
from fractions import Fraction

from tests.draws.basin import accepted_basin_jobs
from tests.draws.pairs import accepted_pair_jobs, plain_strata
from tests.draws.plain_jobs import draw_basin, draw_pairs, draw_site
from tests.draws.roof import ENDS, accepted_roof_jobs
from tests.draws.sample import accepted_jobs
from tests.draws.strata import about_levels
from tests.model import exact, limits
from tests.model.job import job
from tests.model.response import UNIT
from tests.model.sheet import first_line

SEED, COUNT, BASIN, PAIRS = 2005, 520, 100, len(plain_strata())     # with two pairs a job of each stratum
MILLIONTHS, EACH = 10**6, 10    # the unit of every so many rows: the definitions hold at either
FEW_LEVELS = 4
KINDS_OF_GROUND = (draw_site, draw_basin, draw_pairs)
CLASSES = {1: 'Hard', 2: 'Normal', 3: 'Soft'}
ZONES = {1: 'One', 2: 'Two', 3: 'Three', 4: 'Four'}
KINDS = {1: 'Steel', 2: 'Concrete', 3: 'Braced', 4: 'Other'}

HEAD = """-- {count} jobs on sites, {basin} in the Basin, {pairs} on sites with two pairs of near-fault factors and {roof} at the ends of the rule of
-- the roof force, with what the model of tests/ makes of them: data. `python3 -m tests.writes.vectors {seed} {count} {basin} {pairs}` writes
-- it. A line a row: the unit; the site or the zone; the frame; weights; heights; three fractions for the roots; the printed stages; the exact
-- figures.
use Rattle.std.specs.Prelude.{{List, [], ◌∷◌}}
use Rattle.whole.specs.Fraction.{{over}}
use Rattle.limits.specs.declared.class.Class.TheVariants.{{Hard, Normal, Soft}}
use Rattle.limits.specs.declared.kind.Kind.TheVariants.{{Steel, Concrete, Braced, Other}}
use Rattle.limits.specs.declared.zone.Zone.TheVariants.{{One, Two, Three, Four}}
use Rattle.vectors.specs.Vector.{{Vector, vector, basin_vector, site_of, site_of_pairs, frame_of, roots_of}}

unfoldable pub rows : List Vector
rows ="""


def fewer(rng, stratum, weights, heights):
    """The upper levels only, which keep the period; all of them where the stratum is about levels."""
    if about_levels(stratum):
        return weights, heights
    count = rng.randint(1, FEW_LEVELS)
    return weights[-count:], heights[-count:]


def some_root(rng, low, high, s):
    """A fraction of at least 1: a printed root, or any other."""
    other = 1 + Fraction(rng.randint(0, 999), rng.randint(1, 400))
    return rng.choice((Fraction(low, s), Fraction(high, s), other))


def numbers(values):
    """A list of whole numbers."""
    return '(' + ''.join(f'{value} ∷ ' for value in values) + '[])'


def fractions(values):
    """A list of fractions."""
    return '(' + ''.join(f'over {value.numerator} {value.denominator} ∷ ' for value in values) + '[])'


def printed(result):
    """The printed stages in the order of `printed` of specs/Vector.antt."""
    design, mce, star = result.design, result.mce, result.star
    return [
        design.A, design.B, mce.A, mce.B, star.A, star.B, result.t, result.T,
        design.spectrum, design.lower_root, design.lower_factor, result.q, result.m,
        mce.spectrum, mce.lower_root, mce.lower_factor, result.q_M, result.m_M,
        star.spectrum, star.upper_root, star.upper_factor, result.p,
        result.V, result.V_M, result.V_star, result.V_D,
        *result.shears, *result.forces, *result.moments,
    ]


def maker(s, ground):
    """How a row begins: what makes the vector, its unit, and the site or the zone."""
    if isinstance(ground, limits.Basin):
        return f'basin_vector {s} {ZONES[ground.zone]}'
    _, *numbers, cls = first_line(ground)
    name = 'site_of_pairs' if limits.of_two_pairs(ground) else 'site_of'
    return f'vector {s} ({name} {" ".join(map(str, numbers))} {CLASSES[cls]})'


def worked(seed, jobs):
    """Each job drawn, with its upper levels and in its unit, worked out; and three fractions for its roots."""
    rng = random.Random(seed)
    for number, (stratum, ground, frame, weights, heights) in enumerate(jobs):
        s = MILLIONTHS if number % EACH == 0 else UNIT
        weights, heights = fewer(rng, stratum, weights, heights)
        result = job(ground, frame, weights, heights, s=s)
        yield result, [some_root(rng, each.lower_root, each.upper_root, s) for each in (result.design, result.mce, result.star)]


def all_worked(seed=SEED, count=COUNT, basin=BASIN, pairs=PAIRS):
    """Those on sites, those in the Basin, those with two pairs; of each kind of ground those at the ends of the rule of the roof force."""
    yield from worked(seed, accepted_jobs(seed, count))
    yield from worked(seed, accepted_basin_jobs(seed, basin))
    yield from worked(seed, accepted_pair_jobs(seed, pairs))
    for draw_ground in KINDS_OF_GROUND:
        yield from worked(seed, accepted_roof_jobs(seed, draw_ground))


def row(result, roots):
    """One row: the job, and what the model makes of it."""
    chain = exact.chain(result, roots)
    values = [*chain[:4], *chain.storeys]
    kind, *frame_values = result.frame
    return ' '.join((
        f'{maker(result.s, result.ground)} (frame_of {KINDS[kind]} {" ".join(map(str, frame_values))})',
        f'{numbers(result.weights)} {numbers(result.heights)}',
        '(roots_of ' + ' '.join(f'{root.numerator} {root.denominator}' for root in roots) + ')',
        numbers(printed(result)),
        fractions(values),
    ))


def main(seed=SEED, count=COUNT, basin=BASIN, pairs=PAIRS):
    """Write the file."""
    print(HEAD.format(seed=seed, count=count, basin=basin, pairs=pairs, roof=len(KINDS_OF_GROUND) * len(ENDS)))
    for each in all_worked(seed, count, basin, pairs):
        print('    ' + row(*each) + ' ∷')
    print('    []')


if __name__ == '__main__':
    main(*(int(word) for word in sys.argv[1:]))
