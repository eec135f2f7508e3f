"""Jobs with two R, the larger one after (Wish 14): by where T lies in the spectra of V and V*, and by what V* does between the two.

Were there an R with which V_D rises, V* would rise there, and govern after it: most strata look for that.
"""

import functools
from fractions import Fraction
from math import ceil, floor

from tests.draws.calls import GROUNDS
from tests.draws.plain_jobs import draw
from tests.draws.r_marks import FIRST, LAST, corner, first_crossed, first_governed, first_level, parts
from tests.draws.rare import tied
from tests.draws.sample import draw_in
from tests.draws.steps import SIZES, any_step, farthest, nearest
from tests.draws.strata import CORNERS, with_period
from tests.draws.towers import period
from tests.model import limits

LONGEST = 6_328         # ms, of a steel frame of 2,000 dm
BRANCHES = {'up to 0.2': (0, Fraction(1, 5)), 'from 0.2 to 0.6': (Fraction(1, 5), Fraction(3, 5)), 'from 0.6 to 1': (Fraction(3, 5), 1),
            'from 1 to 2.5': (1, Fraction(5, 2)), 'from 2.5': (Fraction(5, 2), LONGEST)}
TIED = 'V = V* before or after'
# N_A and N_V of design
FACTORS = {'no near-fault factor': (100, 100), 'both factors at their largest': (150, 200), 'N_A at its largest alone': (150, 100),
           'N_V at its largest alone': (100, 200)}
CLASSES = {1: 'hard', 2: 'normal', 3: 'soft'}


def any_R(ground, T):
    """All that are allowed, before and after."""
    return limits.R_RANGE[:-1], limits.R_RANGE[1:]


def below(R):
    """Both below an R."""
    return range(FIRST, R - 1), range(FIRST + 1, R)


def from_it_on(R):
    """Both from an R on."""
    return range(R, LAST), range(R + 1, LAST + 1)


def across(R):
    """Below an R before, from it on after."""
    return range(FIRST, R), range(R, LAST + 1)


def last_below(R):
    """The last below an R before, or below the last that is allowed; any larger one after."""
    last = min(R, LAST) - 1
    return range(max(FIRST, last), last + 1), range(last + 1, LAST + 1)


def beside(R):
    """At most two below an R that is allowed, or the R itself, before; the next or the one after it."""
    if R not in limits.R_RANGE:
        return (), ()
    return range(max(FIRST, R - 2), min(R, LAST - 1) + 1), range(max(FIRST + 1, R - 1), min(R + 1, LAST) + 1)


def by(two, mark):
    """Two ranges of R by a mark of a ground at T."""
    return lambda ground, T: two(mark(ground, T))


def in_branch(rng, ground, low, high):
    """T from a part of T0 of V* to another."""
    T0 = corner('star', ground)
    return rng.randint(max(1, ceil(low * T0)), min(LONGEST, floor(high * T0)))


def at_part(rng, ground, label):
    """T at a part of T0 of V*, or a ms to a side of it."""
    mark = CORNERS[label] * corner('star', ground)
    return rng.choice((ceil(mark) - 1, floor(mark), floor(mark) + 1))


def between_corners(rng, ground, label):
    """T between the part of T0 of V and that of V*."""
    one, other = sorted(CORNERS[label] * corner(hazard, ground) for hazard in ('design', 'star'))
    return rng.randint(floor(one), ceil(other))


def between_any(rng, ground):
    """T between the same part of T0 of V and of V*, or anywhere up to 2.5 of both."""
    if rng.random() < 0.75:
        return between_corners(rng, ground, rng.choice(tuple(CORNERS)))
    return rng.randint(1, ceil(CORNERS['2.5'] * max(corner(hazard, ground) for hazard in ('design', 'star'))))


def draw_two(rng, draw_ground, where=any_R, step=any_step, period_of=None, size=None):
    """Inputs and two R; drawn again where there are none such."""
    while True:
        inputs = draw(rng, draw_ground)
        inputs = size(rng, inputs) if size else inputs
        inputs = with_period(inputs, period_of(rng, inputs.ground)) if period_of else inputs
        befores, afters = where(inputs.ground, period(inputs.frame, inputs.heights[-1]))
        if befores and afters:
            return inputs, *step(rng, befores, afters)


def draw_mce_governs(rng, draw_ground):
    """V_M above V and V* before."""
    while True:
        inputs, before, after = draw_two(rng, draw_ground)
        m, m_M, of_star = parts(inputs.ground, period(inputs.frame, inputs.heights[-1]), before)
        if m_M > max(m, of_star):
            return inputs, before, after


def draw_tied(rng, draw_ground):
    """V and V* equal and above V_M with one of the two R: a job of a few kN."""
    inputs = draw_in(rng, tied(('V', 'V_star')), draw_ground)
    R = inputs.frame.R
    steps = ((R - 1, R), (R, R + 1), (FIRST, R), (R, LAST))
    return inputs, *rng.choice([step for step in steps if step[0] < step[1] and {*step} <= {*limits.R_RANGE}])


def with_factors(rng, kind, NA, NV, cls=None):
    """A site of a kind, its factors of design given, and its class where one is; those of MCE are the same, or others where it has two pairs."""
    while True:
        site = GROUNDS[kind](rng)._replace(NA=NA, NV=NV)
        site = site._replace(cls=cls) if cls else site
        if kind == 'site':
            return site._replace(NAM=NA, NVM=NV)
        if limits.of_two_pairs(site):
            return site


def plain_grounds(kind):
    """What draws a ground of a kind on which no near-fault factor parts V and V*."""
    return GROUNDS[kind] if kind == 'basin' else functools.partial(with_factors, kind=kind, NA=100, NV=100)


WHERE = {
    'V* on the second line of p': by(below, first_level), 'V* on the first line of p': by(from_it_on, first_level),
    'V* from the second line of p to the first': by(across, first_level), 'from the last R with which V* rises': by(last_below, first_level),
    'V* governs before': by(from_it_on, first_governed), 'another governs before, V* after': by(across, first_governed),
}
STEPS = {'by one hundredth': nearest, 'from 1.00 to 6.00': farthest, 'any': any_step}


def near_fault_strata(kind):
    """From the last R with which V* rises, T between the corners of V and V*: the factors at their ends in each class, and any factors."""
    rises = {'where': by(last_below, first_level), 'period_of': between_any}
    for said, (NA, NV) in FACTORS.items():
        for cls, name in CLASSES.items():
            draw_ground = functools.partial(with_factors, kind=kind, NA=NA, NV=NV, cls=cls)
            yield f'{said}, {name}', functools.partial(draw_two, draw_ground=draw_ground, **rises)
    for label in CORNERS:
        yield (f'T from {label} T0 of V to that of V*', functools.partial(
            draw_two, draw_ground=GROUNDS[kind], where=rises['where'], period_of=functools.partial(between_corners, label=label)))


def strata(kind):
    """On a kind of ground: every step of R, T in every branch of V* and at its corners, every line of p, what governs, ties, sizes; near a fault."""
    on_it = functools.partial(draw_two, draw_ground=GROUNDS[kind])
    yield from ((said, functools.partial(on_it, step=step)) for said, step in STEPS.items())
    for said, (low, high) in BRANCHES.items():
        yield f'T {said} T0 of V*', functools.partial(on_it, period_of=functools.partial(in_branch, low=low, high=high))
    for label in CORNERS:
        yield f'T at {label} T0 of V* or beside it', functools.partial(on_it, period_of=functools.partial(at_part, label=label))
    yield from ((said, functools.partial(on_it, where=where)) for said, where in WHERE.items())
    yield 'F of V* about where V and V* cross', functools.partial(draw_two, draw_ground=plain_grounds(kind), where=by(beside, first_crossed))
    yield 'V_M governs before', functools.partial(draw_mce_governs, draw_ground=GROUNDS[kind])
    yield TIED, functools.partial(draw_tied, draw_ground=GROUNDS[kind])
    yield from ((said, functools.partial(on_it, size=size)) for said, size in SIZES.items())
    if kind != 'basin':
        yield from near_fault_strata(kind)
