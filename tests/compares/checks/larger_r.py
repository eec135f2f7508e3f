"""V beside V* over R (Wish 14): a hunt for an R with which V_D rises, and what the manual says of V and V* near a fault."""

import functools
import itertools
from fractions import Fraction
from math import ceil, floor

from tests.compares.checks.refusals import SITE
from tests.draws import r_marks
from tests.draws.strata import CORNERS
from tests.model import limits, moves, response, site as site_hazards
from tests.model.moves import LARGER_R

N_A, N_V, SOME_R, PARTS_OF_T0 = (100, 117, 133, 150), (100, 133, 167, 200), (100, 300, 600), (0.1, 0.2, 0.4, 0.6, 0.8, 1, 1.7, 2.5, 3)
GROUNDS = (SITE, limits.one_pair(50, 30, 100, 40, 150, 100, 3), limits.one_pair(80, 40, 70, 55, 100, 200, 2), limits.Basin(3))


def corners(ground):
    """T at and beside each part of the corners of V and of V*."""
    marks = {part * r_marks.corner(hazard, ground) for part in CORNERS.values() for hazard in ('design', 'star')}
    return sorted({T for mark in marks for T in (ceil(mark) - 1, floor(mark), floor(mark) + 1)})


@functools.cache
def last_below_the_end(ground, T):
    """The last R with which V* is below what it is with R = 6.00, and that; None where there is none."""
    end = r_marks.part('star', ground, T, r_marks.LAST)
    last = r_marks.first_R(lambda R: r_marks.part('star', ground, T, R) == end) - 1
    return (last, end) if last >= r_marks.FIRST else None


def plain(ground):
    """The ground on which V* is the same, with no near-fault factor."""
    return ground if isinstance(ground, limits.Basin) else ground._replace(NA=100, NV=100, NAM=100, NVM=100)


def short_of_the_end(grounds):
    """Where V is below all that V* can rise to, with the last R with which V* rises: there alone V_D could rise with R. And how many were tried."""
    ends = ((ground, T, last_below_the_end(plain(ground), T)) for ground in grounds for T in corners(ground))
    tried = [(ground, T, *end) for ground, T, end in ends if end]
    return [each for each in tried if r_marks.part('design', *each[:3]) < each[3]], len(tried) > 0


def hunt():
    """Every design value and class with factors at their ends and between, every zone: T at every corner; and every R at some T."""
    for SSD, S1D, cls in itertools.product(limits.S_S_DESIGN, limits.S_1_DESIGN, limits.CLASS):
        sites = [limits.one_pair(SSD, S1D, 100, 55, NA, NV, cls) for NA, NV in itertools.product(N_A, N_V)]
        yield f'V_D rises with R: {SSD} {S1D} {cls}', lambda sites=sites: short_of_the_end(sites), ([], True)
    for zone in limits.ZONE:
        yield f'V_D rises with R: zone {zone}', lambda zone=zone: short_of_the_end([limits.Basin(zone)]), ([], True)
    for ground, part in itertools.product(GROUNDS, PARTS_OF_T0):
        def every_R(ground=ground, T=round(part * r_marks.corner('star', ground))):
            """What is said of each R and the next, before the last rounding."""
            answers = [moves.Answer(*three, max(three), T) for three in (r_marks.parts(ground, T, R) for R in limits.R_RANGE)]
            return all(moves.holds(LARGER_R, *each) for each in itertools.pairwise(answers))
        yield f'every R: {ground}, {part} T0', every_R, True


def of_hazard(name, site, T, R):
    """A, T0, and Sa and F without their rounding, of a hazard of a site."""
    A, B, (capacity, square) = site_hazards.hazard(name, site, R)
    T0, root = response.corner(A, B), Fraction(response.lower_root(square), response.UNIT)
    return A, T0, response.spectrum_in_g(A, B, T), response.factor(capacity, root, T0, T)


def as_the_manual_says(site, T, R):
    """Near a fault: where T0 of V is shorter than that of V*, A of V is larger, and Sa by no less than F; where it is longer, F is no larger."""
    (A, T0, Sa, F), (plain_A, plain_T0, plain_Sa, plain_F) = (of_hazard(name, site, T, R) for name in ('design', 'star'))
    shorter = T0 >= plain_T0 or A > plain_A and Sa * plain_F >= plain_Sa * F
    return shorter and (T0 <= plain_T0 or F <= plain_F)


def near_a_fault():
    """Every design value and class with factors at their ends and between, T at every corner."""
    for SSD, S1D, cls in itertools.product(limits.S_S_DESIGN, limits.S_1_DESIGN, limits.CLASS):
        every = [(limits.one_pair(SSD, S1D, 100, 55, NA, NV, cls), R) for NA, NV, R in itertools.product(N_A[::3], N_V[::3], SOME_R)]
        yield f'T0 of V and of V*: {SSD} {S1D} {cls}', lambda every=every: all(
            as_the_manual_says(site, T, R) for site, R in every for T in corners(site)), True


def checks():
    """All checks of V beside V*."""
    yield from hunt()
    yield from near_a_fault()
