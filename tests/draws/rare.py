"""Strata that a plain draw almost never meets: ties between shears, ratios at a threshold to the unit, the largest figures and products, jobs
with a large excess, light frames."""

from fractions import Fraction

from tests.draws.plain_jobs import Inputs
from tests.draws.ratios import mark_strata
from tests.draws.strata import Stratum, with_period
from tests.model import limits, response, shears, site as sites
from tests.model.calls import HAZARDS, made_by

TIES = (('V', 'V_M'), ('V', 'V_star'), ('V_M', 'V_star'), ('V', 'V_M', 'V_star'))


def crossing(low, high, passed):
    """The first whole number of (low, high] that has passed, where all after it have; high where none has."""
    while high - low > 1:
        middle = (low + high) // 2
        low, high = (low, middle) if passed(middle) else (middle, high)
    return high


def tied(names):
    """Shears that are equal and govern: jobs of a few kN, whose shears are a few hundred N."""
    def reach(inputs):
        """One light level; R where V* comes above the two others."""
        ground, frame, weights, heights = inputs
        T = response.period(response.approximate_period(frame.kind, heights[-1]), frame.calculated_period)

        def star_governs(R):
            """V* above V and V_M for this R."""
            *both, star = (shears.respond(*made_by(ground).hazard(hazard, ground, R), T) for hazard in HAZARDS)
            m = max(response.modified_ratio(response.ratio(each.spectrum, each.lower_factor)) for each in both)
            p = response.p_of_star(star.spectrum, star.upper_factor)
            return p / shears.divisor(divided_by=made_by(ground).V_STAR) > m / shears.divisor()

        R = frame.R if names == ('V', 'V_M') else crossing(limits.R_RANGE[0], limits.R_RANGE[-1], star_governs)
        return inputs._replace(frame=frame._replace(R=R), weights=[1 + weights[0] % 3], heights=heights[-1:])

    def holds(job):
        """They are equal, and no other is as large."""
        largest = {name for name in ('V', 'V_M', 'V_star') if getattr(job, name) == job.V_D}
        return largest == set(names)

    return Stratum(' = '.join(names) + ' govern', reach, holds)


def heavy():
    """A million kN, I = 1.50, alpha-y = 1.00, R near 1, T just below 0.2 T0: a unit is 107 N, and every stage rounds."""
    def reach(inputs):
        """The largest weights; the period up to 30 ms below the corner of V or of V_M."""
        site = inputs.ground._replace(SSM=100, NA=130 + inputs.ground.NA % 21, NAM=130 + inputs.ground.NAM % 21)
        hazard = (sites.design, sites.mce)[inputs.frame.alphay % 2]
        period = max(1, int(response.corner(*hazard(site)) / 5) - inputs.frame.calculated_period % 31)
        return Inputs(site, limits.Frame(1, period, 100 + inputs.frame.R % 21, 150, 100), [20_000] * 50, list(range(8, 401, 8)))

    return Stratum('heavy, T up to 0.2 T0', reach, lambda job: job.W == 1_000_000 and job.frame.alphay == 100
                   and 5 * job.T <= max(job.design.T0, job.mce.T0))


def largest():
    """Every number at its largest and R = 1: the largest shears and products."""
    def reach(inputs):
        """The levels at the very top; class, kind and period as drawn."""
        site = inputs.ground._replace(SSD=80, S1D=45, SSM=100, S1M=55, NA=150, NV=200, NAM=150, NVM=200)
        frame = inputs.frame._replace(R=100, I=150, alphay=100)
        return Inputs(site, frame, [20_000] * 50, list(range(1_951, 2_001)))

    return Stratum('every number at its largest', reach, lambda job: job.heights[0] == 1_951)


def light(name='a long period', periods=range(5_000, 6_329)):
    """A few kN up to 2,000 dm, at the longest periods or at others: only newtons count, and F_t is large."""
    def reach(inputs):
        """At most eight levels of at most 12 kN, the last at the top."""
        weights, heights = [1 + weight % 12 for weight in inputs.weights[:8]], inputs.heights[:8]
        frame = inputs.frame._replace(kind=1, calculated_period=periods[inputs.frame.calculated_period % len(periods)])
        return Inputs(inputs.ground, frame, weights, [*heights[:-1], 2_000])

    return Stratum(f'light, tall, {name}', reach, lambda job: job.W <= 96 and job.T in periods)


def with_largest_spectrum(ground):
    """The largest A and B of V_M: of a site both from the largest mapped values and factors, on soft ground; in the Basin zone 1."""
    if isinstance(ground, limits.Basin):
        return limits.Basin(1)
    site = ground._replace(SSM=100, S1M=55, NAM=150, NVM=200, cls=3)
    return site if limits.of_two_pairs(ground) else site._replace(NA=150, NV=200)


def largest_product(name, R, part_of_corner):
    """The largest products of the factor, ten times as large as in millionths: R = 6, T of V_M's corner or at its very beginning."""
    def reach(inputs):
        """T up to 30 ms below the part of the corner."""
        ground = with_largest_spectrum(inputs.ground)
        A, B, _ = made_by(ground).hazard('mce', ground, R)
        T = int(response.corner(A, B) * part_of_corner) - inputs.frame.calculated_period % 31
        return with_period(inputs._replace(ground=ground, frame=inputs.frame._replace(R=R)), max(1, T))

    return Stratum(name, reach, lambda job: job.frame.R == R and job.T <= job.mce.T0 * part_of_corner + 1)


def product_strata():
    """The rise of the factor just below T0, its fall at a few ms."""
    yield largest_product('the largest rise of the factor', 600, 1)
    yield largest_product('the largest fall of the factor', 600, Fraction(1, 50))


def light_frame():
    """Up to two levels, 6 m and 2,000 kN, T below 0.2 T0, R of 4.70 to 5.20: what users saw in steps. On a site V hardly moves with T at 4.94."""
    def reach(inputs):
        """A low frame; the period as drawn, or 14*t/10 where that cuts it."""
        A, B, _ = made_by(inputs.ground).hazard('design', inputs.ground, inputs.frame.R)
        period = 1 + inputs.frame.calculated_period % int(response.corner(A, B) / 5)
        frame = inputs.frame._replace(kind=4, R=470 + inputs.frame.R % 51, calculated_period=period)
        weights = [1 + weight % 1_000 for weight in inputs.weights[:2]]
        return Inputs(inputs.ground, frame, weights, [30 * (i + 1) for i in range(len(weights))])

    return Stratum('a light frame, T below 0.2 T0, R of 4.70 to 5.20', reach,
                   lambda job: job.W <= 2_000 and job.heights[-1] <= 60 and 470 <= job.frame.R <= 520 and 5 * job.T <= job.design.T0)


def rare_strata():
    """Each with how many jobs the comparison draws for it."""
    yield from ((tied(names), 100) for names in TIES)
    yield from ((stratum, 50) for stratum in mark_strata())
    yield largest(), 500
    yield from ((stratum, 500) for stratum in product_strata())
    yield heavy(), 10_000
    yield light(), 10_000
    yield light_frame(), 5_000
