"""Random inputs of a job, every number within its range."""

from typing import NamedTuple

from tests.model import limits


class Inputs(NamedTuple):
    """The four inputs of a job on a site or in the Basin, lowest level first."""

    ground: limits.Site | limits.Basin
    frame: limits.Frame
    weights: list
    heights: list


def draw_pair(rng):
    """N_A and N_V, each at its ends and between."""
    return (rng.choice((100, 150, rng.randint(100, 150), rng.randint(100, 150))),
            rng.choice((100, 200, rng.randint(100, 200), rng.randint(100, 200))))


def draw_site(rng):
    """Listed mapped values; one pair of near-fault factors for both levels."""
    return limits.one_pair(
        rng.choice(limits.S_S_DESIGN), rng.choice(limits.S_1_DESIGN),
        rng.choice(limits.S_S_MCE), rng.choice(limits.S_1_MCE),
        *draw_pair(rng),
        rng.choice(limits.CLASS),
    )


def draw_pairs(rng):
    """A site with a pair for each level: they differ in one factor or in both."""
    site = draw_site(rng)
    while not limits.of_two_pairs(site):
        NAM, NVM = draw_pair(rng)
        site = site._replace(NAM=NAM, NVM=NVM)
    return site


def draw_basin(rng):
    """Any zone."""
    return limits.Basin(rng.choice(limits.ZONE))


def draw_frame(rng):
    """Any R, I, alpha-y and kind; a calculated period of none, short, middling or any length."""
    period = rng.choice((0, rng.randint(1, 1_000), rng.randint(1, 6_000), rng.randint(1, 60_000)))
    return limits.Frame(rng.choice(limits.KIND), period, rng.randint(100, 600),
                        rng.choice(limits.I_VALUES), rng.randint(100, 200))


def draw_heights(rng, count):
    """Heights rising strictly to a top that is low, middling or anywhere up to 2,000 dm."""
    top = rng.randint(count, rng.choice((100, 500, 2_000)))
    return sorted(rng.sample(range(1, top), count - 1)) + [top]


def draw(rng, draw_ground=draw_site):
    """Inputs of 1 to 50 levels, light or heavy."""
    count = rng.choice((1, rng.randint(1, 6), rng.randint(1, 50), 50, rng.randint(1, 50)))
    heaviest = rng.choice((3, 1_000, 20_000))
    weights = [rng.randint(1, heaviest) for _ in range(count)]
    return Inputs(draw_ground(rng), draw_frame(rng), weights, draw_heights(rng, count))


def lengths(rng, weights):
    """Three buffers as long as the list, or longer."""
    return tuple(len(weights) + (rng.choice((0, 0, 1)) if rng.random() < 0.99 else rng.randrange(1_000)) for _ in range(3))
