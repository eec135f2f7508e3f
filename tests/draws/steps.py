"""Steps from a number to a larger one, of a quantity that is changed, and the sizes of the jobs that it is changed in (Wish 14)."""

import bisect

from tests.model import limits


def nearest(rng, befores, afters):
    """Any number before, and the next one after."""
    before = rng.choice(befores)
    return before, afters[bisect.bisect_right(afters, before)]


def farthest(rng, befores, afters):
    """The first before, the last after."""
    return befores[0], afters[-1]


def any_step(rng, befores, afters):
    """A number before and a larger one after, each at its ends or any."""
    before = rng.choice((befores[0], befores[-1], rng.choice(befores)))
    larger = afters[bisect.bisect_right(afters, before):]
    return before, rng.choice((larger[0], larger[-1], rng.choice(larger)))


def one_kn(rng, inputs):
    """1 kN in all."""
    return inputs._replace(weights=[1], heights=inputs.heights[-1:])


def few_kn(rng, inputs):
    """At most three levels of at most 3 kN."""
    weights = [rng.randint(1, 3) for _ in inputs.weights[-3:]]
    return inputs._replace(weights=weights, heights=inputs.heights[-3:])


def heaviest(rng, inputs):
    """50 levels of 20,000 kN."""
    return inputs._replace(weights=[limits.WEIGHT[-1]] * 50, heights=list(range(40, 2_001, 40)))


SIZES = {'1 kN in all': one_kn, 'a few kN': few_kn, 'a million kN': heaviest}
