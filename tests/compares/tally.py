"""What a comparison has compared: counted by stratum, with what differed and the largest excess on each kind of ground and of each call."""

from collections import Counter

from tests.compares.excess import Largest, OfDistributions, OfShears
from tests.model import limits

PREFIX = {'site': '', 'basin': 'Basin: ', 'pairs': 'two pairs: '}       # of a stratum's name, by the kind of ground
NEAR_FAULT = 6


class Tally:
    """What was compared, by stratum, what differed, and the largest excess: of jobs on sites, in the Basin and with two pairs, of shear
    calls, of distributions."""

    def __init__(self):
        self.counts, self.compared, self.differences = Counter(), 0, []
        self.largest = {'site': Largest('on sites'), 'basin': Largest('in the Basin'), 'pairs': Largest('with two pairs'),
                        'shears': OfShears(), 'distributions': OfDistributions()}

    def compare(self, stratum, call, got, expected):
        """Count one comparison."""
        self.counts[stratum] += 1
        self.compared += 1
        if got != expected:
            self.differences.append((stratum, call, got, expected))

    def add(self, other):
        """Count another's."""
        self.counts.update(other.counts)
        self.compared += other.compared
        self.differences += other.differences
        for name, largest in self.largest.items():
            largest.add(other.largest[name])


def kind_of(ground):
    """A site with one pair for both levels, the Basin, or a site with two pairs."""
    if isinstance(ground, limits.Basin):
        return 'basin'
    return 'pairs' if limits.of_two_pairs(limits.ground_of(ground)) else 'site'


def label(call, words):
    """How a stratum of sites is called for a call in the Basin or with two pairs."""
    return PREFIX[kind_of(call[0])] + words


def refusal_words(number, place):
    """How a refusal is counted: that of a near-fault factor by its place."""
    return f'{number:2} at {place}' if number == NEAR_FAULT else f'{number:2}'
