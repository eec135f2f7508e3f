"""A stored district: what `run_districts` reads of it, and what it must write; and the jobs and stores that the others are made of."""

from typing import NamedTuple

from tests.draws.stretches import District
from tests.model import district, limits
from tests.model.district import DistrictJob
from tests.writes.stored_calls import NEAR, SITE, tabbed

MOST_LISTED, MOST_LEVELS, MOST_BYTES = 260, 120, 60_000      # jobs and rows, levels of the store, bytes of all cases
OLD, LARGEST = 7, 2**64 - 1
FRAME, NO_SITE = limits.Frame(2, 1000, 480, 100, 150), limits.Site(*[0] * len(limits.Site._fields))
THREE = [5_000] * 3, [100, 200, 300]


class Case(NamedTuple):
    """A district call: the jobs that are given, how many there are by taking these in turn, the store, the rows and what a cell of them holds."""

    given: list
    count: int
    weights: list
    heights: list
    room: int
    old: int = OLD

    def call(self):
        """The inputs of the call."""
        return District([self.given[place % len(self.given)] for place in range(self.count)], self.weights, self.heights, self.room)

    def row(self):
        """The numbers that the program reads."""
        assert max(self.count, self.room) <= MOST_LISTED and max(len(self.weights), len(self.heights)) <= MOST_LEVELS
        assert len(self.given) <= self.count and (self.given or not self.count)
        head = self.count, len(self.given), len(self.weights), len(self.heights), self.room, self.old
        return [*head, *(number for job in self.given for number in job.numbers()), *self.weights, *self.heights]

    def said(self):
        """What the program must write."""
        number, rows, report = district.district(*self.call())
        untouched = [(self.old,) * len(district.Row._fields)] * (self.room - len(rows))
        return ''.join((tabbed(('refused', number, 0) if number else ('taken',)), *(tabbed(('row', *row)) for row in (*rows, *untouched)),
                        tabbed(('report', *report[:-1], *report.cells))))


def on_site(start, count, site=SITE, frame=FRAME, zone=0):
    """A job on a site."""
    return DistrictJob(0, zone, site, frame, start, count)


def in_basin(start, count, zone=3, frame=FRAME, site=NO_SITE, flag=1):
    """A job in the Basin."""
    return DistrictJob(flag, zone, site, frame, start, count)


def near_fault(start, count):
    """A job on a site with two pairs."""
    return on_site(start, count, NEAR)


def case(jobs, weights, heights, more_room=0):
    """A district of these jobs, each given, with so many rows more than jobs."""
    return Case(list(jobs), len(jobs), list(weights), list(heights), len(jobs) + more_room)


def in_turn(jobs, count, weights, heights, more_room=0):
    """So many jobs, some given in turn."""
    return Case(list(jobs), count, list(weights), list(heights), count + more_room)


def short_store(count):
    """So many levels of 5 kN, a dm apart."""
    return [5] * count, list(range(1, count + 1))
