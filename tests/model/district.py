"""A whole district in one call (Wish 9): "up to 256 jobs that share a lent store of levels, each job naming a stretch of it", a row for each,
and a report."""

from fractions import Fraction
from math import floor
from typing import NamedTuple

from . import job as jobs, limits

MOST_JOBS = 256
CELLS, CELL = 113, 10           # "sorted into 113 cells of ten thousandths each"
OUTSIDE, WHOLE = 21, 22         # refusals of a row and of the whole call, both at place 0


class DistrictJob(NamedTuple):
    """A job of a district: in the Basin where `basin` is not 0, else on the site; its levels are `count` of the store, from `start` on."""

    basin: int
    zone: int
    site: limits.Site
    frame: limits.Frame
    start: int
    count: int

    def ground(self):
        """The ground that counts: the other's numbers are not looked at."""
        return limits.Basin(self.zone) if self.basin else self.site

    def numbers(self):
        """All of them, in the order of the struct for C."""
        return self.basin, self.zone, *self.site, *self.frame, self.start, self.count


class Row(NamedTuple):
    """What is filled in for a job: "number, place, V, V_M, V*, V_D, T", figures 0 where it is refused."""

    number: int
    place: int
    V: int = 0
    V_M: int = 0
    V_star: int = 0
    V_D: int = 0
    T: int = 0


class Answer(NamedTuple):
    """A row and, where it is accepted, W of its stretch in kN, by which its V_D is divided."""

    row: Row
    W: int | None = None


class Report(NamedTuple):
    """Gives "the cells, the number of jobs accepted and refused, the exact sum of V_D, and which shear governed how often"."""

    accepted: int = 0
    refused: int = 0
    total: int = 0
    by_V: int = 0
    by_V_M: int = 0
    by_star: int = 0
    cells: tuple = (0,) * CELLS


def refused_whole(count, weights, heights, room):
    """22: "over 256 jobs, lists of unequal length or a row buffer too short, for the whole call"."""
    return count > MOST_JOBS or len(weights) != len(heights) or room < count


def outside(start, count, length):
    """21: "a stretch outside the store", which has so many levels."""
    return start + count > length


def answer(ground, frame, weights, heights):
    """The answer to a single job: "Row by row it equals a single job on that stretch, refused in 01's order"."""
    result = jobs.job(ground, frame, weights, heights)
    if result[0] == 'refused':
        return Answer(Row(*result[1:]))
    return Answer(Row(0, 0, result.V, result.V_M, result.V_star, result.V_D, result.T), result.W)


def answer_of(job, weights, heights):
    """The answer to a job of a district: 21 "for that row, first", else that of its stretch alone."""
    if outside(job.start, job.count, len(weights)):
        return Answer(Row(OUTSIDE, 0))
    stretch = slice(job.start, job.start + job.count)
    return answer(job.ground(), job.frame, weights[stretch], heights[stretch])


def answers_of(jobs_of_it, weights, heights):
    """The answers to all jobs: "a refused job leaves the others' rows as they would have been"."""
    return [answer_of(job, weights, heights) for job in jobs_of_it]


def governing(row):
    """The name of the shear that governed: "ties going to V, then V_M"."""
    return next(name for name in ('V', 'V_M', 'V_star') if getattr(row, name) == row.V_D)


def thousandths(V_D, W):
    """V_D in N over W in kN: "V_D over W, in thousandths rounded down"."""
    return floor(Fraction(V_D, 1000 * W) * 1000)


def cell_of(V_D, W):
    """The cell that a job belongs to, from 0."""
    return thousandths(V_D, W) // CELL


def report(answers):
    """The report of some answers: "each cell equals the count of rows that belong there"."""
    accepted = [each for each in answers if each.row.number == 0]
    governed = [governing(row) for row, _ in accepted]
    cells = [cell_of(row.V_D, W) for row, W in accepted]
    assert all(cell in range(CELLS) for cell in cells)
    return Report(len(accepted), len(answers) - len(accepted), sum(row.V_D for row, _ in accepted),
                  *(governed.count(name) for name in ('V', 'V_M', 'V_star')), tuple(cells.count(cell) for cell in range(CELLS)))


def district(jobs_of_it, weights, heights, room):
    """(number, the rows that are written, the report): 0 and a row for each job, or 22, "nothing written" and zeros."""
    if refused_whole(len(jobs_of_it), weights, heights, room):
        return WHOLE, [], Report()
    answers = answers_of(jobs_of_it, weights, heights)
    return 0, [each.row for each in answers], report(answers)


def adds_up(rows, report_of_it):
    """Whether a report says of its rows what it must: "Cells add up to the accepted jobs", and so do the shears that governed."""
    accepted = [row for row in rows if not row.number]
    return (sum(report_of_it.cells) == report_of_it.accepted == len(accepted) == report_of_it.by_V + report_of_it.by_V_M + report_of_it.by_star
            and report_of_it.accepted + report_of_it.refused == len(rows) and report_of_it.total == sum(row.V_D for row in accepted))
