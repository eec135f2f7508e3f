"""Wrong ideas of a district (Wish 9), as changes of the model, and the districts that are to show them. Those of its report stand in
tests/compares/wrong_reports.py."""

import itertools

from tests.compares import wrong_reports
from tests.draws.districts import LARGE, PREFIX, strata
from tests.model import district, limits
from tests.model.district import Answer, Report, Row
from tests.writes import districts

A_DISTRICT = 8          # jobs, of which as many are asked for as of the other wrong ideas
WRAP = 2**64
NOTHING = Row(0, 0)


def stopped(jobs, weights, heights, right=district.answers_of):
    """The rows after a refused one are left out, as refused."""
    answers = right(jobs, weights, heights)
    first = next((place for place, each in enumerate(answers) if each.row.number), len(answers))
    return answers[:first + 1] + [answers[first] for _ in answers[first + 1:]]


def stale(jobs, weights, heights, right=district.answers_of):
    """A refused row keeps the figures of the row before it."""
    answers = right(jobs, weights, heights)
    before = [Answer(NOTHING), *answers]
    return [each if not each.row.number else Answer(Row(*each.row[:2], *last.row[2:])) for each, last in zip(answers, before)]


def with_rows(changed):
    """The rows that are written changed, given how many there are."""
    def wrong(jobs, weights, heights, room, right=district.district):
        """The call with other rows."""
        number, rows, report = right(jobs, weights, heights, room)
        return number, changed(number, rows, room), report
    return [(district, 'district', wrong)]


def as_many_as_fit(jobs, weights, heights, room, right=district.district):
    """Where there are too few rows, those that there are are filled."""
    return right(jobs[:room], weights, heights, room)


def first_256(jobs, weights, heights, room, right=district.district):
    """Of more than 256 jobs the first 256."""
    return right(jobs[:district.MOST_JOBS], weights, heights, room)


def counted_as_refused(jobs, weights, heights, room, right=district.district):
    """The jobs of a call that is refused counted as refused."""
    number, rows, report = right(jobs, weights, heights, room)
    return number, rows, Report(refused=len(jobs)) if number else report


def whole(unequal=lambda weights, heights: len(weights) != len(heights), too_many=lambda count: count > district.MOST_JOBS,
          too_few=lambda count, room: room < count):
    """22 by other lists, jobs or rows."""
    return [(district, 'refused_whole', lambda count, weights, heights, room: unequal(weights, heights) or too_many(count) or too_few(count, room))]


def outside(wrong):
    """21 by another rule."""
    return [(district, 'outside', wrong)]


def answered(changed):
    """A job's answer changed, given the job and the store."""
    return [(district, 'answer_of', lambda job, weights, heights, right=district.answer_of: changed(job, weights, heights, right))]


def count_first(job, weights, heights, right):
    """1 judged on the count before 21."""
    return right(job, weights, heights) if job.count in limits.LEVELS else Answer(Row(1, 0))


def numbers_first(job, weights, heights, right):
    """Ground and frame judged before 21."""
    refusal = next(itertools.chain(limits.ground_refusals(job.ground()), limits.frame_refusals(job.frame)), None)
    answer = right(job, weights, heights)
    return Answer(Row(*refusal)) if answer.row.number == district.OUTSIDE and refusal else answer


def placed(place_of):
    """3 and 4 at other places."""
    def changed(job, weights, heights, right):
        """The answer with its place."""
        answer = right(job, weights, heights)
        return answer._replace(row=answer.row._replace(place=place_of(job, answer.row.place))) if answer.row.number in (3, 4) else answer
    return answered(changed)


def whole_weight(job, weights, heights, right):
    """W of the whole store."""
    answer = right(job, weights, heights)
    return answer._replace(W=sum(weights)) if answer.W else answer


def above_the_one_below(job, weights, heights, right):
    """The first height of a stretch judged against the level below it in the store."""
    answer = right(job, weights, heights)
    below = heights[job.start - 1] if 0 < job.start < len(heights) else 0
    return Answer(Row(4, 1)) if answer.W and heights[job.start] <= below else answer


def cut_at_the_end(job, weights, heights, right):
    """What the store has of a stretch in place of 21."""
    return right(job._replace(count=min(job.count, max(len(weights) - job.start, 0)), start=min(job.start, len(weights))), weights, heights)


def site_too(job, weights, heights, right):
    """The nine numbers of a site judged in the Basin too."""
    refusal = next(iter(limits.site_refusals(job.site)), None) if job.basin else None
    answer = right(job, weights, heights)
    return Answer(Row(*refusal)) if refusal and answer.W else answer


def zone_too(job, weights, heights, right):
    """A zone that is given judged on a site too."""
    answer = right(job, weights, heights)
    return Answer(Row(18, 0)) if answer.W and not job.basin and job.zone not in (0, *limits.ZONE) else answer


ERRORS = {
    'a refused job stops the rows after it': [(district, 'answers_of', stopped)],
    'a refused row keeps the figures of the row before it': [(district, 'answers_of', stale)],
    'rows past the last job cleared': with_rows(lambda number, rows, room: rows if number else rows + [NOTHING] * (room - len(rows))),
    'rows cleared where the call is refused': with_rows(lambda number, rows, room: [NOTHING] * room if number else rows),
    '22 written into the rows': with_rows(lambda number, rows, room: [Row(number, 0)] * room if number else rows),
    'too few rows filled': [(district, 'district', as_many_as_fit)],
    'the first 256 jobs taken': [(district, 'district', first_256)],
    'jobs of a refused call counted as refused': [(district, 'district', counted_as_refused)],
    'up to 255 jobs': whole(too_many=lambda count: count >= district.MOST_JOBS),
    'up to 257 jobs': whole(too_many=lambda count: count > district.MOST_JOBS + 1),
    'no job refused': whole(too_many=lambda count: count not in range(1, district.MOST_JOBS + 1)),
    'lists of unequal length refused with jobs only': [
        (district, 'refused_whole', lambda count, *rest, right=district.refused_whole: count > 0 and right(count, *rest))],
    'more heights than weights taken': whole(unequal=lambda weights, heights: len(heights) < len(weights)),
    'more weights than heights taken': whole(unequal=lambda weights, heights: len(weights) < len(heights)),
    'as many rows as jobs asked for': whole(too_few=lambda count, room: room != count),
    'a row more than jobs asked for': whole(too_few=lambda count, room: room <= count),
    'a store of no level refused with 22': whole(unequal=lambda weights, heights: len(weights) != len(heights) or not weights),
    'a store of over 50 levels refused with 22': whole(unequal=lambda weights, heights: len(weights) != len(heights) or len(weights) > 50),
    'start + count wrapped': outside(lambda start, count, length: (start + count) % WRAP > length),
    'a stretch of no level refused with 21': outside(lambda start, count, length: count == 0 or start + count > length),
    'a start at the end of the store refused with 21': outside(lambda start, count, length: start >= length or start + count > length),
    'a start beyond the end taken with no level': outside(lambda start, count, length: count > 0 and start + count > length),
    'a level more than is left taken': outside(lambda start, count, length: start + count > length + 1),
    'the last level not taken': outside(lambda start, count, length: start + count >= length),
    '21 after 1': answered(count_first), '21 after ground and frame': answered(numbers_first), 'what the store has in place of 21': answered(cut_at_the_end),
    '3 and 4 at place 0': placed(lambda job, place: 0), '3 and 4 at the level of the store': placed(lambda job, place: job.start + place),
    'a first height judged against the level below the stretch': answered(above_the_one_below),
    'W of the whole store': answered(whole_weight), 'the nine numbers judged in the Basin': answered(site_too), 'the zone judged on a site': answered(zone_too),
    'the Basin by a flag of 1 alone': [(district.DistrictJob, 'ground', lambda job: limits.Basin(job.zone) if job.basin == 1 else job.site)],
    'the Basin by the lowest bit': [(district.DistrictJob, 'ground', lambda job: limits.Basin(job.zone) if job.basin % 2 else job.site)],
    'the Basin by the low 32 bits': [(district.DistrictJob, 'ground', lambda job: limits.Basin(job.zone) if job.basin % 2**32 else job.site)],
    **wrong_reports.ERRORS,
}


def drawn(rng, count):
    """Districts of every stratum in turn, but for those of many jobs, which come first and once."""
    every = strata()
    yield from (every[PREFIX + name](rng) for name in LARGE)
    few = [draw_one for name, draw_one in every.items() if name.removeprefix(PREFIX) not in LARGE]
    for number in range(count // A_DISTRICT):
        yield few[number % len(few)](rng)


def stored():
    """The cases of crates/run_districts, with what is stored of each."""
    cases = districts.all_cases()
    return list(zip(cases, districts.stored(cases)))
