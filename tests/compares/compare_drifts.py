"""Drift, torsion and accidental moments of the comparison (Wish 10), sound and bad, every cell of every buffer; what the storeys, floors and levels are
is counted.

Every fifth call of drift that is drawn, sound or bad, is made twice more, and each is a comparison on top. With all signs reversed, where each displacement
has an opposite among the i64, answer and cells are those of the first call. With a larger limit, where there is one up to 10,000, they are the model's; the
call passes where the first did, and every 1 stays 1.

usage: python3 -m tests.compares.compare_drifts [SEED [DRIFTS [DRIFTS_BAD [TORSIONS [TORSIONS_BAD [MOMENTS [MOMENTS_BAD]]]]]]]

It compares these alone, as tests/compares/compare.py does. It needs x86-64, or RUKESHOMAJI_LIBRARY, a shared library of the core for the machine at hand.
"""

import random
import sys
from typing import Callable, NamedTuple

from tests.compares import core
from tests.compares.parts import A_STRATUM, chunks
from tests.compares.running import compared
from tests.compares.tally import refusal_words
from tests.draws import accidentals, drift_faults, drifts, torsions
from tests.model import accidental, drift, limits, torsion
from tests.writes import drifts as stored_cases, stored_drifts

DRIFTS = TORSIONS = MOMENTS = 100_000
DRIFTS_BAD = TORSIONS_BAD = MOMENTS_BAD = 24_000
OLD_VERDICTS = 7_000_000                        # what the verdicts held: all cells differ
OLD_MOMENTS = -(7_000_000 * 10**9), 8_000_000   # what the positive and the negative moments held
PLAIN = 'drawn from all that is allowed'
AGAIN_EACH = 5                                  # of the calls of drift that are drawn, every fifth is made again
OPPOSITE, LARGER = 'drift again: all signs reversed', 'drift again: a larger limit'
TAKEN = 0, 0                                    # number and place of a call that passes
SAID = {drift.YES: 'yes', drift.NO: 'no'}


def held_verdicts(room):
    """What a buffer of verdicts holds before a call."""
    return [list(range(OLD_VERDICTS, OLD_VERDICTS + length)) for length in room]


def held_moments(room):
    """What the buffers of moments hold before a call."""
    return [list(range(mark, mark + length)) for mark, length in zip(OLD_MOMENTS, room)]


def after(result, written, old):
    """The answer that the model's result stands for: number and place, cells, and that what is only read is as it was."""
    if result[0] == 'refused':
        return result[1:], old, True
    return (0, 0), [each + rest[len(each):] for each, rest in zip(written(result), old)], True


def expected_drift(*call):
    """The model's answer to drift."""
    return after(drift.drift(*call), lambda result: [result.verdicts], held_verdicts(call[-1]))


def got_drift(library, *call):
    """The core's."""
    *given, room = call
    return core.drift(library, *given, *held_verdicts(room))


def expected_torsion(*call):
    """The model's answer to torsion, "figures 0" where it is refused."""
    result = torsion.torsion(*call)
    return (*result[1:], 0) if result[0] == 'refused' else (0, 0, result.factor)


def expected_accidental(*call):
    """The model's answer to accidental moments."""
    return after(accidental.accidental(*call), lambda result: [result.positive, result.negative], held_moments(call[-1]))


def got_accidental(library, *call):
    """The core's."""
    *given, room = call
    return core.accidental_moments(library, *given, held_moments(room))


def storey_words(call):
    """What is counted of each storey of drift."""
    heights, displacements, limit, _ = call
    ends = zip(drift.storeys(heights), drift.storeys(displacements), drift.judged(heights, displacements, limit).verdicts)
    for (low, high), (bottom, top), verdict in ends:
        moved, takes = abs(top - bottom), limit * (high - low)
        yield 'within the limit' if verdict else 'beyond the limit'
        beside = {-1: 'one below the limit', 0: 'at the limit', 1: 'one beyond the limit'}.get(moved - takes)
        yield from [f"{beside}, {'forward' if top > bottom else 'backward'}"] if beside and moved else []
        yield from ['beyond the limit, and in size within it'] * (abs(abs(top) - abs(bottom)) <= takes < moved)
        yield from ['beyond the limit, and within it by the height above the base'] * (takes < moved <= limit * high)
        yield from ['between the least and the largest displacement'] * (moved == 2 * drifts.MOST)


def floor_words(call):
    """What is counted of a floor."""
    factor, quotient = torsion.torsion(*call)
    yield f'factor {factor:,}' if factor in (torsions.LEAST, torsions.THREE) else 'any other factor'
    yield from ['beyond 3.0'] * (quotient > torsion.MOST)
    yield from ['a whole thousandth'] * (quotient <= torsion.MOST and quotient * torsion.THOUSANDTHS == factor)


def level_words(call):
    """What is counted of the levels of accidental moments."""
    return ['with a force' if force else 'without force' for force in accidental.accidental(*call).forces]


def larger_words(call, larger):
    """What is counted of each storey by a limit and by a larger one, where the first call is taken."""
    before, after = (drift.drift(*each) for each in (call, larger))
    if before[0] != 'refused':
        yield from (f'{SAID[one]}, and {SAID[other]} by a larger limit' for one, other in zip(before.verdicts, after.verdicts))


def compare_opposite(tally, library, call, first):
    """Drift with all signs reversed, where each displacement has an opposite among the i64: answer and cells are those of the first call."""
    opposite = drifts.opposite(call)
    if all(each in drift_faults.SIGNED for each in opposite.displacements):
        tally.compare(OPPOSITE, opposite, got_drift(library, *opposite), first)
        tally.counts[f"of drift with all signs reversed, {'taken' if first[0] == TAKEN else 'refused'}"] += 1


def yes_stays(first, larger):
    """Whether the call with a larger limit passes where the first did, and every 1 stays 1; None where something was written beside a reply."""
    if any(answer is None or None in cells for answer, cells, _ in (first, larger)):
        return None
    (answer, [verdicts], _), (after, [others], _) = first, larger
    return answer != TAKEN or (after == TAKEN and all(other == drift.YES for one, other in zip(verdicts, others) if one == drift.YES))


def compare_larger(tally, library, rng, call, first):
    """Drift with a larger limit, where there is one: the model's answer and cells, and every yes of the first call stays."""
    if call.limit < limits.DRIFT_LIMIT[-1]:
        larger = drifts.with_larger_limit(rng, call)
        got = got_drift(library, *larger)
        tally.compare(LARGER, (call, larger), (got, yes_stays(first, got)), (expected_drift(*larger), True))
        tally.counts.update(f'of the storeys of drift, {words}' for words in larger_words(call, larger))


def compare_again(tally, library, rng, call, first):
    """Both, beside the core's first answer."""
    compare_opposite(tally, library, call, first)
    compare_larger(tally, library, rng, call, first)


class Entry(NamedTuple):
    """An entry: its name, what expects and gets its answer, its draws, its strata, its bad calls, what is counted of what, where it is taken, and what
    makes a call again."""

    name: str
    expected: Callable
    got: Callable
    draw: Callable
    strata: Callable
    bad: Callable
    systematic: Callable
    stored: type
    counted: str
    words: Callable
    again: Callable | None = None


ENTRIES = {
    'drift': Entry('drift', expected_drift, got_drift, drifts.draw_drift, drifts.strata, drift_faults.random_drift, drift_faults.systematic_drifts,
                   stored_drifts.Drift, 'storeys', storey_words, compare_again),
    'torsion': Entry('torsion', expected_torsion, core.torsion, torsions.draw_torsion, torsions.strata, drift_faults.random_torsion,
                     drift_faults.systematic_torsions, stored_drifts.Torsion, 'floors', floor_words),
    'accidental': Entry('accidental moments', expected_accidental, got_accidental, accidentals.draw_accidental, accidentals.strata,
                        drift_faults.random_accidental, drift_faults.systematic_accidentals, stored_drifts.Moments, 'levels', level_words),
}


def first_two(expected):
    """Number and place of an answer."""
    return expected[:2] if isinstance(expected[0], int) else expected[0]


def compare_call(tally, library, entry, call, stratum=None):
    """What the core answers to one call; a bad one is counted by the refusal that the model gives."""
    expected = entry.expected(*call)
    number, place = first_two(expected)
    refused = f'{entry.name}: refusal {refusal_words(number, place)}' if number else f'{entry.name}: changed, and accepted'
    got = entry.got(library, *call)
    tally.compare(stratum or refused, call, got, expected)
    if not number:
        tally.counts.update(f'of the {entry.counted} of {entry.name}, {words}' for words in entry.words(call))
    return got


def compare_drawn(tally, library, seed, entry, draw, count, stratum=None):
    """So many calls of an entry, drawn one by one; every fifth again, where that is said of the entry."""
    rng = random.Random(seed)
    for number in range(count):
        call = draw(rng)
        got = compare_call(tally, library, entry, call, stratum)
        if entry.again and number % AGAIN_EACH == 0:
            entry.again(tally, library, rng, call, got)


def run_drift_stratum(library, tally, seed, name, count, kind):
    """Calls drawn for a stratum of an entry."""
    entry = ENTRIES[kind]
    compare_drawn(tally, library, seed, entry, dict(entry.strata())[name], count, name)


def run_drifts(library, tally, seed, count, kind):
    """Calls of an entry."""
    entry = ENTRIES[kind]
    compare_drawn(tally, library, seed, entry, entry.draw, count, f'{entry.name}: {PLAIN}')


def run_drifts_bad(library, tally, seed, count, kind):
    """Random bad calls of an entry."""
    entry = ENTRIES[kind]
    compare_drawn(tally, library, seed, entry, entry.bad, count)


def run_systematic_drifts(library, tally, seed, count):
    """Both sides of every limit at every place and every two refusals at once, of the three entries; the cases of the program `run_drifts`."""
    for entry in ENTRIES.values():
        for call in entry.systematic():
            compare_call(tally, library, entry, call)
        for case in stored_cases.all_cases():
            if isinstance(case, entry.stored):
                compare_call(tally, library, entry, case.call(), f'{entry.name} of the program run_drifts')


def drift_tasks(seed, counts, bad):
    """What is compared of the three entries, so many calls of each and so many bad ones."""
    yield run_systematic_drifts, seed, 0
    for kind, count, of_bad in zip(ENTRIES, counts, bad):
        names = [name for name, _ in ENTRIES[kind].strata()]
        yield from ((run_drift_stratum, f'drift stratum {seed} {name}', name, A_STRATUM, kind) for name in names)
        yield from chunks(run_drifts, seed, count - A_STRATUM * len(names), kind)
        yield from chunks(run_drifts_bad, seed, of_bad, kind)


def main(seed=1, drifts_drawn=DRIFTS, drifts_bad=DRIFTS_BAD, torsions_drawn=TORSIONS, torsions_bad=TORSIONS_BAD, moments=MOMENTS, moments_bad=MOMENTS_BAD):
    """Run all, print all; 1 where anything differs."""
    core.build()
    return compared([*drift_tasks(seed, (drifts_drawn, torsions_drawn, moments), (drifts_bad, torsions_bad, moments_bad))], seed)


if __name__ == '__main__':
    sys.exit(main(*(int(word) for word in sys.argv[1:])))
