"""Writes the cases of the program `run_calls` and what the model says of them: shear calls and distributions (Wish 6), towers (Wish 8), which
way the figures move (Wish 14).

usage: python3 -m tests.writes.call_cases        rewrites crates/run_calls/stdin and crates/run_calls/stdout

The first line of stdin is the count of cases. Every other line is a case. A shear call: 0 for a site or 1 for the Basin, nine numbers of
the ground, five of the frame, weight and height. A distribution: 2, base shear, period, the counts of weights and of heights, the lengths
of three buffers and what a cell of each holds; then the weights and the heights.
"""

import itertools
import pathlib
import random

from tests.draws import calls as drawn
from tests.model import calls, limits
from tests.writes.distribution_cases import (distribution_pairs, distribution_two_wrong, every_shear_at_every_period, handed_in_limits, level_cases,
                                             list_cases)
from tests.writes.shear_cases import move_cases, shear_limits, shear_pairs, shear_pairs_by_place, tower_cases, within_limits
from tests.writes.stored_calls import CELLS, DRAWN, FEW, LARGEST, MOST_BYTES, NEAR, OLD, OVER, SEED, UNEVEN, WORKED, Distribution, Shear

HERE = pathlib.Path(__file__).resolve().parents[2] / 'crates' / 'run_calls'


def worked_cases():
    """The worked sheet's shear call and distribution; the four zones; two pairs; each before and after another, taken and refused."""
    yield from (WORKED, OVER, WORKED._replace(ground=NEAR), WORKED._replace(weight=0), WORKED, OVER._replace(period=10_000), OVER)
    for zone in limits.ZONE:
        result = calls.shear_call(limits.Basin(zone), WORKED.frame, WORKED.weight, WORKED.height)
        yield WORKED._replace(ground=limits.Basin(zone))
        yield OVER._replace(base_shear=result.V_D, period=result.T)
    used = OVER._replace(old=(573_215, 1_071_429, 57_321_500), buffers=(5, 5, 5))
    yield from (used, used._replace(base_shear=0), used._replace(weights=[5000, LARGEST, 0]), used, UNEVEN._replace(old=(0, LARGEST, 1)))


def drawn_cases():
    """From all that is allowed: shear calls on each kind of ground by turns, distributions over few levels and one over 50."""
    rng, kinds = random.Random(SEED), itertools.cycle(drawn.GROUNDS.values())
    yield from (Shear(*drawn.draw_shear_call(rng, next(kinds))) for _ in range(DRAWN))
    for _ in range(DRAWN):
        call = drawn.draw_distribution(rng)
        count = min(len(call.weights), rng.randint(1, FEW))
        yield Distribution(call.base_shear, call.period, call.weights[-count:], call.heights[-count:],
                           tuple(count + rng.choice((0, 0, 1)) for _ in OLD))
    call = drawn.draw_distribution(rng, draw_levels=drawn.LEVELS['levels 50'])
    yield Distribution(call.base_shear, 1_234, call.weights, call.heights, (50, 51, 60))


def all_cases():
    """Every case, in the order of the file."""
    return [*worked_cases(), *shear_limits(), *shear_pairs(), *every_shear_at_every_period(), *handed_in_limits(), *list_cases(),
            *level_cases(), *distribution_pairs(), *drawn_cases(), *tower_cases(), *move_cases(), *shear_pairs_by_place(), *within_limits(),
            *distribution_two_wrong()]


def stored(cases):
    """What the file stdout says of each case: a line of a shear call, four of a distribution."""
    lines = iter((HERE / 'stdout').read_text().splitlines(keepends=True))
    return [''.join(itertools.islice(lines, 1 if isinstance(case, Shear) else 1 + len(CELLS))) for case in cases]


def main():
    """Write both files, and say how many cases there are."""
    cases = all_cases()
    text = '\n'.join([str(len(cases)), *(' '.join(map(str, case.row())) for case in cases)]) + '\n'
    assert len(text) <= MOST_BYTES, len(text)
    HERE.mkdir(exist_ok=True)
    (HERE / 'stdin').write_text(text)
    (HERE / 'stdout').write_text(''.join(case.said() for case in cases))
    refused = sum(case.said().startswith('refused') for case in cases)
    shears = sum(isinstance(case, Shear) for case in cases)
    print(len(cases), 'cases,', shears, 'of them shear calls,', refused, 'refused,', len(text), 'bytes')


if __name__ == '__main__':
    main()
