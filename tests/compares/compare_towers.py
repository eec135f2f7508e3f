"""The towers of the comparison (Wish 8): each tower's shear call, that of all their weight, and how many newtons more the towers come to."""

import random

from tests.compares import core
from tests.compares.parts import A_STRATUM, chunks, figures_of
from tests.draws import towers as drawn
from tests.model import calls, towers

KINDS = tuple(drawn.GROUNDS)
V_D, T = 5, 6           # places of a reply
MANY_OF = 20            # for every so many pairs a draw of another number of towers on top
RARE = 150              # of the stratum that is long looked for


def answers(call, ground, frame, parts, height):
    """What a shear call answers of each tower and of all their weight."""
    return [call(ground, frame, weight, each) for weight, each in [*parts, (sum(weight for weight, _ in parts), height)]]


def added(figures):
    """How many newtons more the towers come to, whether that is what Wish 8 says, whether T is one, and whether all calls were taken; None where
    something was written beside a reply."""
    if None in figures:
        return None
    *parts, whole = (each[V_D] for each in figures)
    one_period, taken = len({each[T] for each in figures}) == 1, all(each[0] == 0 for each in figures)
    return towers.newtons_more(whole, parts), towers.holds(whole, parts), one_period, taken


def expected_towers(*inputs):
    """The model's answers, and that what is only read is as it was; the newtons that they come to more, that this holds, that T is one and that all
    calls were taken."""
    figures = [figures_of(each) for each in answers(calls.shear_call, *inputs)]
    return [(each, True) for each in figures], (added(figures)[0], True, True, True)


def got_towers(library, *inputs):
    """The core's."""
    got = answers(lambda *call: core.shear_call(library, *call), *inputs)
    return got, added([figures for figures, _ in got])


def more_words(count, more):
    """How many newtons more so many towers come to: none, as many as there can be, or between."""
    return {count - 1: 'as many newtons more as there can be', 0: 'no newton more'}.get(more, 'some newtons more')


def compare_towers(tally, library, stratum, inputs):
    """The calls of some towers, counted as one comparison, and by how much they come to more."""
    expected = expected_towers(*inputs)
    tally.compare(stratum, inputs, got_towers(library, *inputs), expected)
    count = len(inputs.towers)
    tally.counts[f'of {count} towers, {more_words(count, expected[1][0])}'] += 1
    if len({height for _, height in inputs.towers} | {inputs.height}) > 1:
        tally.counts['of the towers, heights that differ'] += 1


def run_tower_stratum(library, tally, seed, name, count, kind):
    """Towers drawn for a stratum of a kind of ground."""
    rng, one = random.Random(seed), dict([*drawn.pair_strata(kind), *drawn.many_strata(kind)])[name]
    for _ in range(count):
        compare_towers(tally, library, name, one(rng))


def run_towers(library, tally, seed, count, kind):
    """Two towers on a kind of ground, drawn from all that is allowed."""
    rng = random.Random(seed)
    for _ in range(count):
        compare_towers(tally, library, f'{drawn.NAMES[kind]}, two: drawn from all that is allowed', drawn.draw_two(rng, drawn.GROUNDS[kind]))


def of_stratum(name):
    """How many pairs are drawn for a stratum."""
    return RARE if name.endswith(drawn.ALIKE) else A_STRATUM


def tower_tasks(seed, count):
    """Pairs, on each kind of ground a third, and other numbers of towers on top."""
    for kind in KINDS:
        names, many = ([name for name, _ in strata(kind)] for strata in (drawn.pair_strata, drawn.many_strata))
        of_each = count // len(KINDS) // MANY_OF // len(many)
        yield from ((run_tower_stratum, f'towers {seed} {name}', name, of_stratum(name), kind) for name in names)
        yield from ((run_tower_stratum, f'towers {seed} {name}', name, of_each, kind) for name in many)
        yield from chunks(run_towers, seed, count // len(KINDS) - sum(map(of_stratum, names)), kind)
