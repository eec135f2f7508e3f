"""The moves of the comparison (Wish 14): two jobs, or two shear calls, before and after a change at one T, and which way each figure moves."""

import random

from tests.compares import core
from tests.compares.parts import chunks, figures_of, filled, held
from tests.draws import moves as drawn
from tests.draws.calls import ShearInputs
from tests.model import calls, job as jobs, moves

KINDS = tuple(drawn.GROUNDS)
A_MOVE, RARE = 300, 100         # of a stratum, and of the one that is long looked for
PLAIN = 'drawn from all that is allowed'
SHEARS = {'V': 'V', 'V_M': 'V_M', 'V_star': 'V*', 'V_D': 'V_D'}
WAYS = ('falls', 'stays', 'rises')
HEAVIER, LARGER_R = moves.HEAVIER, moves.LARGER_R


def room_of(inputs):
    """Three buffers as long as the lists."""
    return (len(inputs.weights),) * 3


def modelled(inputs):
    """The model's answer to a job with buffers or to a shear call, and that what is only read is as it was."""
    if isinstance(inputs, ShearInputs):
        return figures_of(calls.shear_call(*inputs)), [], True
    result = jobs.job(*inputs)
    return figures_of(result), filled(result, room_of(inputs)), True


def answered(library, inputs):
    """The core's."""
    if isinstance(inputs, ShearInputs):
        figures, same = core.shear_call(library, *inputs)
        return figures, [], same
    return core.job(library, *inputs, held(room_of(inputs)))


def answer_of(figures, cells):
    """Figures and cells as the model names them, number and place left out."""
    forces, shears, _ = cells or ((), (), ())
    return moves.Answer(*figures[2:], tuple(forces), tuple(shears))


def moved(change, replies):
    """Whether the figures move as they must, whether T is one, and whether both calls were taken; None where something was written beside a reply."""
    if any(figures is None or None in cells for figures, cells, _ in replies):
        return None
    before, after = (answer_of(figures, cells) for figures, cells, _ in replies)
    return moves.holds(change, before, after), before.T == after.T, all(figures[0] == 0 for figures, _, _ in replies)


def expected_moves(change, *both):
    """The model's answers; that the figures move as they must, that T is one and that both calls were taken."""
    return [modelled(inputs) for inputs in both], (True, True, True)


def got_moves(library, change, *both):
    """The core's, and what is to be said of them."""
    replies = [answered(library, inputs) for inputs in both]
    return replies, moved(change, replies)


def way(before, after):
    """Which way a figure moves."""
    return WAYS[(after >= before) + (after > before)]


def governed(answer):
    """The shear that V_D is, of equal ones the first."""
    return next(said for name, said in SHEARS.items() if getattr(answer, name) == answer.V_D)


def seen(change, before, after):
    """What is counted of a move, each by a few words, and whether it is so."""
    for name, said in SHEARS.items() if change == LARGER_R else (('V_D', 'V_D'),):
        yield from ((f'{said} {each}', way(getattr(before, name), getattr(after, name)) == each) for each in WAYS)
    if change == LARGER_R:
        yield f'{governed(before)} governs before, {governed(after)} after', True
        yield 'V* rises, and governs after', after.V_star > before.V_star and after.V_star == after.V_D
    if change == HEAVIER and before.shears:
        yield 'a force falls', any(map(int.__gt__, before.forces, after.forces))
        yield 'a storey shear falls', any(map(int.__gt__, before.shears, after.shears))


def differ(change, before, after):
    """Kind, calculated period or height of two shear calls."""
    return isinstance(before, ShearInputs) and (before.frame[:2], before.height) != (after.frame[:2], after.height)


def compare_moves(tally, library, stratum, move):
    """The two calls of a move, counted as one comparison, and which way each figure moves."""
    replies, said = expected_moves(*move)
    tally.compare(stratum, move, got_moves(library, *move), (replies, said))
    answers = [answer_of(figures, cells) for figures, cells, _ in replies]
    for words, so in seen(move.change, *answers):
        tally.counts[f'of {move.change}, {words}'] += so
    tally.counts['of the moves, kind, calculated period or height differ'] += differ(*move)


def run_move_stratum(library, tally, seed, name, count, kind):
    """Moves drawn for a stratum of a kind of ground."""
    rng, one = random.Random(seed), dict(drawn.strata(kind))[name]
    for _ in range(count):
        compare_moves(tally, library, name, one(rng))


def run_moves(library, tally, seed, count, kind):
    """Moves on a kind of ground, drawn from all that is allowed."""
    rng = random.Random(seed)
    for _ in range(count):
        compare_moves(tally, library, f'{drawn.NAMES[kind]}: {PLAIN}', drawn.draw_any(rng, drawn.GROUNDS[kind]))


def of_stratum(name):
    """How many moves are drawn for a stratum."""
    return RARE if name.endswith(drawn.TIED) else A_MOVE


def move_tasks(seed, count):
    """Moves, on each kind of ground a third."""
    for kind in KINDS:
        names = [name for name, _ in drawn.strata(kind)]
        yield from ((run_move_stratum, f'moves {seed} {name}', name, of_stratum(name), kind) for name in names)
        yield from chunks(run_moves, seed, count // len(KINDS) - sum(map(of_stratum, names)), kind)
