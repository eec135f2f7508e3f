"""What the parts of the comparison share: the buffers that are lent to a call, and a count divided into tasks."""

A_STRATUM, CHUNK = 500, 2_500
MEASURED_EACH = 10      # of what is drawn from all that is allowed, the exact figure of every tenth is worked out
OLD = (7_000_000, 8_000_000, 9_000_000)       # what the buffers held: all cells differ


def held(lengths):
    """What three buffers of these lengths hold before a call."""
    return [list(range(mark, mark + length)) for mark, length in zip(OLD, lengths)]


def figures_of(result):
    """Number, place and figures of the model's result of a job or of a shear call: "figures 0" where it is refused."""
    if result[0] == 'refused':
        return *result[1:], 0, 0, 0, 0, 0
    return 0, 0, result.V, result.V_M, result.V_star, result.V_D, result.T


def filled(result, lengths):
    """What the buffers hold after a call that the model gives this result: "only the first cells, one per level, are written"."""
    old = held(lengths)
    if result[0] == 'refused':
        return old
    return [written + rest[len(written):] for written, rest in zip((result.forces, result.shears, result.moments), old)]


def chunks(function, seed, count, *more):
    """A count in parts, each with its seed."""
    said = ' '.join((function.__name__, *map(str, more)))
    return [(function, f'{said} {seed} {start}', min(CHUNK, count - start), *more) for start in range(0, count, CHUNK)]
