"""Random soil logs: plain ones, ones whose average lies at a class limit, ones in soft clay, and bad ones."""

from tests.model import soil

MOST = 2**64 - 1


def thicknesses(rng, layers):
    """So many thicknesses above 0 that add up to 3,000 cm."""
    cuts = sorted(rng.sample(range(1, soil.THICKNESS_SUM), layers - 1))
    return [b - a for a, b in zip([0, *cuts], [*cuts, soil.THICKNESS_SUM])]


def plain(rng, allowed=((1,), (2, 3), (1, 2, 3))):
    """Any kinds and values, slow, fast or mixed."""
    layers = rng.choice((1, 2, 3, 40, rng.randint(1, 40)))
    slow, fast = rng.choice(((500, 30_000), (1_500, 3_500), (1_700, 2_900), (500, 2_000), (2_500, 30_000)))
    kinds = [rng.choice(rng.choice(allowed)) for _ in range(layers)]
    values = [rng.randint(slow, fast) if kind == soil.MEASURED else rng.choice(soil.VALUE[kind]) for kind in kinds]
    return thicknesses(rng, layers), kinds, values


def soft_clay(rng):
    """At least one layer of soft clay, among any others."""
    while True:
        log = plain(rng, ((4,), (1, 4), (2, 3, 4), (1, 2, 3, 4)))
        if soil.SOFT_CLAY in log[1]:
            return log


def soft_clay_at_ends(rng):
    """Soft clay alone, each q one of the ends, or one unit from them, or at and about 1 kgf/cm²."""
    ds = thicknesses(rng, rng.choice((1, 2, 40, rng.randint(1, 40))))
    return ds, [soil.SOFT_CLAY] * len(ds), [rng.choice((1, 2, 99, 100, 101, 399, 400)) for _ in ds]


def soft_clay_at_limit(rng):
    """A layer of soft clay among others, one of which is measured and set so that the average is as near to 180 or 270 m/s as can be."""
    return at_limit(rng, soft_clay)


def at_limit(rng, drawn=plain):
    """One measured layer's velocity set so that the average comes as near to 180 or 270 m/s as a whole dm/s allows."""
    while True:
        ds, kinds, values = drawn(rng)
        layer = rng.randrange(len(ds))
        if soil.SOFT_CLAY in kinds and soil.SOFT_CLAY not in kinds[:layer] + kinds[layer + 1:]:
            continue        # the layer that is set is not the only one of soft clay
        limit = rng.choice((1_800, 2_700))
        rest = sum(10**8 * d / soil.velocity(kind, value)
                   for i, (d, kind, value) in enumerate(zip(ds, kinds, values)) if i != layer)
        left = 10**8 * soil.THICKNESS_SUM / limit - rest
        speed = round(10**8 * ds[layer] / left) + rng.randint(-1, 1) if left > 0 else 0
        if speed in soil.VALUE[soil.MEASURED]:
            kinds[layer], values[layer] = soil.MEASURED, speed
            return ds, kinds, values


def exactly(rng):
    """Every layer at one of the limits, or one unit to a side."""
    ds = thicknesses(rng, rng.choice((1, 2, 40, rng.randint(1, 40))))
    speed = rng.choice((1_799, 1_800, 1_801, 2_699, 2_700, 2_701))
    return ds, [soil.MEASURED] * len(ds), [speed] * len(ds)


def soft_clay_spoilt(rng):
    """A log with soft clay in it, with one to three numbers or lengths changed."""
    return spoilt(rng, soft_clay)


def spoilt(rng, drawn=plain):
    """A log with one to three numbers or lengths changed."""
    lists = list(drawn(rng))
    for _ in range(rng.choice((1, 1, 2, 3))):
        which = rng.randrange(3)
        if rng.random() < 0.3 or not lists[which]:
            lists[which] = lists[which] * rng.randrange(3) + [1] * rng.randrange(2)
            continue
        place = rng.randrange(len(lists[which]))
        near = rng.choice((0, 1, 2, 3, 4, 5, 25, 26, 50, 51, 400, 401, 499, 500, 30_000, 30_001, 3_000, MOST, rng.randrange(4_000)))
        lists[which] = [*lists[which][:place], near, *lists[which][place + 1:]]
    return tuple(lists)


def put(numbers, place, value):
    """The numbers with one changed."""
    return [*numbers[:place], value, *numbers[place + 1:]]


def systematic():
    """0 to 43 layers, also in one list alone; at each of 40 layers a thickness of 0 with a right and a wrong sum, sums beside 3,000,
    unknown kinds, both sides of each range, and numbers whose low bits are allowed."""
    for layers in range(44):
        ds = ([soil.THICKNESS_SUM // max(layers, 1)] * layers)[:-1] + [soil.THICKNESS_SUM - soil.THICKNESS_SUM // max(layers, 1) * (layers - 1)]
        ds = ds[:layers]
        yield ds, [1] * layers, [2_000] * layers
        yield from ((ds[:a], ([1] * layers)[:b], ([2_000] * layers)[:c]) for a, b, c in ((None, -1, None), (None, None, -1), (-1, None, None)))
    ds, kinds, values = [75] * 40, [1, 2, 3, 2] * 10, [2_000, 10, 30, 2] * 10
    for layer in range(40):
        yield put(ds, layer, 0), kinds, values
        yield put(put(ds, layer, 0), (layer + 1) % 40, 150), kinds, values
        yield from ((put(ds, layer, value), kinds, values) for value in (74, 76, 75 + 2**16, 75 + 2**32, 75 + 2**63, MOST))
        yield from ((ds, put(kinds, layer, kind), values) for kind in (0, 4, 5, 1 + 2**16, 4 + 2**16, 4 + 2**32, 1 + 2**32, 1 + 2**63, MOST))
        for kind, allowed in soil.VALUE.items():
            ends = (allowed[0] - 1, allowed[0], allowed[-1], allowed[-1] + 1, allowed[0] + 2**16, allowed[0] + 2**32, allowed[0] + 2**63, MOST)
            yield from ((ds, put(kinds, layer, kind), put(values, layer, value)) for value in ends)


STRATA = {'plain': plain, 'average at 180 or 270 m/s': at_limit, 'every layer at a limit': exactly, 'spoilt': spoilt,
          'soft clay': soft_clay, 'soft clay at the ends of q': soft_clay_at_ends,
          'soft clay, average at 180 or 270 m/s': soft_clay_at_limit, 'soft clay, spoilt': soft_clay_spoilt}
