"""Soil logs as the manual shows them: tables of layers, near the limits of the classes and in soft clay."""

from fractions import Fraction

from tests.model import soil
from tests.writes.by_hand.ground import CLASS_NAMES
from tests.writes.by_hand.text import code, comma, decimal, hundredths, ranged, table

KINDS = {soil.MEASURED: 'measured', soil.COHESIVE: 'cohesive', soil.COHESIONLESS: 'cohesionless', soil.SOFT_CLAY: 'soft clay'}
NEAR_270 = ([400, 600, 1000, 1000], [3, 2, 3, 1], [15, 20, 40, 3110])
BELOW_270 = ([400, 600, 1000, 1000], [3, 2, 3, 1], [15, 20, 40, 3109])
NEAR_180 = ([500, 700, 800, 1000], [2, 2, 3, 3], [2, 4, 10, 40])
ABOVE_180 = ([500, 700, 800, 1000], [2, 2, 3, 3], [2, 4, 10, 41])
CLOSEST = (([1000] * 3, [1] * 3, [1190, 7340, 7433]), ([1000] * 3, [1] * 3, [700, 5030, 25453]))
# a boring in soft clay, and the same with N = 2 made up for its clay
BORING = ([300, 500, 400, 800, 1000], [3, 4, 4, 2, 3], [8, 25, 40, 12, 35])
MADE_UP = ([300, 500, 400, 800, 1000], [3, 2, 2, 2, 3], [8, 2, 2, 12, 35])
SHOWN = (1, 2, 5, 10, 25, 40, 50, 100, 200, 308, 309, 400)


def average(log):
    """The average velocity in m/s, (2), over the whole velocities."""
    thicknesses, kinds, values = log
    return Fraction(sum(thicknesses), 100) / sum(Fraction(d, 100) / Fraction(soil.velocity(kind, value), 10)
                                                 for d, kind, value in zip(thicknesses, kinds, values))


def near(log):
    """A log as a table, and how it is classed."""
    answer, rows = soil.log(*log), []
    for place, (thickness, kind, value) in enumerate(zip(*log)):
        v = answer.velocities[place]
        shown = f'{comma(value)} dm/s' if kind == soil.MEASURED else f'{"q" if kind == soil.SOFT_CLAY else "N"} = {value}'
        time = soil.time(thickness, v)
        rows.append((comma(thickness), f'{kind} {KINDS[kind]}', shown, comma(v), decimal(time, 2)))
    head = ('thickness, cm', 'kind', 'value', 'v, dm/s', 'time, ns')
    name = CLASS_NAMES[answer.cls]
    hard, soft = ('<' if 27 * answer.U < 3 * 10**9 else 'is not <'), ('>' if 18 * answer.L > 3 * 10**9 else 'is not >')
    lines = [f'U = {comma(answer.U)} ns, L = {comma(answer.L)} ns',
             f'27 · U = {comma(27 * answer.U)} {hard} 3,000,000,000',
             f'18 · L = {comma(18 * answer.L)} {soft} 3,000,000,000',
             f'class {answer.cls}, {name}; the average is {decimal(average(log), 3)} m/s']
    return table(head, rows) + '\n\n' + code(lines)


def names():
    """What the page on soil logs names."""
    rows = []
    for log in CLOSEST:
        answer = soil.log(*log)
        layers = ', '.join(map(comma, log[2]))
        rows.append((f'three measured layers of 10 m at {layers} dm/s', f'{decimal(average(log), 7)} m/s',
                     f'{comma(answer.U)} ns', f'{comma(answer.L)} ns', CLASS_NAMES[answer.cls]))
    return {'near_270': near(NEAR_270), 'below_270': near(BELOW_270), 'near_180': near(NEAR_180), 'above_180': near(ABOVE_180),
            'closest_table': table(('log', 'average', 'U', 'L', 'class'), rows),
            'tenth_second': comma(3 * 10**9 // 27), 'layers': str(soil.LAYERS[-1]), 'depth': comma(soil.THICKNESS_SUM),
            'measured': ranged(soil.VALUE[soil.MEASURED]), 'cohesive': ranged(soil.VALUE[soil.COHESIVE]),
            'cohesionless': ranged(soil.VALUE[soil.COHESIONLESS]), 'cohesive_least': str(soil.VALUE[soil.COHESIVE][0]),
            'soft_clay': ranged(soil.VALUE[soil.SOFT_CLAY])}


def unrounded(number, power):
    """A root, cut off after three digits."""
    thousandths = soil.root(1000**power * number, power)
    return decimal(Fraction(thousandths, 1000)) + ('' if thousandths**power == 1000**power * number else '…')


def by_strength(q):
    """1200*(q/100)^0.36, cut off after three digits."""
    return unrounded(1200**25 * Fraction(q, 100)**9, 25)


def worked(kind, value):
    """The velocity of a layer by hand."""
    v = soil.velocity(kind, value)
    if kind == soil.SOFT_CLAY:
        return f'q = {value}: 1200 · {hundredths(value)}^0.36 = {by_strength(value)}, so v = {comma(v)} dm/s'
    scale = {soil.COHESIVE: 1000, soil.COHESIONLESS: 800}[kind]
    return f'N = {value}: {scale} · {value}^(1/3) = {unrounded(scale**3 * value, 3)}, so v = {comma(v)} dm/s'


def asked():
    """What soft clay's boring is in a layer's three numbers, and what the boring says."""
    rows = []
    for thickness, kind, value in zip(*BORING):
        strength = hundredths(value) if kind == soil.SOFT_CLAY else ''
        rows.append((comma(thickness), KINDS[kind], '0 or 1' if strength else str(value), strength, str(kind), str(value)))
    return table(('thickness, cm', 'soil', 'N', 'q_u, kgf/cm²', 'kind', 'value'), rows)


def last_soft():
    """The largest q of which soft clay alone is soft; from the next on it is normal."""
    classed = [soil.log([soil.THICKNESS_SUM], [soil.SOFT_CLAY], [q]).cls for q in soil.VALUE[soil.SOFT_CLAY]]
    last = classed.count(soil.SOFT)
    assert classed == [soil.SOFT] * last + [soil.NORMAL] * (len(classed) - last)
    return last


def soft_clay_names():
    """What the page on soft clay names."""
    last, (least, *_, most) = last_soft(), soil.VALUE[soil.SOFT_CLAY]
    rows = [(str(q), hundredths(q), by_strength(q), comma(soil.velocity(soil.SOFT_CLAY, q))) for q in SHOWN]
    answer = soil.log(*BORING)
    assert answer.cls == soil.SOFT and soil.log(*MADE_UP).cls == soil.NORMAL
    return {'range': ranged(soil.VALUE[soil.SOFT_CLAY]), 'least': hundredths(least), 'most': hundredths(most), 'most_q': str(most),
            'slowest': comma(soil.velocity(soil.SOFT_CLAY, least)), 'fastest': comma(soil.velocity(soil.SOFT_CLAY, most)),
            'last_soft': str(last), 'first_normal': str(last + 1), 'velocities': table(('q, 0.01 kgf/cm²', 'q_u, kgf/cm²', '1200·q_u^0.36, dm/s', 'v, dm/s'), rows),
            'boring': asked(), 'by_hand': code(map(worked, *BORING[1:])), 'classed': near(BORING), 'made_up': near(MADE_UP),
            'n_2': comma(soil.velocity(soil.COHESIVE, 2)), 'cls': str(answer.cls)}
