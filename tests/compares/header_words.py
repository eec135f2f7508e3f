"""What the comments of include/rukeshomaji.h say in digits: refusals and their places, classes and kinds, bounds, versions, and equations of 000.

Refusals and places are what the model gives where everything is wrong. Equations are those of the tables of docs/manual. Each part of the header has
its own sentences; a numeral in none of them is wrong.
"""

import pathlib
import re
from fractions import Fraction

from tests.model import accidental, district, drift, limits, sheet, site as sites, soil, storeys, torsion
from tests.stated import held, plain, releases, runs

ROOT = pathlib.Path(__file__).resolve().parents[2]
NAME = 'include/rukeshomaji.h'
RELEASES = releases((ROOT / 'CHANGELOG.md').read_text())
PARTED, SOFT_CLAY, DISTRICT, DRIFT = (RELEASES[title] for title in (
    'the shear parted from its distribution', 'soft clay by its strength', 'a whole district in one call', 'drift and torsion'))
HANDED_IN = 2           # N: "less than two newtons above", of a shear that is handed in
PART = 4                # "never more than a quarter of V_D"
SCALES = '3.4'          # the section of 000 by which V_D scales a dynamic analysis
DRIFT_LIMIT = Fraction('0.005')     # 000, 2.5.4: "shall not exceed 0.005"
DRIFT_SHEAR = '(24)'    # the equation of 000 for the base shear of drift
OF_STOREYS = ('F_t', 'shear under level x', 'force at level x', 'overturning')      # rows of the rules
OF_DRIFT = ('drift angle', 'verdict', 'A_x', 'accidental moment')
# what is said in digits and is no number of the rules
SAID = ('x86-64 Linux', '64-bit numbers', 'An entry returns 0, or the number', 'A district returns 0 also', "a listing's length are 0.",
        '/* 0: on the site, and the zone', 'counted from 0 in the store', 'cell k, from 0 on:',
        'With a count of 0 the pointer', 'Three numbers name what you link', 'where it does not return 0;', 'of the refusal; 0 on success',
        '0 where data is refused', 'or 0 for none', 'strength in 0.01 kgf/cm2')
RETURNED = 'Returned 0, or the refusal'


def wrong_everywhere():
    """What is refused of each call, in its order, where everything is wrong: a list of (number, place)."""
    site, zone, frame = limits.Site(*[0] * len(limits.Site._fields)), limits.Basin(0), limits.Frame(0, limits.CALCULATED_PERIOD[-1] + 1, 0, 0, 0)
    most = limits.LEVELS[-1]
    levels = [0] * (most + 1), [0] * most, ()
    layers = soil.LAYERS[-1]
    log = [0] * (layers + 1), [0] * layers, [0] * layers
    too_long, not_laid_out = sheet.read(b'x' * (sheet.MOST_BYTES + 1))[0], sheet.read(b'x\n')[0]
    return {'job': list(limits.refusals(site, frame, *levels)), 'basin_job': list(limits.refusals(zone, frame, *levels)),
            'shear_call': list(limits.shear_call_refusals(site, frame, 0, 0)), 'basin_shear_call': list(limits.shear_call_refusals(zone, frame, 0, 0)),
            'distribution': list(limits.distribution_refusals(0, limits.PERIOD[-1] + 1, *levels)), 'site_class': list(soil.refusals(*log)),
            'sheet': [too_long, not_laid_out], **wrong_drifts()}


def wrong_drifts():
    """The same of a drift call, a torsion call and accidental moments."""
    most, beyond = limits.LEVELS[-1], limits.DISPLACEMENT[-1] + 1
    return {'drift': list(limits.drift_refusals([0] * (most + 1), [beyond] * most, 0, ())), 'torsion': list(limits.torsion_refusals(0, beyond)),
            'accidental_moments': list(limits.accidental_refusals(0, limits.PERIOD[-1] + 1, [0] * (most + 1), [0] * most, 0, ()))}


REFUSALS = wrong_everywhere()


def of_district():
    """What is refused of a district with everything wrong as a whole, and of its row; each is the only answer."""
    site, frame = limits.Site(*[0] * len(limits.Site._fields)), limits.Frame(0, limits.CALCULATED_PERIOD[-1] + 1, 0, 0, 0)
    jobs = [district.DistrictJob(0, 0, site, frame, 2, 1)] * (district.MOST_JOBS + 1)
    whole, rows, report = district.district(jobs, [0], [0, 0], 0)
    assert not rows and report == district.Report()
    row = district.answer_of(jobs[0], [0], [0]).row
    return whole, row.number, row.place


def most_thousandths():
    """The most thousandths that V_D over W comes to, which are in the last cell: the largest V_D of the heaviest building."""
    site, frame = limits.Site(80, 45, 100, 55, 150, 200, 150, 200, 1), limits.Frame(4, 0, 100, 150, 100)
    W = limits.WEIGHT[-1]
    row = district.answer(site, frame, [W], [100]).row
    assert district.cell_of(row.V_D, W) == district.CELLS - 1
    return district.thousandths(row.V_D, W)


def order(call, without=()):
    """The numbers of a call's refusals, in their order."""
    return [number for number in dict.fromkeys(number for number, _ in REFUSALS[call]) if number not in without]


def places(call, number):
    """The places of a refusal: one, or the first and the last."""
    found = sorted({place for each, place in REFUSALS[call] if each == number})
    return str(found[0]) if len(found) == 1 else f'{found[0]} to {found[-1]}'


def first_place(call, number):
    """The first place above 0 of a refusal, whose places go up one by one."""
    found = sorted({place for each, place in REFUSALS[call] if each == number and place})
    assert found == list(range(found[0], found[-1] + 1)) and len(found) > 4
    return found[0]


def column(page, heading, head):
    """{step: cell} of a column of the first table under a heading of the manual."""
    text = (ROOT / 'docs' / 'manual' / page).read_text()
    lines = (text.split(f'\n## {heading}\n')[1] if heading else text).split('\n')
    table = [[cell.strip() for cell in line.strip().strip('|').split('|')] for line in lines if line.startswith('|')]
    names = next(row for row in table if row[0] == 'step')
    return {row[0]: row[names.index(head)] for row in table if len(row) == len(names)}


def equations(cells):
    """The numbers of the equations that cells name, in their order; '2.1, after (4)' names a text, not an equation."""
    return sorted({int(number) for cell in cells for number in re.findall(r'(?<!after )\((\d+)\)', cell)})


def references():
    """The equations of the base shear and of the storeys: on a site, in the Basin, and of a soil log."""
    on_site, steps = column('rules.md', '', 'in 000'), column('soil.md', 'The steps', 'in 000')
    in_basin = {**on_site, **column('basin.md', 'The rules', 'in 000')}
    replaced = ('S_S, S_1', 'F_a, F_v', 'A, B')        # what a zone has in place of these, basin.md says
    base = {name: [cell for step, cell in table.items() if step not in OF_STOREYS + OF_DRIFT and not (name == 'basin' and step in replaced)]
            for name, table in (('site', on_site), ('basin', in_basin))}
    roof, turning = (equations([on_site[step]]) for step in ('F_t', 'overturning'))
    (table_4,) = re.findall(r'Table \d', in_basin['T0'])
    after = '2.1 after (4) for the period'
    assert on_site['t'] == on_site['T'] == after.replace(' after', ', after').removesuffix(' for the period')
    site, basin = (equations(base[name]) for name in ('site', 'basin'))
    named = dict.fromkeys(each for step in ('time', 'velocity v', 'class') for each in steps[step].split(', '))
    return {'job': f'document 000 {runs(site + roof, "({})")}, ({turning[0]}) without its factor.',
            'figures': f'document 000 {runs(site, "({})")}',
            'basin_job': f'document 000, {after}, {runs(basin + roof, "({})")}, {table_4}, ({turning[0]}) without its factor.',
            'basin_figures': f'document 000, {after}, {runs(basin, "({})")}, {table_4}',
            'distribution': f'document 000 ({roof[0]}) with base_shear for V_D and period for T, ({turning[0]}) without its factor.',
            'site_class': f'document 000 {", ".join(named)}', 'roof': f'F_t of ({roof[0]})',
            'drift': f"document 000, {on_site['verdict']}.", 'torsion': f"document 000 {on_site['A_x'].split(', ')[-1]};",
            'accidental_moments': f"document 000, {on_site['accidental moment']};"}


def general(constant):
    """Sentences before the entries: numbers of the release, the order of refusals and their places, classes, kinds."""
    version = [int(part) for part in next(iter(RELEASES.values())).split('.')]
    assert sum(part * scale for part, scale in zip(version, (10**6, 1000, 1))) == constant('linked/lib VERSION')
    yield f"Taiwan's {constant('linked/lib EDITION')} code"
    yield f'{10**6:,} times the major number, {1000:,} times the minor one'
    yield f"it is {constant('linked/lib SOURCE')} since a soil log takes soft clay by its unconfined compression strength ({SOFT_CLAY})."
    site, basin, log = (order(call) for call in ('job', 'basin_job', 'site_class'))
    (zone,), replaced = [each for each in basin if each not in site], [each for each in site if each not in basin]
    before, after = basin[:basin.index(zone)], basin[basin.index(zone) + 1:]
    assert site == before + replaced + after
    yield f'Of {site[0]} to {log[-1]} the lowest number that applies is returned, at its lowest place, but {log[2]} at a layer of thickness 0'
    yield f'{zone} stands where {runs(replaced)} stand, after {runs(before)} and before {runs(after)}.'
    three, four = order('shear_call')[:2]
    yield f"its {three} and {four} are of the total weight and the top height, at place {places('shear_call', three)}."
    handed = order('distribution', without=before)
    yield f'In a distribution {handed[0]}, then {handed[1]}, follow {runs(before)}.'
    too_long, not_laid_out = order('sheet')
    yield f'For a sheet {too_long}, then {not_laid_out}, come before all others.'
    whole, row, _ = of_district()
    yield f'A district is refused with {whole} alone, as a whole; a row of it with {row} before all others.'
    yield from of_drifts()
    yield from places_said()
    classes = ', '.join(f'{constant(f"limits/class {name.upper()}")} {name}' for name in ('hard', 'normal', 'soft'))
    yield f'site class: {classes}'
    yield f'/* {classes}; 0 where data is refused */'
    kinds = (('STEEL', 'steel'), ('CONCRETE', 'RC or SRC'), ('BRACED', 'eccentrically braced'), ('OTHER', 'other'))
    yield 'of frame: ' + ', '.join(f'{constant(f"limits/kind {name}")} {words}' for name, words in kinds)
    yield f'since {SOFT_CLAY} */'
    yield f'how many cells its report has; since {DISTRICT} */'
    yield from (f'{words}, since {DISTRICT}' for words in ('A job of a district', 'A row of a district', 'The report of a district'))
    cell = district.CELL
    yield f'vd over W, rounded down, of {cell}*k to {cell}*k + {cell - 1} */'
    factors = {4: 'four'}[len(limits.FACTORS)]
    yield f'far from a fault all {factors} are {sites.NO_NEAR_FAULT}.'
    yield 'the largest of the three'
    yield from SAID


def factors():
    """The least torsion factor, of equal displacements, and the largest, in thousandths."""
    return torsion.torsion(1, 1).factor, torsion.torsion(limits.FLOOR_DISPLACEMENT[-1], 1).factor


def hundredth():
    """The unit of a displacement, in mm: so many of it are a dm."""
    return float(Fraction(100, drift.UNITS_OF_A_DM))


def of_drifts():
    """Sentences on drift, torsion and accidental moments before the entries."""
    levels, (drifts, floor, moments) = order('job')[:4], (order(call) for call in ('drift', 'torsion', 'accidental_moments'))
    (no_weights,), own = [each for each in levels if each not in drifts], [each for each in drifts if each not in levels]
    assert drift.PARTS_OF_LIMIT == 10_000
    yield (f'A drift call has no weights: its {drifts[0]} is of the heights, it has no {no_weights}, and {own[0]}, then {own[1]}, '
           f'follow {runs(drifts[:-2])}.')
    yield f'In a torsion call {floor[1]} follows {floor[0]}.'
    yield (f"In accidental moments {', '.join(map(str, moments[4:]))} follow {runs(moments[:4])}. "
           f'No other entry returns {runs(sorted({*own, *floor, moments[-1]}))}.')
    yield f'of a displacement, in {hundredth()} mm'
    yield 'of a drift call, in ten-thousandths'
    yield f'in thousandths; since {DRIFT} */'
    yield f'The answer to a torsion call, since {DRIFT}.'
    least, most = factors()
    yield f'A_x, thousandths: {least} to {most:,}; 0 where data is refused'


def places_said():
    """The places beside the refusal numbers."""
    def at(call, number):
        return f': {places(call, number)} */'
    yield 'judged on the weights, of a drift call on the heights' + at('job', 1)
    assert places('job', 1) == places('drift', 1)
    yield 'shorter than them' + at('job', 2)
    yield f"weight out of range: level, the lowest is {first_place('job', 3)}; of a shear call" + at('shear_call', 3)
    yield 'of a shear call out of range' + at('shear_call', 4)
    for number, words in ((5, 'mapped value not in its table'), (6, 'near-fault factor out of range')):
        yield f"{words}: {places('job', number)}, in the order of the site's fields"
    for number, words in ((7, 'unknown site class'), (8, 'R out of range'), (9, 'I not in its table'), (10, 'alpha-y out of range'),
                          (11, 'unknown kind of frame'), (12, 'calculated period out of range')):
        yield f'{number} /* {words}' + at('job', number)
    yield f'over {soil.LAYERS[-1]}' + at('site_class', 13)
    none = [place for number, place in soil.refusals([soil.THICKNESS_SUM, 1], [1, 1], [500, 500]) if number == 14]
    yield (f"thickness 0: layer, the first is {first_place('site_class', 14)}; thicknesses that do not add up to {soil.THICKNESS_SUM:,} cm: "
           f'{none[0]} */')
    yield f'line of a sheet not as laid out: line, the first is {REFUSALS["sheet"][1][1]} */'
    yield f'sheet over {sheet.MOST_BYTES:,} bytes: {REFUSALS["sheet"][0][1]} */'
    yield f'zone not {limits.ZONE[0]} to {limits.ZONE[-1]}' + at('basin_job', 18)
    yield 'base shear of a distribution or of accidental moments out of range' + at('distribution', 19)
    yield 'period of a distribution or of accidental moments out of range' + at('distribution', 20)
    assert all(places('distribution', number) == places('accidental_moments', number) for number in (19, 20))
    assert first_place('drift', 23) == first_place('job', 3)
    yield '23 /* displacement out of range: level; of a torsion call' + at('torsion', 23)
    yield '24 /* limit of a drift call out of range' + at('drift', 24)
    yield '25 /* average displacement of a torsion call 0, or above the largest' + at('torsion', 25)
    yield '26 /* plan dimension out of range' + at('accidental_moments', 26)
    whole, row, place = of_district()
    yield f'{row} /* of a row of a district: its stretch is outside the store: {place} */'
    yield f'{whole} /* of a whole district: over {district.MOST_JOBS} jobs, lists of unequal length, or fewer rows than jobs: 0 */'


def entries(constant):
    """Sentences of each entry."""
    of, alone = references(), 'with 2 for lists of unequal length alone'
    assert storeys.F_t(limits.PERIOD[-1], PART * 1000) == 1000
    roof = f"{of['roof']} is 0 for T up to {storeys.NO_ROOF_FORCE} ms and at most V_D/{PART}, rounded up."
    site, basin = runs(order('job')), runs(order('basin_job'))
    yield 'job', [RETURNED, f'Refused {site} Written', f"Reference {of['job']} {roof}", 'the shears above level 1']
    yield 'figures', ['The five figures', RETURNED, f'Refused {site}, {alone}', f"Reference {of['figures']} Moves"]
    yield 'basin_job', [RETURNED, f'Refused {basin} Written', f"Reference {of['basin_job']} {of['roof']} as for"]
    yield 'basin_figures', ['The five figures', RETURNED, f'Refused {basin}, {alone}', f"Reference {of['basin_figures']} Moves"]
    (three, four), rest, in_basin = order('shear_call')[:2], runs(order('shear_call')[2:]), runs(order('basin_shear_call')[2:])
    first = f"Refused {three} and {four} at place {places('shear_call', three)}, then"
    yield 'shear_call', [f'since {PARTED}: the five figures', RETURNED, f'{first} {rest} Written',
                         f"Reference {of['figures']}. By its {SCALES} V_D scales", 'at most (n - 1) N more', 'of two calls']
    yield 'basin_shear_call', [f'since {PARTED}:', RETURNED, f'{first} {in_basin} Written', f"Reference {of['basin_figures']} Towers"]
    levels = order('distribution')[:4]
    handed = ', '.join(map(str, order('distribution')[4:]))
    yield 'distribution', [
        f'since {PARTED}:', RETURNED, f'Refused {runs(levels)} as for rukeshomaji_job, then {handed} Written', 'of the refusal; 0 on success',
        f'less than {HANDED_IN} N above it',
        f"Reference {of['distribution']} {of['roof']} is 0 for a period up to {storeys.NO_ROOF_FORCE} ms and at most base_shear/{PART}, rounded up"]
    kinds = ', '.join(f'{constant(f"limits/layer {name}")} {words}' for name, words in (
        ('MEASURED', 'measured'), ('COHESIVE', 'cohesive'), ('COHESIONLESS', 'cohesionless'), ('SOFT_CLAY', 'soft clay')))
    whole, row, _ = of_district()
    yield 'district', [
        f'since {DISTRICT}: many jobs over one store', RETURNED, 'all fields, 0 where there is no job', 'then the figures, 0 where the row is refused.',
        f"Refused {whole}, at no place, as none is written. Of a row {row}, then on a site {runs(order('job', without=[2]))}, "
        f"in the Basin {runs(order('basin_job', without=[2]))}; {three} and {four} at their level of the stretch Written",
        f'vd over W is at most {most_thousandths():,} thousandths, which is in the last cell']
    yield from drift_entries(of)
    yield 'site_class', [
        f'the upper {soil.THICKNESS_SUM // 100} m', 'cm: above 0', f'{kinds} (N below {soil.VALUE[soil.COHESIVE][0]}', 'q, 0.01 kgf/cm2', RETURNED,
        f"A library before {SOFT_CLAY} refuses soft clay with {order('site_class')[-1]}", f"Refused {runs(order('site_class'))} Written",
        f"Reference {of['site_class']}"]
    first = runs(order('sheet'))
    yield 'sheet', [RETURNED, f"Refused {first}, {runs(order('job', without=[2]))} with a line `site`; {first}, "
                    f"{runs(order('basin_job', without=[2]))} with a line `basin`"]


def drift_entries(of):
    """Sentences of drift, torsion and accidental moments."""
    one, two, four, displaced, limit = order('drift')
    least, most = factors()
    assert torsion.bounded(Fraction(torsion.MOST)) == most
    yield 'drift', [
        f'since {DRIFT}: whether', 'of the two ends of the storey', f'the base has height {drift.BASE} and displacement {drift.BASE}.',
        f'lowest first, {hundredth()} mm, each with its sign', f'The limit of document 000, {float(DRIFT_LIMIT)}, is {DRIFT_LIMIT * drift.PARTS_OF_LIMIT}',
        RETURNED, f'Refused {one} for the heights, {two} for lists of unequal length or a buffer shorter than them, {four} at its level, '
        f'{displaced} at its level, {limit} Written', 'of the refusal; 0 on success', f'lowest first: {drift.YES} yes, {drift.NO} no.',
        f'never turns a {drift.YES} into a {drift.NO}', f"Reference {of['drift']} The base shear of its {DRIFT_SHEAR}"]
    yield 'torsion', [
        f'since {DRIFT}: the amplification', f'(largest / ({float(torsion.TIMES_AVERAGE)} * average)) squared, in thousandths',
        f'the smaller of the exact A_x and {float(torsion.MOST)}', f'It is not raised to 1.0: equal displacements get {least}.',
        f'without a sign, {hundredth()} mm', 'above 0, and not above the largest', RETURNED,
        f"Refused {runs(order('torsion'))}, both at place {places('torsion', order('torsion')[0])} Written", f"Reference {of['torsion']}"]
    percent = accidental.PART * 100
    *levels, shear, period, dimension = order('accidental_moments')
    yield 'accidental_moments', [
        f'since {DRIFT}: the force', f'times {percent} % of the plan dimension', RETURNED,
        f'Refused {runs(levels)} as for rukeshomaji_job, with {levels[1]} also for either buffer, then {shear}, {period}, {dimension} Written',
        'of the refusal; 0 on success', f'{float(Fraction(1, accidental.HUNDREDTHS))} N*dm',
        f'the force in N times {accidental.PART * accidental.HUNDREDTHS} times the dimension in dm', f"Reference {of['accidental_moments']}"]


def checks(header, constant, known):
    """(holds, words) of what each part says. `constant` gives a constant of the core; `known` are sentences held elsewhere, wherever they stand."""
    parts = {name: text for text, name in re.findall(r'\n/\*((?:(?!\*/).)*)\*/\nuint64_t rukeshomaji_(\w+)\(', header, re.S)}
    rest = header
    for name, sentences in entries(constant):
        text = parts[name]
        rest = rest.replace(text, ' ')
        yield from held(f'{NAME}: {name}', plain(f'\n{text}'), [*sentences, *(each for each in known if each in plain(f'\n{text}'))])
    body = plain(rest)
    yield from held(NAME, body, [*general(constant), *(each for each in known if each in body)])
