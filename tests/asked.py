"""What is asked of the stored cases of the gate's programs, entry by entry: the places of each refusal, the limits of each number, and which two
refusals cannot apply together."""

from typing import NamedTuple

from tests.compares import stored_cases, stored_districts, stored_drifts
from tests.model import district, limits, sheet, soil

BETWEEN = 'between'     # a place that is not named

# two refusals that do not apply together
CANNOT = {
    ('1, no level', '1, over 50'): 'a list has one length',
    ('1, no level', '2, a buffer'): 'no buffer is shorter than no weights',
    ('1, no level', '3'): 'there is no weight',
    ('2, lists', '2, a buffer'): 'both are 2 at 0, and none of them is the earlier',
    ('13, no layer', '13, over 40'): 'a list has one length',
    ('13, no layer', '14, a layer'): 'there is no thickness',
    ('13, no layer', '15, kind'): 'a kind without a thickness is 2',
    ('13, no layer', '15, value'): 'and so is a value',
}
NOT_ON_A_SHEET = {('1, no level', '4'): 'there is no height'}

# refusals that need not come by themselves: what may come with them
ALONG = {
    ('1, no level', '4'): ['2, lists'],             # heights without weights
    ('13, no layer',): ['14, the sum'],             # no layers are not 3,000 cm
    ('17',): ['1, over 50', '16'],                  # as laid out, more than 4,096 bytes are more than 150 levels
}
FOUR_CHANGES = {('1, over 50',): ['2, a buffer']}   # no more in a case of `run_refusals`: the ground, two lists and the other refusal
# drift has no weights: 1 is judged on heights
OF_DRIFT = {
    **{pair: CANNOT[pair] for pair in (('1, no level', '1, over 50'), ('2, lists', '2, a buffer'))},
    ('1, no level', '2, a buffer'): 'no buffer is shorter than no heights',
    ('1, no level', '4'): 'there is no height',
}
ALONG_DRIFT = {('1, no level', '23'): ['2, lists']}     # displacements without heights
OF_TORSION = {
    ('23, largest', '23, average'): 'both are 23 at 0, and none of them is the earlier',
    ('25, no average', '25, above the largest'): '0 is not above',
    ('23, average', '25, no average'): 'the average is one number',
}
# an average beyond the range is above a largest one, or that one is beyond it too
ALONG_TORSION = {('23, average',): ['23, largest', '25, above the largest'], ('23, largest', '25, above the largest'): ['23, average']}
ONE_22 = {pair: 'both are 22 at 0, and none of them is the earlier'
          for pair in (('22, jobs', '22, lists'), ('22, jobs', '22, rows'), ('22, lists', '22, rows'))}


class Limit(NamedTuple):
    """The limits of a number: the refusals beyond them, the last values that are taken and the first that are refused."""

    number: str
    refusals: set
    taken: list
    refused: list


class Entry(NamedTuple):
    """What is asked of an entry's cases: the places of each refusal, in the order of the refusals; limits, and with them pairs."""

    name: str
    cases: list
    places: dict
    limits: list
    cannot: dict = CANNOT
    along: dict = ALONG
    paired: str = ''        # the refusal that is asked for with each other one; every two where none is named


def limited(number, refusal, allowed):
    """The limits of a number by what is allowed: a range, or values that have neighbours each."""
    ends = [allowed[0], allowed[-1]] if isinstance(allowed, range) else [*allowed]
    beside = sorted({value + step for value in ends for step in (-1, 1)})
    return Limit(number, {refusal}, ends, [value for value in beside if value >= 0 and value not in allowed])


FRAME = [limited('R', '8', limits.R_RANGE), limited('I', '9', limits.I_VALUES), limited('alphay', '10', limits.ALPHA_Y),
         limited('kind', '11', limits.KIND), limited('calculated_period', '12', limits.CALCULATED_PERIOD)]
MAPPED = (limits.S_S_DESIGN, limits.S_1_DESIGN, limits.S_S_MCE, limits.S_1_MCE)
SITE_PLACES = {f'{number} at {place}': [place] for number in (5, 6) for place in (1, 2, 3, 4)} | {'7': [0]}
SITE = list(map(limited, limits.Site._fields, SITE_PLACES, (*MAPPED, *limits.FACTORS.values(), limits.CLASS)))
FRAME_PLACES = {str(number): [0] for number in range(8, 13)}
GROUNDS = {'Site': (SITE_PLACES | FRAME_PLACES, SITE + FRAME),
           'Basin': ({'18': [0]} | FRAME_PLACES, [limited('zone', '18', limits.ZONE), *FRAME])}

MOST_LEVELS, MOST_LAYERS = limits.LEVELS[-1], soil.LAYERS[-1]
COUNTED, LISTED = {'1, no level': [0], '1, over 50': [0]}, {'2, lists': [0], '2, a buffer': [0]}
LEVELS = [Limit('levels', {*COUNTED}, [1, MOST_LEVELS], [0, MOST_LEVELS + 1]), limited('weight', '3', limits.WEIGHT),
          limited('height', '4', limits.HEIGHT), Limit('rise', {'4'}, [1], [0])]
LISTS = Limit('lists', {'2, lists'}, [0], [-1, 1])
BUFFERS = [Limit(f'buffer {place}', {'2, a buffer'}, [0, 1], [-1]) for place in (1, 2, 3)]
BUILDING = [limited('weight', '3', limits.TOTAL_WEIGHT), limited('height', '4', limits.HEIGHT)]
HANDED_IN = [limited('base shear', '19', limits.BASE_SHEAR), limited('period', '20', limits.PERIOD)]
DIMENSION = limited('dimension', '26', limits.DIMENSION)
DRIFT = [limited('limit', '24', limits.DRIFT_LIMIT), Limit('displacement', {'23'}, [limits.DISPLACEMENT[0], 0, limits.DISPLACEMENT[-1]],
                                                           [limits.DISPLACEMENT[0] - 1, limits.DISPLACEMENT[-1] + 1])]
MOST_MOVED = limits.FLOOR_DISPLACEMENT[-1]
TORSION = [Limit('largest', {'23, largest'}, [1, MOST_MOVED], [MOST_MOVED + 1]), Limit('average', {'23, average'}, [1, MOST_MOVED], [MOST_MOVED + 1]),
           Limit('average', {'25, no average'}, [], [0]), Limit('above', {'25, above the largest'}, [-1, 0], [1])]
LOG = [Limit('layers', {'13, no layer', '13, over 40'}, [1, MOST_LAYERS], [0, MOST_LAYERS + 1]), Limit('thickness', {'14, a layer'}, [1], [0]),
       limited('sum', '14, the sum', (soil.THICKNESS_SUM,)), limited('kind', '15, kind', tuple(soil.VALUE)),
       *(limited(f'value of kind {kind}', '15, value', allowed) for kind, allowed in soil.VALUE.items()),
       *(Limit(f'{name} list', {'2'}, [0], [-1, 1]) for name in ('kinds', 'values'))]
# a sheet of that many bytes is not taken in any case
BYTES = [Limit('bytes', {'16', '1, over 50'}, [], [sheet.MOST_BYTES]), Limit('bytes', {'17'}, [], [sheet.MOST_BYTES + 1])]
# by how much a stretch's start, or its count, is beyond what the store has
STRETCH = [LEVELS[0], Limit('start', {'1, no level'}, [], [0]), Limit('start', {'21'}, [], [1]), Limit('count', {'21'}, [0], [1])]
WHOLE = [Limit('jobs', {'22, jobs'}, [0, district.MOST_JOBS], [district.MOST_JOBS + 1]), Limit('lists', {'22, lists'}, [0], [-1, 1]),
         Limit('rows', {'22, rows'}, [0, 1], [-1])]


def at_levels(last, *refusals):
    """Places of refusals that have a level or a layer: the first, one between and the last."""
    return {refusal: [1, BETWEEN, last] for refusal in refusals}


def job_places(last):
    """Places of 1 to 4, of jobs of so many levels."""
    return COUNTED | LISTED | at_levels(last, '3', '4')


def on_grounds(name, cases, places, numbers):
    """An entry on a site and in the Basin; without limits where no number is asked for."""
    for ground, (more_places, more) in GROUNDS.items():
        yield Entry(f'{name}, {ground}', [case for case in cases if case.ground == ground], places | more_places, numbers and numbers + more)


def district_entries():
    """A district's rows on a site and in the Basin, and the calls."""
    places = {'21': [0]} | COUNTED | at_levels(3, '3', '4')
    for ground, (more_places, _) in GROUNDS.items():
        cases = [case for case in stored_districts.rows() if case.ground == ground]
        yield Entry(f'row of a district, {ground}', cases, places | more_places, STRETCH, paired='21')
    yield Entry('district', [*stored_districts.calls()], {'22, jobs': [0], '22, lists': [0], '22, rows': [0]}, WHOLE, ONE_22, {})


def drift_entries():
    """Drift, torsion and accidental moments."""
    drifts, torsions, moments = stored_drifts.cases()
    levels, weight, *heights = LEVELS
    yield Entry('drift', drifts, COUNTED | LISTED | at_levels(MOST_LEVELS, '4', '23') | {'24': [0]}, [levels, *heights, LISTS, BUFFERS[0], *DRIFT],
                OF_DRIFT, ALONG_DRIFT)
    yield Entry('torsion', torsions, {f'{number}, {reason}': [0] for number, reason in (
        (23, 'largest'), (23, 'average'), (25, 'no average'), (25, 'above the largest'))}, TORSION, OF_TORSION, ALONG_TORSION)
    yield Entry('accidental moments', moments, job_places(MOST_LEVELS) | {'19': [0], '20': [0], '26': [0]},
                [levels, weight, *heights, LISTS, *BUFFERS[:2], *HANDED_IN, DIMENSION])


def entries():
    """Every entry."""
    judged, calls = [*stored_cases.judged_jobs()], [*stored_cases.calls()]
    numbers = [*LEVELS, LISTS, BUFFERS[0]]
    yield next(on_grounds('job judged', judged, job_places(MOST_LEVELS), numbers))
    *_, basin = on_grounds('job judged', judged, job_places(5), numbers)        # four changes do not make 50 levels in the Basin
    yield basin._replace(along=ALONG | FOUR_CHANGES)
    yield from on_grounds('job call', [*stored_cases.job_calls()], job_places(3), [])
    yield from on_grounds('shear call', calls, {'3': [0], '4': [0]}, BUILDING)
    yield Entry('distribution', [case for case in calls if not case.ground], job_places(MOST_LEVELS) | {'19': [0], '20': [0]},
                [*LEVELS, LISTS, *BUFFERS, *HANDED_IN])
    yield Entry('soil log', [*stored_cases.logs()],
                {'2': [0], '13, no layer': [0], '13, over 40': [0], **at_levels(MOST_LAYERS, '14, a layer'), '14, the sum': [0],
                 **at_levels(MOST_LAYERS, '15, kind', '15, value')}, LOG)
    sheet_places = {'17': [0], '16': [1, 2, 3, BETWEEN], **COUNTED, **at_levels(MOST_LEVELS, '3', '4')}
    for entry in on_grounds('sheet', [*stored_cases.sheets()], sheet_places, LEVELS + BYTES):
        yield entry._replace(cannot=CANNOT | NOT_ON_A_SHEET)
    yield from district_entries()
    yield from drift_entries()
