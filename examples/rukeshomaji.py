"""The core from Python, by ctypes. After examples/build.sh, from the project's root, the worked sheet:

    python3 examples/rukeshomaji.py

job, figures, basin_job, basin_figures, shear_call, basin_shear_call, distribution, district, drift, torsion, accidental_moments, site_class and sheet
take whole numbers in the units of include/rukeshomaji.h. A number that 64 bits do not hold, those of a drift's displacements with a sign, is an
OverflowError before anything is called, as ctypes would cut it (2**64 to 0, which of a calculated period means none). A refusal is raised as Refused,
with its number, place and text. A district raises what is refused of the whole call; a refused job of it has a row with number and place, and
Refused(row.number, row.place) says in words what they mean. The library is target/lib/librukeshomaji.so, or what RUKESHOMAJI_LIBRARY names.
"""

import ctypes
import itertools
import operator
import os
import pathlib
from collections import namedtuple

Site = namedtuple('Site', 'ssd s1d ssm s1m nad nvd nam nvm class_number')
Frame = namedtuple('Frame', 'kind calculated r i alpha_y')
Figures = namedtuple('Figures', 'v vm star vd t')
Job = namedtuple('Job', 'figures forces shears overturnings')
Storeys = namedtuple('Storeys', 'forces shears overturnings')
DistrictJob = namedtuple('DistrictJob', 'basin zone site frame start count')     # on_site and in_basin make one
Row = namedtuple('Row', 'number place v vm star vd t')
Report = namedtuple('Report', 'accepted refused sum by_v by_vm by_star cells')
District = namedtuple('District', 'rows report')
Moments = namedtuple('Moments', 'positive negative')

# kinds of layer
MEASURED = 1        # its value is a velocity in dm/s
COHESIVE = 2        # its value is N
COHESIONLESS = 3    # its value is N
SOFT_CLAY = 4       # its value is q, the unconfined compression strength in 0.01 kgf/cm²

MAJOR = 2
LEAST = 2_006_000
LONGEST = 4_610
CELLS = 113         # of a report; cell k counts jobs with V_D over W of 10*k to 10*k + 9 thousandths
TEXTS = {
    1: 'no level, or over 50',
    2: 'lists of unequal length, or a result buffer shorter than them',
    3: 'weight out of its range',
    4: 'height out of its range, or not above the one below',
    5: 'mapped value not in its table',
    6: 'near-fault factor out of its range',
    7: 'unknown site class',
    8: 'R out of its range',
    9: 'I not in its table',
    10: 'alpha-y out of its range',
    11: 'unknown kind of frame',
    12: 'calculated period out of its range',
    13: 'no layer, or over 40',
    14: 'thickness 0, or thicknesses that do not add up to 3,000 cm',
    15: 'unknown kind of layer, or value out of its range',
    16: 'line not as laid out',
    17: 'sheet over 4,096 bytes',
    18: 'zone not 1 to 4',
    19: 'base shear out of its range',
    20: 'period out of its range',
    21: 'stretch outside the store',
    22: 'over 256 jobs, lists of unequal length, or fewer rows than jobs',
    23: 'displacement above 1,000,000 in size, in 0.01 mm',
    24: 'limit not 1 to 10,000; 0.005 is 50',
    25: 'average 0 or above the largest',
    26: 'plan dimension not 1 to 5,000 dm',
}
OF_A_SHEAR_CALL = {3: 'total weight out of its range', 4: 'top height out of its range'}    # at place 0
PLACES = {
    3: 'level', 4: 'level', 5: ('S_S design', 'S_1 design', 'S_S MCE', 'S_1 MCE'), 6: ('N_A', 'N_V', 'N_A MCE', 'N_V MCE'),
    14: 'layer', 15: 'layer', 16: 'line', 23: 'level',
}

U64, I64 = ctypes.c_uint64, ctypes.c_int64
HELD = {U64: ('0 to 2**64 - 1', range(2 ** 64)), I64: ('-2**63 to 2**63 - 1', range(-2 ** 63, 2 ** 63))}     # by 64 bits without and with a sign
LIBRARY = os.environ.get('RUKESHOMAJI_LIBRARY') or pathlib.Path(__file__).resolve().parents[1] / 'target' / 'lib' / 'librukeshomaji.so'


class Refused(ValueError):
    """Bad data: number and place, and what the number means (docs/manual/refusals.md)."""

    def __init__(self, number, place):
        self.number, self.place, self.text = number, place, (TEXTS if place else TEXTS | OF_A_SHEAR_CALL)[number]
        names = PLACES.get(number, '')
        where = f' at {names} {place}' if isinstance(names, str) else f' at {names[place - 1]}'
        super().__init__(f"refusal {number}{where if place else ''}: {self.text}")


_core = ctypes.CDLL(str(LIBRARY))
_core.rukeshomaji_version.restype = U64
if _core.rukeshomaji_version() // 1_000_000 != MAJOR:
    raise ImportError(f'{LIBRARY} is of another major version than this module, {MAJOR}')
if _core.rukeshomaji_version() < LEAST:
    raise ImportError(f'{LIBRARY} is of version {_core.rukeshomaji_version()}; this module needs {LEAST} or a later one')
_list, _numbers, _signed_list = [ctypes.POINTER(U64), U64], ctypes.POINTER(U64), [ctypes.POINTER(I64), U64]
_core.rukeshomaji_job.argtypes = [_numbers, _numbers, *_list * 5, _numbers]
_core.rukeshomaji_figures.argtypes = [_numbers, _numbers, *_list * 2, _numbers]
_core.rukeshomaji_basin_job.argtypes = [U64, _numbers, *_list * 5, _numbers]
_core.rukeshomaji_basin_figures.argtypes = [U64, _numbers, *_list * 2, _numbers]
_core.rukeshomaji_shear_call.argtypes = [_numbers, _numbers, U64, U64, _numbers]
_core.rukeshomaji_basin_shear_call.argtypes = [U64, _numbers, U64, U64, _numbers]
_core.rukeshomaji_distribution.argtypes = [U64, U64, *_list * 5, _numbers]
_core.rukeshomaji_district.argtypes = [*_list * 4, _numbers]
_core.rukeshomaji_drift.argtypes = [*_list, *_signed_list, U64, *_list, _numbers]
_core.rukeshomaji_torsion.argtypes = [U64, U64, _numbers]
_core.rukeshomaji_accidental_moments.argtypes = [U64, U64, *_list * 2, U64, *_signed_list * 2, _numbers]
_core.rukeshomaji_site_class.argtypes = [*_list * 3, _numbers]
_core.rukeshomaji_sheet.argtypes = [ctypes.c_char_p, U64, ctypes.c_char_p, _numbers]
for _name in ('job', 'figures', 'basin_job', 'basin_figures', 'shear_call', 'basin_shear_call', 'distribution', 'district', 'drift', 'torsion',
              'accidental_moments', 'site_class', 'sheet', 'edition', 'source'):
    getattr(_core, f'rukeshomaji_{_name}').restype = U64


def _array(numbers, count=None, kind=U64):
    """Numbers as an array of 64-bit ones, without or with a sign: each must be whole, and fit."""
    numbers, (words, held) = [operator.index(each) for each in numbers], HELD[kind]
    for each in numbers:
        if each not in held:
            raise OverflowError(f'{each} is not a number of {words}')
    if count is not None and len(numbers) != count:
        raise TypeError(f'{count} numbers are wanted, {len(numbers)} are given')
    return (kind * len(numbers))(*numbers)


def _taken(number, reply):
    """What is answered after the place, or the refusal."""
    if number:
        raise Refused(number, reply[0])
    return list(reply)[1:]


def _over_levels(entry, first, second, weights, heights, reply):
    """What an entry that fills buffers answers after the place, and the three buffers."""
    weights, heights = _array(weights), _array(heights)
    cells = [(U64 * len(weights))() for _ in range(3)]
    number = entry(first, second, weights, len(weights), heights, len(heights), *(part for each in cells for part in (each, len(each))), reply)
    return _taken(number, reply), *map(list, cells)


def _job(entry, ground, frame, weights, heights):
    """A job on a site or in a zone, whichever the entry takes."""
    numbers, *storeys = _over_levels(entry, ground, _array(frame, 5), weights, heights, (U64 * 6)())
    return Job(Figures(*numbers), *storeys)


def _figures(entry, ground, frame, weights, heights):
    """The figures of such a job."""
    weights, heights, reply = _array(weights), _array(heights), (U64 * 6)()
    return Figures(*_taken(entry(ground, _array(frame, 5), weights, len(weights), heights, len(heights), reply), reply))


def _shear_call(entry, ground, frame, weight, height):
    """A shear call on a site or in a zone."""
    reply = (U64 * 6)()
    return Figures(*_taken(entry(ground, _array(frame, 5), *_array([weight, height]), reply), reply))


def job(site, frame, weights, heights):
    """The five figures, and the force, shear and overturning moment of each level, lowest first."""
    return _job(_core.rukeshomaji_job, _array(site, 9), frame, weights, heights)


def figures(site, frame, weights, heights):
    """The five figures alone."""
    return _figures(_core.rukeshomaji_figures, _array(site, 9), frame, weights, heights)


def basin_job(zone, frame, weights, heights):
    """What `job` gives, in a zone of the Taipei Basin, 1 to 4."""
    return _job(_core.rukeshomaji_basin_job, _array([zone])[0], frame, weights, heights)


def basin_figures(zone, frame, weights, heights):
    """The five figures alone, in a zone of the Taipei Basin."""
    return _figures(_core.rukeshomaji_basin_figures, _array([zone])[0], frame, weights, heights)


def shear_call(site, frame, weight, height):
    """The five figures of a building without levels: its total weight in kN and the height of its top in dm."""
    return _shear_call(_core.rukeshomaji_shear_call, _array(site, 9), frame, weight, height)


def basin_shear_call(zone, frame, weight, height):
    """What `shear_call` gives, in a zone of the Taipei Basin."""
    return _shear_call(_core.rukeshomaji_basin_shear_call, _array([zone])[0], frame, weight, height)


def distribution(base_shear, period, weights, heights):
    """The force, shear and overturning moment of each level, lowest first, of a base shear in N; a period in ms decides the roof force."""
    _, *storeys = _over_levels(_core.rukeshomaji_distribution, *_array([base_shear, period]), weights, heights, (U64 * 1)())
    return Storeys(*storeys)


def on_site(site, frame, start, count):
    """A job of a district on a site; its levels are so many of the store, from `start` on, counted from 0."""
    return DistrictJob(0, 0, site, frame, start, count)


def in_basin(zone, frame, start, count):
    """A job of a district in a zone of the Taipei Basin."""
    return DistrictJob(1, zone, Site(*[0] * 9), frame, start, count)


def district(jobs, weights, heights):
    """A row for each job, and the report of all; weights and heights are the store of levels that the jobs share."""
    numbers = [(basin, zone, *_array(site, 9), *_array(frame, 5), start, count) for basin, zone, site, frame, start, count in jobs]
    given, weights, heights, width = _array(itertools.chain.from_iterable(numbers)), _array(weights), _array(heights), len(Row._fields)
    rows, reply = (U64 * (width * len(numbers)))(), (U64 * (len(Report._fields) - 1 + CELLS))()
    number = _core.rukeshomaji_district(given, len(numbers), weights, len(weights), heights, len(heights), rows, len(numbers), reply)
    if number:
        raise Refused(number, 0)
    return District([Row(*rows[first:first + width]) for first in range(0, len(rows), width)], Report(*reply[:-CELLS], reply[-CELLS:]))


def drift(heights, displacements, limit):
    """For each storey, lowest first, whether its drift angle is within the limit.

    Heights of the levels above the base are in dm, displacements in 0.01 mm, each with its sign, the limit in ten-thousandths: 0.005 is 50.
    """
    heights, displacements, (limit,) = _array(heights), _array(displacements, kind=I64), _array([limit])
    verdicts, place = (U64 * len(heights))(), (U64 * 1)()
    _taken(_core.rukeshomaji_drift(heights, len(heights), displacements, len(displacements), limit, verdicts, len(verdicts), place), place)
    return [verdict == 1 for verdict in verdicts]


def torsion(largest, average):
    """The torsion factor of a floor in thousandths: 1086 means 1.086. It can be below 1: equal displacements give 695.

    The largest and the average displacement of the floor are in 0.01 mm, without a sign.
    """
    reply = (U64 * 2)()
    return _taken(_core.rukeshomaji_torsion(*_array([largest, average]), reply), reply)[0]


def accidental_moments(base_shear, period, weights, heights, dimension):
    """The accidental moment of each level, lowest first, once positive and once negative, in 0.01 N*dm: its force in N by `distribution` times five
    times the plan dimension.

    The base shear is in N, the period in ms, weights in kN, heights and the plan dimension in dm.
    """
    (base_shear, period, dimension), weights, heights = _array([base_shear, period, dimension]), _array(weights), _array(heights)
    positive, negative, place = (I64 * len(weights))(), (I64 * len(weights))(), (U64 * 1)()
    _taken(_core.rukeshomaji_accidental_moments(base_shear, period, weights, len(weights), heights, len(heights), dimension, positive, len(positive),
                                                negative, len(negative), place), place)
    return Moments(list(positive), list(negative))


def site_class(thicknesses, kinds, values):
    """1 hard, 2 normal, 3 soft, of layers by their thicknesses in cm, kinds and values."""
    lists, reply = [_array(each) for each in (thicknesses, kinds, values)], (U64 * 2)()
    return _taken(_core.rukeshomaji_site_class(*(part for each in lists for part in (each, len(each))), reply), reply)[0]


def sheet(data):
    """The listing of the bytes of a sheet, as open(path, 'rb').read() gives them."""
    data, listing, reply = bytes(memoryview(data)), ctypes.create_string_buffer(LONGEST), (U64 * 2)()
    length = _taken(_core.rukeshomaji_sheet(data, len(data), listing, reply), reply)[0]
    return listing.raw[:length]


def version():
    """Version of the library, edition of the code, source of the rules."""
    return _core.rukeshomaji_version(), _core.rukeshomaji_edition(), _core.rukeshomaji_source()


def main():
    """The worked sheet."""
    done = job(Site(80, 45, 100, 55, 100, 100, 100, 100, 1), Frame(2, 1000, 480, 100, 150), [5000] * 3, [100, 200, 300])
    print('base', *done.figures, sep='\t')
    for level in range(3, 0, -1):
        print('level', level, done.forces[level - 1], done.shears[level - 1], done.overturnings[level - 1], sep='\t')


if __name__ == '__main__':
    main()
