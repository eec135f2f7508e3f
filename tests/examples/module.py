"""The module for Python, examples/rukeshomaji.py: what it answers, refuses and does not call."""

import contextlib
import importlib.util
import re

from tests.examples.districts import districts
from tests.examples.drifts import drifts
from tests.examples.places import EXAMPLES, ROOT
from tests.examples.refusals import FRAME, HEIGHTS, SITE, WEIGHTS, refusals
from tests.model import calls, soil
from tests.writes.logs import BORING, MADE_UP

OF_A_ROW = 21           # is raised by no call
NEAR_FAULT, FASTER = (*SITE[:4], 112, 123, 118, 136, 1), (2, 500, *FRAME[2:])     # those of examples/near_fault.sheet


def module():
    """examples/rukeshomaji.py"""
    spec = importlib.util.spec_from_file_location('rukeshomaji', EXAMPLES / 'rukeshomaji.py')
    loaded = importlib.util.module_from_spec(spec)
    spec.loader.exec_module(loaded)
    return loaded


def raises(kind, function, *arguments):
    """The error of that kind, or None."""
    with contextlib.suppress(Exception):
        try:
            function(*arguments)
        except kind as error:
            return error
    return None


def listed(done):
    """A job as its listing."""
    lines = [('base', *done.figures)]
    levels = list(zip(done.forces, done.shears, done.overturnings))
    lines += [('level', level, *levels[level - 1]) for level in range(len(levels), 0, -1)]
    return ''.join('\t'.join(map(str, line)) + '\n' for line in lines).encode()


def in_two_calls(core):
    """The listing of the worked sheet by a shear call and a distribution."""
    figures = core.shear_call(SITE, FRAME, sum(WEIGHTS), HEIGHTS[-1])
    return listed(core.Job(figures, *core.distribution(figures.vd, figures.t, WEIGHTS, HEIGHTS)))


def jobs(core):
    """Jobs, near a fault and in the Basin, and their figures alone."""
    yield 'the same figures alone', core.figures(SITE, FRAME, WEIGHTS, HEIGHTS) == core.job(SITE, FRAME, WEIGHTS, HEIGHTS).figures
    yield 'a job near a fault', listed(core.job(NEAR_FAULT, FASTER, WEIGHTS, HEIGHTS)) == (EXAMPLES / 'near_fault.listing').read_bytes()
    yield 'a job in the Basin', listed(core.basin_job(1, FRAME, WEIGHTS, HEIGHTS)) == (EXAMPLES / 'basin.listing').read_bytes()
    yield from ((f'the figures of zone {zone} alone', core.basin_figures(zone, FRAME, WEIGHTS, HEIGHTS)
                 == core.basin_job(zone, FRAME, WEIGHTS, HEIGHTS).figures) for zone in (1, 2, 3, 4))


def two_calls(core):
    """The shear call and the distribution."""
    yield 'a job from the two calls', in_two_calls(core) == (EXAMPLES / 'office.listing').read_bytes()
    yield from ((f'the shear call of zone {zone}', core.basin_shear_call(zone, FRAME, sum(WEIGHTS), HEIGHTS[-1])
                 == core.basin_figures(zone, FRAME, WEIGHTS, HEIGHTS)) for zone in (1, 2, 3, 4))
    yield from ((f'a base shear of {base_shear} N at {period} ms', core.distribution(base_shear, period, WEIGHTS, HEIGHTS)
                 == calls.distribution(base_shear, period, WEIGHTS, HEIGHTS)[5:]) for base_shear in (1, 964_287, 1_200_000_000)
                for period in (0, 700, 701, 3_571, 3_572, 9_999))
    yield 'a total weight', 'total weight out' in str(raises(core.Refused, core.shear_call, SITE, FRAME, 0, 300))
    yield 'a top height', 'top height out' in str(raises(core.Refused, core.shear_call, SITE, FRAME, 15_000, 2_001))


def logs(core):
    """Soil logs."""
    yield 'a soil log', core.site_class([1000, 1000, 1000], [1, 2, 3], [3000, 20, 40]) == 1
    yield 'a boring in soft clay', core.site_class(*BORING) == soil.log(*BORING).cls == 3
    yield 'the same with N = 2 made up', core.site_class(*MADE_UP) == soil.log(*MADE_UP).cls == 2
    kinds = (core.MEASURED, core.COHESIVE, core.COHESIONLESS, core.SOFT_CLAY)
    yield 'the kinds of layer', kinds == tuple(soil.VALUE)
    for q in soil.VALUE[soil.SOFT_CLAY]:
        yield f'soft clay, q = {q}', core.site_class([3000], [core.SOFT_CLAY], [q]) == soil.log([3000], [soil.SOFT_CLAY], [q]).cls


def sheet_and_version(core):
    """A sheet, and what the header says of the version."""
    yield 'a sheet', core.sheet((EXAMPLES / 'tall_frame.sheet').read_bytes()) == (EXAMPLES / 'tall_frame.listing').read_bytes()
    header = (ROOT / 'include' / 'rukeshomaji.h').read_text()
    numbers = tuple(int(re.search(rf'_{name} (\d+)', header)[1]) for name in ('VERSION', 'EDITION', 'SOURCE'))
    yield 'version, edition and source', core.version() == numbers


def every_refusal(core):
    """Each refusal, by its number, its place and its words."""
    seen = set()
    for number, place, (function, arguments) in refusals(core):
        error = raises(core.Refused, function, *arguments)
        seen.add(number)
        yield f'refusal {number} at {place}', error and (error.number, error.place) == (number, place) and error.text in str(error)
    yield 'every refusal', seen | {OF_A_ROW} == set(core.TEXTS) == set(range(1, 27))


def of_another_kind(core):
    """Numbers at and beyond the end of 64 bits, and what is no whole number or no site."""
    for number in (2 ** 64, 2 ** 64 + 1000, -1):
        yield f'a calculated period of {number}', raises(OverflowError, core.job, SITE, (2, number, 480, 100, 150), WEIGHTS, HEIGHTS)
        yield f'a weight of {number}', raises(OverflowError, core.figures, SITE, FRAME, [5000, number, 5000], HEIGHTS)
        yield f'a zone of {number}', raises(OverflowError, core.basin_job, number, FRAME, WEIGHTS, HEIGHTS)
        yield f'a total weight of {number}', raises(OverflowError, core.shear_call, SITE, FRAME, number, 300)
        yield f'a top height of {number}', raises(OverflowError, core.basin_shear_call, 1, FRAME, 15_000, number)
        yield f'a base shear of {number}', raises(OverflowError, core.distribution, number, 1000, WEIGHTS, HEIGHTS)
        yield f'a period of {number}', raises(OverflowError, core.distribution, 1_071_429, number, WEIGHTS, HEIGHTS)
        yield f'a value of {number}', raises(OverflowError, core.site_class, [3000], [2], [number])
        yield f'a start of {number}', raises(OverflowError, core.district, [core.on_site(SITE, FRAME, number, 3)], WEIGHTS, HEIGHTS)
        yield f'a zone of {number} in a district', raises(OverflowError, core.district, [core.in_basin(number, FRAME, 0, 3)], WEIGHTS, HEIGHTS)
        yield f'a height of {number} in a drift', raises(OverflowError, core.drift, [number], [0], 50)
        yield f'a limit of {number}', raises(OverflowError, core.drift, [100], [0], number)
        yield f'a largest displacement of {number}', raises(OverflowError, core.torsion, number, 1)
        yield f'an average displacement of {number}', raises(OverflowError, core.torsion, 1, number)
        yield f'a dimension of {number}', raises(OverflowError, core.accidental_moments, 1_071_429, 1000, WEIGHTS, HEIGHTS, number)
    for number in (2 ** 63, -2 ** 63 - 1, 2 ** 64):
        yield f'a displacement of {number}', raises(OverflowError, core.drift, [100], [number], 50)
    yield 'a displacement of 1.0', raises(TypeError, core.drift, [100], [1.0], 50)
    yield 'the largest number of 64 bits', raises(core.Refused, core.figures, SITE, (2, 2 ** 64 - 1, 480, 100, 150), WEIGHTS, HEIGHTS)
    yield 'a zone of 1.0', raises(TypeError, core.basin_figures, 1.0, FRAME, WEIGHTS, HEIGHTS)
    yield 'an R of 4.8', raises(TypeError, core.job, SITE, (2, 1000, 4.8, 100, 150), WEIGHTS, HEIGHTS)
    for count in (6, 7, 8, 10):
        yield f'a site of {count} numbers', raises(TypeError, core.job, (*SITE, 1)[:count], FRAME, WEIGHTS, HEIGHTS)
        yield f'a site of {count} numbers in a district', raises(TypeError, core.district, [core.on_site((*SITE, 1)[:count], FRAME, 0, 3)], WEIGHTS, HEIGHTS)
    yield 'a Site of seven numbers', raises(TypeError, core.Site, *SITE[:7])


def run_module(core):
    """What the module answers, refuses and does not call."""
    for check in (jobs, two_calls, districts, drifts, logs, sheet_and_version, every_refusal, of_another_kind):
        yield from check(core)
