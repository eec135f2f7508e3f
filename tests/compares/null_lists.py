"""Lists and buffers that are NULL with 0, from C and from Python: each set of them, of each entry that takes one, against the model.

usage: python3 -m tests.compares.null_lists             builds the core, the program null_lists.c over it, and runs both
       python3 -m tests.compares.null_lists FILE        compares FILE, which null_lists.c wrote on an x86-64 machine, and calls nothing

A contract says nothing of such a pointer: to the core a list is a place and a length. It needs `rt`, `cc` and x86-64, or
RUKESHOMAJI_LIBRARY, a shared library of the core for the machine at hand.
"""

import ctypes
import pathlib
import subprocess
import sys
import tempfile

from tests.compares import core
from tests.model import accidental, calls, district, drift, job as jobs, limits, sheet, soil

SITE, FRAME = limits.one_pair(80, 45, 100, 55, 100, 100, 1), limits.Frame(2, 1000, 480, 100, 150)
LEVELS, BASE_SHEAR, PERIOD = 3, 1_071_429, 1_000
BASIN = limits.Basin(3)
JOB, FIGURES = ([5000] * LEVELS, [100, 200, 300], [7] * LEVELS, [8] * LEVELS, [9] * LEVELS), ([5000] * LEVELS, [100, 200, 300])
LIMIT, DIMENSION = 50, 200
ROW, OLD = len(district.Row._fields), 7
DISTRICT = [district.DistrictJob(basin, zone, SITE, FRAME, *stretch) for basin, zone, *stretch in ((0, 0, 0, 3), (1, BASIN.zone, 1, 2), (0, 0, 0, 0))]
LISTS = {
    'job': JOB, 'basin_job': JOB, 'figures': FIGURES, 'basin_figures': FIGURES, 'distribution': JOB,
    'district': (DISTRICT, *FIGURES, [OLD] * (ROW * LEVELS)),
    'drift': ([100, 200, 300], [5_001, 1, -4_999], [OLD] * LEVELS), 'accidental_moments': (*FIGURES, [-9] * LEVELS, [8] * LEVELS),
    'site_class': ([1000] * LEVELS, [1, 2, 3], [3000, 20, 40]),
    'sheet': (sheet.write(SITE, FRAME, [5000] * LEVELS, [100, 200, 300]),),
}


def chosen(lists, chosen_set):
    """The lists, those of the set as None."""
    return [None if chosen_set >> place & 1 else each for place, each in enumerate(lists)]


def job_line(result):
    """Number, place, figures."""
    return [*result[1:], 0, 0, 0, 0, 0] if result[0] == 'refused' else [0, 0, result.V, result.V_M, result.V_star, result.V_D, result.T]


def held_after(result):
    """Every cell of the three buffers."""
    cells = JOB[2:] if result[0] == 'refused' else (result.forces, result.shears, result.moments)
    return [cell for buffer in cells for cell in buffer]


def cells_after(result, old, written):
    """Number and place, and every cell of the buffers of an answer without figures."""
    refused = result[0] == 'refused'
    return [*(result[1:] if refused else (0, 0)), *(cell for buffer in (old if refused else written(result)) for cell in buffer)]


def ground_of(entry):
    """The ground that an entry is called with."""
    return BASIN if entry.startswith('basin_') else SITE


def by_model(entry, lists):
    """What the model answers: None is a list of nothing."""
    empty = [each if each is not None else type(old)() for each, old in zip(lists, LISTS[entry])]
    if entry.endswith('job'):
        result = jobs.job(ground_of(entry), FRAME, *empty[:2], tuple(map(len, empty[2:])))
        return [*job_line(result), *held_after(result)]
    if entry == 'distribution':
        result = calls.distribution(BASE_SHEAR, PERIOD, *empty[:2], tuple(map(len, empty[2:])))
        return [*(result[1:] if result[0] == 'refused' else (0, 0)), *held_after(result)]
    if entry.endswith('figures'):
        return job_line(jobs.job(ground_of(entry), FRAME, *empty, (len(empty[0]),) * 3))
    if entry == 'district':
        number, rows, report = district.district(*empty[:3], len(empty[3]) // ROW)
        written = [cell for row in rows for cell in row]
        return [number, *written, *[OLD] * (ROW * LEVELS - len(written)), *report[:-1], *report.cells]
    if entry == 'drift':
        return cells_after(drift.drift(*empty[:2], LIMIT, (len(empty[2]),)), LISTS[entry][2:], lambda result: [result.verdicts])
    if entry == 'accidental_moments':
        result = accidental.accidental(BASE_SHEAR, PERIOD, *empty[:2], DIMENSION, tuple(map(len, empty[2:])))
        return cells_after(result, LISTS[entry][2:], lambda result: [result.positive, result.negative])
    if entry == 'site_class':
        answer = soil.log(*empty)
        return [0, 0, answer.cls] if isinstance(answer, soil.Log) else [*answer[1:], 0]
    listing = sheet.shear(empty[0])
    refused = listing.split() if listing.startswith(b'refused') else (None, 0, 0)
    return [*map(int, refused[1:]), listing.hex()]


def lent(each, kind=core.U64):
    """A list as a pointer and its length, NULL and 0 for None."""
    return (None, 0) if each is None else core.lent(each, kind)


def district_by_ctypes(library, jobs, weights, heights, rows):
    """What the core answers to a district; rows that are not lent are as they were."""
    numbers = [each.numbers() for each in jobs or ()]
    given, (held, place, _), (array, reply) = (core.DistrictJob * len(numbers))(*numbers), core.lent_out(rows or ()), core.painted(core.Report)
    lent_rows = (None, 0) if rows is None else (ctypes.cast(place, ctypes.POINTER(core.Row)), len(rows) // ROW)
    number = library.rukeshomaji_district(None if jobs is None else given, len(numbers), *lent(weights), *lent(heights), *lent_rows, reply)
    return [number, *([OLD] * (ROW * LEVELS) if rows is None else core.cells_of(held)), *core.cells_of(array)]


def drift_by_ctypes(library, entry, lists):
    """What the core answers to drift or accidental moments; buffers that are not lent are as they were."""
    array, place, _ = core.lent_out([core.PAINT])
    kinds = (core.U64, core.I64, core.U64) if entry == 'drift' else (core.U64, core.U64, core.I64, core.I64)
    pairs = [lent(*each) for each in zip(lists, kinds)]
    first, rest = ([part for pair in some for part in pair] for some in (pairs[:2], pairs[2:]))
    if entry == 'drift':
        number = library.rukeshomaji_drift(*first, LIMIT, *rest, place)
    else:
        number = library.rukeshomaji_accidental_moments(BASE_SHEAR, PERIOD, *first, DIMENSION, *rest, place)
    held = [cell for (lent_to, _), old in zip(pairs[2:], LISTS[entry][2:]) for cell in (old if lent_to is None else lent_to)]
    return [*core.answer(number, array), *held]


def by_ctypes(library, entry, lists):
    """What the core answers to Python."""
    if entry in ('drift', 'accidental_moments'):
        return drift_by_ctypes(library, entry, lists)
    if entry == 'district':
        return district_by_ctypes(library, *lists)
    if entry == 'sheet':
        room, (array, reply) = ctypes.create_string_buffer(core.LONGEST), core.painted(core.Listing)
        *refused, length = core.answer(library.rukeshomaji_sheet(lists[0], len(lists[0] or b''), room, reply), array)
        return [*refused, room.raw[:length].hex()]
    pairs = [lent(each) for each in lists]
    arguments = [part for pair in pairs for part in pair]
    if entry == 'site_class':
        array, reply = core.painted(core.SiteClass)
        return list(core.answer(library.rukeshomaji_site_class(*arguments, reply), array))
    if entry == 'distribution':
        array, place, _ = core.lent_out([core.PAINT])
        number = library.rukeshomaji_distribution(BASE_SHEAR, PERIOD, *arguments, place)
    else:
        array, reply = core.painted(core.Figures)
        call, ground = core.entry_of(library, entry.removeprefix('basin_'), ground_of(entry))
        number = call(ground, core.Frame(*FRAME), *arguments, reply)
    held = [cell for (lent_to, _), old in zip(pairs[2:], LISTS[entry][2:]) for cell in (old if lent_to is None else lent_to)]
    return [*core.answer(number, array), *held]


def lines(answer):
    """One line a call: each set of the lists of each entry."""
    for entry, lists in LISTS.items():
        for number in range(2 ** len(lists)):
            yield f'{entry} {number}: ' + ' '.join(map(str, answer(entry, chosen(lists, number))))


def by_c():
    """What the core answers to the program in C."""
    with tempfile.TemporaryDirectory() as folder:
        program = pathlib.Path(folder) / 'null_lists'
        source, library = pathlib.Path(__file__).with_suffix('.c'), core.GIVEN or core.ARCHIVE
        subprocess.run(['cc', '-Wall', '-I', core.ROOT / 'include', '-o', program, source, library], check=True)
        return subprocess.run([program], check=True, capture_output=True, text=True).stdout.splitlines()


def main(stored=None):
    """Compare all, say how many; 1 where one differs."""
    expected, answers = list(lines(by_model)), {}
    if stored is None:
        core.build()
        library = core.load()
        answers = {'C': by_c(), 'Python': list(lines(lambda *call: by_ctypes(library, *call)))}
    else:
        answers = {stored: pathlib.Path(stored).read_text().splitlines()}
    wrong = 0
    for name, got in answers.items():
        differing = [(one, other) for one, other in zip(got, expected) if one != other]
        wrong += len(differing) + abs(len(got) - len(expected))
        for one, other in differing:
            print(f'DIFFERS from {name}: {one}, wanted {other}')
        print(f'{name}: {len(got)} calls, {len(expected)} wanted')
    print(wrong, 'differences')
    return 1 if wrong else 0


if __name__ == '__main__':
    sys.exit(main(*sys.argv[1:]))
