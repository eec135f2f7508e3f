"""The compiled core, by the archive that a program in C links.

RUKESHOMAJI_LIBRARY names a shared library to use in its place: one that was built elsewhere, or for another machine.
"""

import ctypes
import os
import pathlib
import platform
import subprocess
import sys

from tests.compares.structs import I64, U64, DistrictJob, Figures, Frame, Listing, Report, Row, Site, SiteClass, Torsion
from tests.model import limits

ROOT = pathlib.Path(__file__).resolve().parents[2]
CRATE = ROOT / 'crates' / 'linked'
ARCHIVE = CRATE / 'out' / 'liblinked.a'
SHARED = ROOT / 'target' / 'liblinked.so'
GIVEN = os.environ.get('RUKESHOMAJI_LIBRARY')
LONGEST = 4_610


def needs_x86_64():
    """End at once on another machine, unless a library was named."""
    if not GIVEN and platform.machine() not in ('x86_64', 'AMD64'):
        sys.exit(f'This needs an x86-64 machine, for which the core is compiled; this one is {platform.machine()}.')


def build():
    """Prove the core and write the archive, then a shared library of the same machine code."""
    needs_x86_64()
    if GIVEN:
        return
    print('proving and building the core, which takes minutes where it has changed', file=sys.stderr, flush=True)
    subprocess.run(['rt', 'lib'], cwd=CRATE, check=True, stdout=subprocess.DEVNULL)
    SHARED.parent.mkdir(exist_ok=True)
    subprocess.run(['cc', '-shared', '-o', SHARED, '-Wl,--whole-archive', ARCHIVE, '-Wl,--no-whole-archive'], check=True)


def load():
    """The functions, with their types."""
    needs_x86_64()
    library = ctypes.CDLL(GIVEN or str(SHARED))
    slices, signed = ([ctypes.POINTER(kind), U64] for kind in (U64, I64))
    for ground, kind in (('', ctypes.POINTER(Site)), ('basin_', U64)):
        for name, lists in (('job', 5), ('figures', 2)):
            entry = getattr(library, f'rukeshomaji_{ground}{name}')
            entry.argtypes = [kind, ctypes.POINTER(Frame), *slices * lists, ctypes.POINTER(Figures)]
        entry = getattr(library, f'rukeshomaji_{ground}shear_call')
        entry.argtypes = [kind, ctypes.POINTER(Frame), U64, U64, ctypes.POINTER(Figures)]
    library.rukeshomaji_distribution.argtypes = [U64, U64, *slices * 5, ctypes.POINTER(U64)]
    library.rukeshomaji_site_class.argtypes = [*slices * 3, ctypes.POINTER(SiteClass)]
    library.rukeshomaji_sheet.argtypes = [ctypes.c_char_p, U64, ctypes.c_char_p, ctypes.POINTER(Listing)]
    library.rukeshomaji_district.argtypes = [ctypes.POINTER(DistrictJob), U64, *slices * 2, ctypes.POINTER(Row), U64, ctypes.POINTER(Report)]
    library.rukeshomaji_drift.argtypes = [*slices, *signed, U64, *slices, ctypes.POINTER(U64)]
    library.rukeshomaji_torsion.argtypes = [U64, U64, ctypes.POINTER(Torsion)]
    library.rukeshomaji_accidental_moments.argtypes = [U64, U64, *slices * 2, U64, *signed * 2, ctypes.POINTER(U64)]
    for name in ('job', 'figures', 'basin_job', 'basin_figures', 'shear_call', 'basin_shear_call', 'distribution', 'site_class', 'sheet',
                 'district', 'drift', 'torsion', 'accidental_moments', 'version', 'edition', 'source'):
        getattr(library, f'rukeshomaji_{name}').restype = U64
    return library


def lent(numbers, kind=U64):
    """A slice of u64, or of i64, as a pointer and a length."""
    return (kind * len(numbers))(*numbers), len(numbers)


GUARD = 8
PAINT = 0xA5A5A5A5A5A5A5A5


def lent_out(cells, kind=U64):
    """Cells in the middle of a longer array, and what says whether anything beside them was written."""
    paint = [kind(PAINT).value] * GUARD
    array = (kind * (len(cells) + 2 * GUARD))(*paint, *cells, *paint)
    return array, ctypes.cast(ctypes.byref(array, GUARD * ctypes.sizeof(kind)), ctypes.POINTER(kind)), len(cells)


def cells_of(array):
    """What the cells hold after; None where something beside them was written."""
    numbers = list(array)
    beside = numbers[:GUARD] + numbers[len(numbers) - GUARD:]
    return numbers[GUARD:len(numbers) - GUARD] if {U64(each).value for each in beside} == {PAINT} else None


def numbers_of(struct):
    """The fields of a struct, in order."""
    return tuple(getattr(struct, name) for name, _ in struct._fields_)


def painted(kind):
    """A struct to be answered through, between guards, all cells painted: a field that is not written, or one beside it that is, shows."""
    cells = ctypes.sizeof(kind) // ctypes.sizeof(U64) + 2 * GUARD
    array = (U64 * cells)(*[PAINT] * cells)
    return array, ctypes.cast(ctypes.byref(array, GUARD * ctypes.sizeof(U64)), ctypes.POINTER(kind))


def answer(number, array):
    """The number that was returned, and the fields; None where something beside them was written."""
    cells = cells_of(array)
    return None if cells is None else (number, *cells)


def entry_of(library, name, ground):
    """The entry for a ground, and the ground as it takes it: a zone by value, a site through a pointer."""
    if isinstance(ground, limits.Basin):
        return getattr(library, f'rukeshomaji_basin_{name}'), ground.zone
    return getattr(library, f'rukeshomaji_{name}'), Site(*limits.ground_of(ground))


def job(library, ground, frame, weights, heights, buffers):
    """(number, place, V, V_M, V*, V_D, T), what the three buffers hold after, and whether what is only read is as it was."""
    out, (entry, given), line = [lent_out(each) for each in buffers], entry_of(library, 'job', ground), Frame(*frame)
    lists, (array, reply) = [lent(weights), lent(heights)], painted(Figures)
    number = entry(given, line, *lists[0], *lists[1], *(part for _, pointer, length in out for part in (pointer, length)), reply)
    read = [numbers_of(given) if isinstance(given, Site) else (given,), numbers_of(line), *(list(each) for each, _ in lists)]
    same = read == [tuple(limits.ground_of(ground)), tuple(frame), list(weights), list(heights)]
    return answer(number, array), [cells_of(each) for each, _, _ in out], same


def figures(library, ground, frame, weights, heights):
    """(number, place, V, V_M, V*, V_D, T), without buffers."""
    (array, reply), (entry, given) = painted(Figures), entry_of(library, 'figures', ground)
    return answer(entry(given, Frame(*frame), *lent(weights), *lent(heights), reply), array)


def shear_call(library, ground, frame, weight, height):
    """(number, place, V, V_M, V*, V_D, T), and whether what is only read is as it was."""
    (array, reply), (entry, given), line = painted(Figures), entry_of(library, 'shear_call', ground), Frame(*frame)
    number = entry(given, line, weight, height, reply)
    read = numbers_of(given) if isinstance(given, Site) else (given,), numbers_of(line)
    return answer(number, array), read == (tuple(limits.ground_of(ground)), tuple(frame))


def distribution(library, base_shear, period, weights, heights, buffers):
    """(number, place), what the three buffers hold after, and whether what is only read is as it was."""
    out, lists, (array, place, _) = [lent_out(each) for each in buffers], [lent(weights), lent(heights)], lent_out([PAINT])
    slices = (part for _, pointer, length in out for part in (pointer, length))
    number = library.rukeshomaji_distribution(base_shear, period, *lists[0], *lists[1], *slices, place)
    same = [list(each) for each, _ in lists] == [list(weights), list(heights)]
    return answer(number, array), [cells_of(each) for each, _, _ in out], same


def site_class(library, thicknesses, kinds, values):
    """(number, place, class)"""
    array, reply = painted(SiteClass)
    return answer(library.rukeshomaji_site_class(*lent(thicknesses), *lent(kinds), *lent(values), reply), array)


def sheet(library, data):
    """(number, place, length), what the lent bytes hold up to that length, and whether all other bytes, and those beside, are as they were."""
    array, reply = painted(Listing)
    held = bytes(range(1, 252)) * 20
    room = ctypes.create_string_buffer(held, len(held))
    place = ctypes.cast(ctypes.byref(room, GUARD), ctypes.c_char_p)
    said = answer(library.rukeshomaji_sheet(data, len(data), place, reply), array)
    length = said[2] if said else 0
    rest = room.raw[:GUARD] + room.raw[GUARD + length:] == held[:GUARD] + held[GUARD + length:]
    return said, room.raw[GUARD:GUARD + length], rest and length <= LONGEST


def district(library, jobs, weights, heights, rows):
    """The number, what the rows hold after and the report, and whether what is only read is as it was; a job and a row are their numbers, and None
    stands for rows or a report beside which something was written."""
    given, lists = (DistrictJob * len(jobs))(*jobs), [lent(weights), lent(heights)]
    (held, place, _), (array, reply) = lent_out([cell for row in rows for cell in row]), painted(Report)
    number = library.rukeshomaji_district(given, len(jobs), *lists[0], *lists[1], ctypes.cast(place, ctypes.POINTER(Row)), len(rows), reply)
    same = [numbers_of(job) for job in given] == jobs and [list(each) for each, _ in lists] == [list(weights), list(heights)]
    cells, width = cells_of(held), len(Row._fields_)
    after = cells if cells is None else [tuple(cells[first:first + width]) for first in range(0, len(cells), width)]
    return (number, after, cells_of(array)), same


def drift(library, heights, displacements, limit, verdicts):
    """(number, place), what the verdicts hold after, and whether what is only read is as it was."""
    out, lists, (array, place, _) = lent_out(verdicts), [lent(heights), lent(displacements, I64)], lent_out([PAINT])
    number = library.rukeshomaji_drift(*lists[0], *lists[1], limit, *out[1:], place)
    same = [list(each) for each, _ in lists] == [list(heights), list(displacements)]
    return answer(number, array), [cells_of(out[0])], same


def torsion(library, largest, average):
    """(number, place, factor)"""
    array, reply = painted(Torsion)
    return answer(library.rukeshomaji_torsion(largest, average, reply), array)


def accidental_moments(library, base_shear, period, weights, heights, dimension, buffers):
    """(number, place), what the positive and the negative buffer hold after, and whether what is only read is as it was."""
    out, lists, (array, place, _) = [lent_out(each, I64) for each in buffers], [lent(weights), lent(heights)], lent_out([PAINT])
    slices = (part for _, pointer, length in out for part in (pointer, length))
    number = library.rukeshomaji_accidental_moments(base_shear, period, *lists[0], *lists[1], dimension, *slices, place)
    same = [list(each) for each, _ in lists] == [list(weights), list(heights)]
    return answer(number, array), [cells_of(each) for each, _, _ in out], same
