"""A whole district in one call (Wish 9) as the manual shows it: the made-up district of a hundred sheets, a row and its cell by hand, edges, ties, a city.

What the page says in words is asserted here of the model.
"""

import re
from fractions import Fraction
from math import ceil

from tests.compares.said import of_sheets
from tests.model import district, limits, sheet, sheets
from tests.writes import hundred_sheets as hundred
from tests.writes.by_hand.ground import CLASS_NAMES
from tests.writes.by_hand.text import code, comma, decimal, hundredths, same, table
from tests.writes.by_hand.worked import read
from tests.writes.five_jobs import cell_words, district_lines, in_c, jobs_table

SHOWN = (1, 2, 3, hundred.DAMAGED, hundred.EDGE, hundred.SMALLEST, hundred.BAD_R, hundred.LARGEST, hundred.BAD_WEIGHT, 100)      # rows of the page
CITY, MOST_OF, CELL = 1_000_000, (70, 180), district.CELL           # buildings; thousandths between which most sheets are
KIND_NAMES = {1: 'steel', 2: 'RC or SRC', 3: 'eccentrically braced', 4: 'other'}


def answers():
    """The answers to the hundred sheets, by their numbers."""
    data = hundred.SHEETS.read_bytes()
    assert data == hundred.file_of_sheets() and hundred.LISTING.read_bytes() == sheets.listing(data)
    every = dict(enumerate(map(sheets.answer, sheets.parts(data)), 1))
    refused = {number: tuple(each.row[:2]) for number, each in every.items() if each.row.number}
    assert refused == {hundred.DAMAGED: (16, 4), hundred.BAD_R: (8, 0), hundred.BAD_WEIGHT: (3, 2)}
    assert len(every) == 100 and max(len(part) for part in hundred.hundred()) <= sheet.MOST_BYTES
    return every


def lines_of(word):
    """The lines of the stored listing that begin with a word."""
    return [line for line in hundred.LISTING.read_text().split('\n') if line.startswith(f'{word}\t')]


def ground_words(ground):
    """A ground in words."""
    if isinstance(ground, limits.Basin):
        return f'zone {ground.zone} of the Taipei Basin'
    pairs = 'two pairs of near-fault factors' if limits.of_two_pairs(ground) else 'near-fault factors' if ground.NA > 100 else ''
    return f'class {ground.cls}, {CLASS_NAMES[ground.cls]}{", " + pairs if pairs else ""}'


def blocks_table():
    """Ten sheets a row: line 1, the ground, kinds of frame, levels and weights."""
    rows, own = [], {hundred.SMALLEST, hundred.LARGEST}
    for block, (ground, _) in enumerate(hundred.BLOCKS):
        numbers = range(hundred.OF_BLOCK * block + 1, hundred.OF_BLOCK * (block + 1) + 1)
        jobs = [hundred.made().get(number, hundred.building(number)) for number in numbers]
        assert all((job[0] == ground) == (number not in own) for number, job in zip(numbers, jobs))
        kinds, levels, total = {job[1].kind for job in jobs}, [len(job[2]) for job in jobs], [sum(job[2]) for job in jobs]
        line = ' '.join(map(str, sheet.first_line(ground)))
        rows.append((f'{numbers[0]} to {numbers[-1]}', f'`{line}`', ground_words(ground), ', '.join(KIND_NAMES[kind] for kind in sorted(kinds)),
                     f'{min(levels)} to {max(levels)}', f'{comma(min(total))} to {comma(max(total))}'))
    return table(('sheets', 'line 1', 'ground', 'frames', 'levels', 'W, kN'), rows)


def sheets_names(every):
    """The sheets, some of their rows, and what is wrong with three of them."""
    rows, shown = lines_of('row'), []
    assert len(rows) == len(every) == SHOWN[-1]
    for before, number in zip((0, *SHOWN), SHOWN):
        shown += ['…'] * (number != before + 1) + [rows[number - 1]]
    lines = [part.decode().split('\n') for part in hundred.hundred()]
    R, weight, meant = lines[hundred.BAD_R - 1][1].split('\t')[3], lines[hundred.BAD_WEIGHT - 1][3].split('\t')[1], hundred.building(hundred.BAD_R)[1].R
    assert '.' in lines[hundred.DAMAGED - 1][3] and int(weight) > limits.WEIGHT[-1] and int(R) * 10 == meant
    said = list(of_sheets(hundred.hundred(), [each.row for each in every.values()]))
    return {'blocks_table': blocks_table(), 'rows': code(shown), 'said': code(said), 'damaged': str(hundred.DAMAGED), 'bad_R': str(hundred.BAD_R),
            'bad_weight': str(hundred.BAD_WEIGHT), 'R_typed': R, 'R_meant': str(meant), 'weight_typed': comma(int(weight)),
            **own_lines(lines)}


def own_lines(lines):
    """Line 1 of the two sheets that have a site of their own: the lowest mapped values, and the largest near-fault factors."""
    (smallest, *_), (largest, *_) = (hundred.made()[number] for number in (hundred.SMALLEST, hundred.LARGEST))
    assert smallest[:4] == tuple(values[0] for values in (limits.S_S_DESIGN, limits.S_1_DESIGN, limits.S_S_MCE, limits.S_1_MCE))
    assert largest[4:8] == (limits.N_A[-1], limits.N_V[-1]) * 2
    return {name: lines[number - 1][0].replace('\t', ' ') for name, number in (('smallest_line', hundred.SMALLEST), ('largest_line', hundred.LARGEST))}


def report_names(every):
    """The report, its cells, and that the reports of two parts add up to it."""
    report, (line,) = district.report(every.values()), lines_of('report')
    assert line.split('\t')[1:] == list(map(str, report[:-1])) and district.adds_up([each.row for each in every.values()], report)
    parts = [district.report(list(every.values())[part]) for part in (slice(0, 50), slice(50, 100))]
    assert [sum(pair) for pair in zip(*([*part[:-1], *part.cells] for part in parts))] == [*report[:-1], *report.cells]
    most, shown = max(report.cells), [line for line in lines_of('cell') if int(line.split('\t')[3])]
    assert report.cells.count(most) == 1
    between = sorted(district.thousandths(row.V_D, W) for row, W in every.values() if not row.number)[1:-1]
    assert 3 * sum(each in range(*MOST_OF) for each in between) > 2 * len(between)
    return {'report': code([line]), 'accepted': str(report.accepted), 'refused': str(report.refused), 'total': comma(report.total),
            'total_MN': decimal(Fraction(report.total, 10**6)), 'by_V': str(report.by_V), 'by_V_M': str(report.by_V_M), 'by_star': str(report.by_star),
            'cells': code([*shown[:4], '…', *shown[-3:]]), 'full_cells': str(len(shown)), 'fullest': cell_words(CELL * report.cells.index(most), 1),
            'most_sheets': str(most), 'from_low': str(between[0] // CELL * CELL), 'to_high': str((between[-1] // CELL + 1) * CELL),
            'most_from': str(MOST_OF[0]), 'most_to': str(MOST_OF[1])}


def down(exact, wanted):
    """A number and what it is rounded down to, which must be the model's."""
    whole = same(exact.numerator // exact.denominator, wanted)
    return whole if exact == wanted else f'{decimal(exact)}, down: {whole}'


def cell_lines(row, W):
    """The cell of a row, step by step."""
    thousandths, cell = district.thousandths(row.V_D, W), district.cell_of(row.V_D, W)
    return [f'V_D / W = {comma(row.V_D)} / {comma(W)} = {down(Fraction(row.V_D, W), thousandths)} thousandths',
            f'{thousandths} / {CELL} = {down(Fraction(thousandths, CELL), cell)}: the cell from {cell_words(row.V_D, W)}']


def office_names(every):
    """The row of the worked sheet and its cell."""
    office, (row, W) = read(sheets.parts(hundred.SHEETS.read_bytes())[hundred.OFFICE - 1]), every[hundred.OFFICE]
    assert (office.V, office.V_M, office.V_star, office.V_D, office.T) == row[2:] and sum(office.weights) == W
    assert office.V < office.V_D > office.V_M and district.governing(row) == 'V_star'
    thousandths = district.thousandths(row.V_D, W)
    steps = [f'W = {" + ".join(map(comma, office.weights))} = {comma(W)} kN', *cell_lines(row, W)]
    return {'office_cell': code(steps), 'office_thousandths': str(thousandths), 'office_percent': decimal(Fraction(thousandths, 10))}


def edge_names(every):
    """A row on the edge of a cell, the largest and the smallest V_D over W."""
    edge, most, least = (every[number] for number in (hundred.EDGE, hundred.LARGEST, hundred.SMALLEST))
    V_D, W = edge.row.V_D, edge.W
    assert V_D % W == 0 and V_D // W % CELL == 0 and district.cell_of(V_D - 1, W) == district.cell_of(V_D, W) - 1
    assert district.cell_of(most.row.V_D, most.W) == district.CELLS - 1
    assert least.row.V_D * CITY // least.W == min(row.V_D * CITY // W for row, W in every.values() if not row.number)
    site, frame, *_ = hundred.made()[hundred.LARGEST]
    assert site.NA == site.NAM
    return {'edge': str(hundred.EDGE), 'edge_cell': code(cell_lines(*edge)), 'edge_W': comma(W), 'below_V_D': comma(V_D - 1),
            'below': decimal(Fraction(V_D - 1, W)), 'below_words': cell_words(V_D - 1, W), 'largest': str(hundred.LARGEST),
            'most': comma(district.thousandths(most.row.V_D, most.W)), 'most_words': cell_words(most.row.V_D, most.W), 'smallest': str(hundred.SMALLEST),
            'least': str(district.thousandths(least.row.V_D, least.W)), 'largest_R': hundredths(frame.R), 'largest_I': hundredths(frame.I),
            'largest_alphay': hundredths(frame.alphay), 'largest_NA': hundredths(site.NA), 'least_shear': least_shear()}


def least_shear():
    """V* of 1 kN with the least p of a site, as the page on the sheet works it out."""
    said = re.search(r' = ([\d.]+…), rounded up', (hundred.ROOT / 'docs' / 'manual' / 'sheet.md').read_text())
    return said[1]


def tie_names(every):
    """Rows with two shears that are V_D, all of them V and V*."""
    tied = [number for number, (row, _) in every.items() if not row.number and (row.V, row.V_M, row.V_star).count(row.V_D) > 1]
    assert hundred.TIED in tied and all(every[number].row.V == every[number].row.V_star > every[number].row.V_M for number in tied)
    ground, frame, *levels = hundred.made()[hundred.TIED]
    assert (ground, frame._replace(R=hundred.WORKED[1].R), *levels) == hundred.WORKED
    return {'tied': str(hundred.TIED), 'tied_V_D': comma(every[hundred.TIED].row.V_D), 'ties': str(len(tied)), 'tied_R': hundredths(frame.R)}


def limits_names():
    """The limits of a call and of a file, and the calls of a city."""
    most, calls = district.MOST_JOBS * 1_125 * limits.TOTAL_WEIGHT[-1], ceil(Fraction(CITY, district.MOST_JOBS))
    assert sheets.MOST_BYTES == district.MOST_JOBS * (sheet.MOST_BYTES + 1) and most < 2**64
    return {'most_jobs': str(district.MOST_JOBS), 'most_bytes': comma(sheets.MOST_BYTES), 'cell_count': str(district.CELLS),
            'bytes_steps': f'{district.MOST_JOBS} · ({comma(sheet.MOST_BYTES)} + 1) = {comma(sheets.MOST_BYTES)}', 'sheet_bytes': comma(sheet.MOST_BYTES),
            'last_cell': f'{comma(CELL * (district.CELLS - 1))} to {comma(CELL * district.CELLS - 1)}', 'city': comma(CITY),
            'call_steps': f'{comma(CITY)} / {district.MOST_JOBS} = {decimal(Fraction(CITY, district.MOST_JOBS))}, up: {comma(calls)}',
            'most_sum': comma(most), 'calls_held': str(2**64 // most // 10**6), 'next_sheet': str(district.MOST_JOBS + 1), 'levels': str(limits.LEVELS[-1]), 'outside': str(district.OUTSIDE), 'whole': str(district.WHOLE)}


def names():
    """What the page names."""
    every = answers()
    return {'jobs_table': jobs_table(), 'in_c': in_c(), 'printed': code(district_lines()), **sheets_names(every), **report_names(every), **office_names(every),
            **edge_names(every), **tie_names(every), **limits_names()}
