"""Pictures of V, V_M, V* and V_D as bars, a group a job: the site classes, and pairs of near-fault factors."""

from fractions import Fraction

from tests.model import limits, site as sites
from tests.model.job import job
from tests.writes.by_hand.ground import CLASS_NAMES
from tests.writes.pictures.drawing import BLUE, GREEN, RED, Axes, Picture, decimal
from tests.writes.pictures.sheets import NEAR_FAULT, SHEET

WIDTH = 276             # of a group


def sheet_numbers(path):
    """The numbers of a sheet's site line, of its frame line, and its weights and heights."""
    site, frame, *levels = [tuple(map(int, line.split('\t')[1:])) for line in path.read_text().splitlines()]
    return site, frame, *(list(each) for each in zip(*levels))


def bars(axes, left, result):
    """V, V_M and V* of a job, the one that governs dark."""
    for place, (label, newtons, colour) in enumerate((('V', result.V, BLUE), ('V_M', result.V_M, GREEN), ('V*', result.V_star, RED))):
        x, (_, y) = left + 16 + 84 * place, axes.point(0, newtons)
        governs = newtons == result.V_D
        axes.picture.bar(x, y, 76, axes.bottom - y, colour, '' if governs else '0.35')
        axes.picture.words(x + 38, axes.bottom + 24, label, anchor='middle')
        axes.picture.words(x + 38, y - 8, f'{newtons:,}', size=15, anchor='middle', weight='bold' if governs else '')
        if governs:
            axes.picture.words(x + 38, y - 26, f'{label} = V_D', size=15, anchor='middle', weight='bold')


def groups_of_shears(title, heading, most, groups):
    """V, V_M and V* of some jobs, three bars a job; groups are (what stands below in lines, the job)."""
    below, right = max(len(lines) for lines, _ in groups), 130 + WIDTH * len(groups)
    picture = Picture(right + 20, 608 + 22 * (below - 1), title)
    picture.heading(130, heading)
    picture.words(130, 64, 'The dark bar governs: V_D is the largest of V, V_M and V*.', size=16)
    axes = Axes(picture, (130, 90, right, 530), len(groups), most)
    axes.frame('', '', [], [(each, f'{each:,}') for each in range(0, most + 1, 500_000)])
    picture.words(24, 310, 'base shear (N)', anchor='middle', turned=True)
    for number, (lines, result) in enumerate(groups):
        (left, _), (middle, _) = axes.point(number, 0), axes.point(number + Fraction(1, 2), 0)
        bars(axes, left, result)
        for place, words in enumerate(lines):
            picture.words(middle, axes.bottom + 54 + 22 * place, words, anchor='middle', weight='' if place else 'bold', size=16 if place else 17)
    return picture.svg()


def classes():
    """V, V_M, V* and V_D of the worked sheet, with the site class changed to 2 and 3."""
    site, frame, weights, heights = sheet_numbers(SHEET)
    groups = [((f'class {number}, {name}',), job((*site[:-1], number), frame, weights, heights)) for number, name in CLASS_NAMES.items()]
    return groups_of_shears('What the site class does to the base shear', 'The worked sheet on a hard, a normal and a soft site',
                            2_000_000, groups)


def near_fault():
    """V, V_M, V* and V_D of the sheet near a fault with its own pairs, with the larger and the smaller pair for both, and with no factors."""
    numbers, frame, weights, heights = sheet_numbers(NEAR_FAULT)
    site, none = limits.Site(*numbers), (sites.NO_NEAR_FAULT, sites.NO_NEAR_FAULT)
    design, mce = (site.NA, site.NV), (site.NAM, site.NVM)
    assert design[0] < mce[0] and design[1] < mce[1]
    groups = []
    for words, first, second in (('own pairs', design, mce), ('the larger pair for both', mce, mce), ('the smaller pair for both', design, design),
                                 ('no near fault', none, none)):
        result = job(site._replace(NA=first[0], NV=first[1], NAM=second[0], NVM=second[1]), frame, weights, heights)
        pairs = [f'{name} {", ".join(decimal(Fraction(each, 100), 2) for each in pair)}' for name, pair in (('design', first), ('MCE', second))]
        groups.append(((words, *pairs), result))
    return groups_of_shears('What a pair of near-fault factors does to the base shear, at its own hazard level and at both',
                            'The example near a fault, with N_A and N_V of each hazard level as named below', 2_500_000, groups)
