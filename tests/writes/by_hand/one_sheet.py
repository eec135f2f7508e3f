"""What a page on one sheet may name."""

from fractions import Fraction

from tests.model import response, sheet, storeys
from tests.writes.by_hand.ground import CLASS_NAMES, site_table
from tests.writes.by_hand.response import period
from tests.writes.by_hand.shears import response_table
from tests.writes.by_hand.storeys import moments, roof_force, storeys_table
from tests.writes.by_hand.text import code, comma, decimal, hundredths
from tests.writes.by_hand.worked import in_basin, read
from tests.writes.by_hand.zones import basin_names


def site_names(worked):
    """What a page on a sheet of a site may name besides."""
    site = worked.ground
    return {'site_table': site_table(worked), 'site': CLASS_NAMES[site.cls], 'NA': hundredths(site.NA), 'NV': hundredths(site.NV)}


def names(data):
    """What a page on one sheet may name."""
    worked = read(data)
    return (basin_names if in_basin(worked) else site_names)(worked) | {
        'sheet': code(data.decode().splitlines()), 'listing': code(sheet.shear(data).decode().splitlines()),
        'levels_words': ' + '.join(map(comma, worked.weights)), 'W': comma(worked.W), 'h': comma(worked.heights[-1]),
        'P': comma(storeys.products_above(worked.weights, worked.heights)[0]),
        'period': period(worked), 'response_table': response_table(worked),
        'roof_force': roof_force(worked), 'storeys_table': storeys_table(worked), 'moments': moments(worked),
        'forces_added': ' + '.join(map(comma, reversed(worked.forces))), 'V_D': comma(worked.V_D),
        'c': decimal(Fraction(response.PERIOD_C[worked.frame.kind], 1000)), 'h_m': decimal(Fraction(worked.heights[-1], 10)),
        'count': str(len(worked.heights)), 'heights_m': ', '.join(decimal(Fraction(height, 10)) for height in worked.heights),
        'kind': str(worked.frame.kind), 'whole_c': str(response.PERIOD_C[worked.frame.kind]),
        'most_moment': comma(worked.moments[0]), 'most_kNm': decimal(Fraction(worked.moments[0], 10_000), 2),
    }
