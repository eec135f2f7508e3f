"""The accepted job of a sheet, of which ground it is, and what its three shears are called."""

from tests.model import limits, sheet
from tests.model.job import job

COLUMNS = ('V (design)', 'V_M (MCE)', 'V* (design, N_A = N_V = 1.00)')
BASIN_COLUMNS = ('V (design)', 'V_M (MCE)', 'V* (design)')


def read(data):
    """The accepted job of a sheet."""
    refusal, (site, frame, *levels) = sheet.read(data)
    assert refusal is None
    return job(site, frame, [weight for weight, _ in levels], [height for _, height in levels])


def in_basin(worked):
    """The job is one of the Taipei Basin."""
    return isinstance(worked.ground, limits.Basin)
