"""The soil logs of the comparison."""

import random

from tests.compares import core
from tests.compares.parts import chunks
from tests.draws import soil_logs
from tests.model import soil
from tests.writes import log_cases


def expected_log(*lists):
    """Number, place and class of a log by the model."""
    answer = soil.log(*lists)
    return (0, 0, answer.cls) if isinstance(answer, soil.Log) else (*answer[1:], 0)


def compare_log(tally, library, name, lists):
    """One log, counted by its stratum and by the refusal that the model gives."""
    expected = expected_log(*lists)
    tally.compare(f'log, {name}', lists, core.site_class(library, *lists), expected)
    tally.counts[f'of the logs, refusal {expected[0]}' if expected[0] else 'of the logs, classed'] += 1


def run_systematic_logs(library, tally, seed, count):
    """Every refusal of a log at every layer, both sides of each limit, and the stored logs."""
    for lists in soil_logs.systematic():
        compare_log(tally, library, 'systematic', lists)
    for case in log_cases.all_cases():
        compare_log(tally, library, 'of the program run_logs', log_cases.lists(*case))


def run_logs(library, tally, seed, count):
    """Soil logs of every stratum in turn."""
    rng = random.Random(seed)
    for number in range(count):
        name = list(soil_logs.STRATA)[number % len(soil_logs.STRATA)]
        compare_log(tally, library, name, soil_logs.STRATA[name](rng))


def log_tasks(seed, count):
    """What is compared of soil logs."""
    yield from ((run_systematic_logs, seed, 0), *chunks(run_logs, seed, count))
