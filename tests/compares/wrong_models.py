"""Errors that look right, each put into the model: how many of the comparisons with the compiled core show it, and of the two calls, of districts and of
drift, torsion and accidental moments how many of the stored cases of crates/run_calls, crates/run_districts and crates/run_drifts.

usage: python3 -m tests.compares.wrong_models [JOBS [SEED]]        after tests/compares/compare.py has built the archive
       python3 -m tests.compares.wrong_models stored               by the stored cases alone, which need no archive

The errors stand beside the jobs and calls that are to show them: wrong_sites.py, wrong_basin.py, wrong_pairs.py, wrong_roof.py, wrong_unit.py,
wrong_calls.py, wrong_logs.py, wrong_roots.py, wrong_towers.py, wrong_moves.py, wrong_districts.py, wrong_drifts.py, wrong_torsions.py,
wrong_accidentals.py. Those of a file of sheets, wrong_sheets.py, are tried by run_district.py, which runs the program.
"""

import random
import sys
from contextlib import contextmanager
from unittest import mock

from tests.compares import (core, wrong_accidentals, wrong_basin, wrong_calls, wrong_districts, wrong_drifts, wrong_logs, wrong_moves, wrong_pairs, wrong_roof,
                            wrong_roots, wrong_sites, wrong_torsions, wrong_towers, wrong_unit)
from tests.compares.compare_calls import expected_distribution, expected_shear, got_distribution
from tests.compares.compare_districts import expected_district, got_district
from tests.compares.compare_drifts import expected_accidental, expected_drift, expected_torsion, got_accidental, got_drift
from tests.compares.compare_jobs import expected_job, got_job
from tests.compares.compare_logs import expected_log
from tests.compares.compare_moves import got_moves
from tests.compares.compare_towers import got_towers
from tests.writes import call_cases, stored_districts, stored_drifts

JOBS, SEED = 10_000, 1
DISTRIBUTION_ERRORS = {
    **wrong_calls.DISTRIBUTION_ERRORS,
    'a roof force at every period': wrong_roof.ERRORS['a roof force at every T'],
    'each storey force rounded alone': wrong_sites.ERRORS['each storey force rounded alone'],
}


@contextmanager
def made(patches):
    """The model with an error in it."""
    made_of = [mock.patch.object(*patch) for patch in patches]
    for patch in made_of:
        patch.start()
    try:
        yield
    finally:
        for patch in made_of:
            patch.stop()


def unseen(calls, answers, expected, where, errors):
    """Print how many calls show each error, by an answer that is not the model's; how many errors are not seen at all."""
    count = 0
    for name, patches in {'nothing, the model as it is': [], **errors}.items():
        with made(patches):
            shown = sum(expected(*call) != answer for call, answer in zip(calls, answers))
        count += (shown == 0) == bool(patches)
        print(f'{shown:7} of {len(calls)} {where} show: {name}')
    return count


def unseen_stored(stored, kind, where, errors):
    """The same of the stored cases of a kind."""
    cases, answers = zip(*stored)
    return unseen([(case,) for case in cases], answers, kind.said, where, errors)


def by_stored():
    """How many errors of calls the stored cases do not see."""
    count = 0
    for kind, where, errors in ((call_cases.Shear, 'stored shear calls', wrong_calls.SHEAR_ERRORS),
                                (call_cases.Distribution, 'stored distributions', DISTRIBUTION_ERRORS)):
        count += unseen_stored(wrong_calls.stored(kind), kind, where, errors)
    count += unseen_stored(wrong_districts.stored(), stored_districts.Case, 'stored districts', wrong_districts.ERRORS)
    for kind, where, errors in ((stored_drifts.Drift, 'stored cases of drift', wrong_drifts.ERRORS),
                                (stored_drifts.Torsion, 'stored cases of torsion', wrong_torsions.ERRORS),
                                (stored_drifts.Moments, 'stored cases of accidental moments', wrong_accidentals.ERRORS)):
        count += unseen_stored(wrong_drifts.stored(kind), kind, where, errors)
    return count


def by_drawn(jobs, seed):
    """How many errors the drawn jobs and calls do not see: on sites, of the Basin, of two pairs, of the roof force, of the finer unit, of the two
    calls, of soft clay, of the roots, of towers, of moves, of districts, of drift, torsion and accidental moments."""
    count = 0
    rng, library = random.Random(seed), core.load()
    for calls, got, expected, where, errors in (
            (wrong_sites.drawn, got_job, expected_job, 'on sites', wrong_sites.ERRORS),
            (wrong_basin.drawn, got_job, expected_job, 'in the Basin', wrong_basin.ERRORS),
            (wrong_pairs.drawn, got_job, expected_job, 'with two pairs', wrong_pairs.ERRORS),
            (wrong_roof.drawn, got_job, expected_job, 'at the ends of the roof force', wrong_roof.ERRORS),
            (wrong_unit.drawn, got_job, expected_job, 'in the finer unit', wrong_unit.ERRORS),
            (wrong_calls.shear_calls, core.shear_call, expected_shear, 'shear calls', wrong_calls.SHEAR_ERRORS),
            (wrong_calls.distributions, got_distribution, expected_distribution, 'distributions', DISTRIBUTION_ERRORS),
            (wrong_logs.logs, core.site_class, expected_log, 'soil logs', wrong_logs.ERRORS),
            (wrong_roots.drawn, got_job, expected_job, 'at exact roots and beside them', wrong_roots.ERRORS),
            (wrong_towers.drawn, got_towers, wrong_towers.claimed, 'towers', wrong_towers.ERRORS),
            (wrong_moves.drawn, got_moves, wrong_moves.claimed, 'moves', wrong_moves.ERRORS),
            (wrong_districts.drawn, got_district, expected_district, 'districts', wrong_districts.ERRORS),
            (wrong_drifts.drawn, got_drift, expected_drift, 'of drift', wrong_drifts.ERRORS),
            (wrong_torsions.drawn, core.torsion, expected_torsion, 'of torsion', wrong_torsions.ERRORS),
            (wrong_accidentals.drawn, got_accidental, expected_accidental, 'of accidental moments', wrong_accidentals.ERRORS)):
        drawn = list(calls(rng, jobs))
        count += unseen(drawn, [got(library, *call) for call in drawn], expected, where, errors)
    return count


def main(jobs=JOBS, seed=SEED):
    """Try the errors; 1 where one is not seen at all."""
    return 1 if by_stored() + by_drawn(jobs, seed) else 0


if __name__ == '__main__':
    sys.exit(bool(by_stored()) if sys.argv[1:] == ['stored'] else main(*(int(word) for word in sys.argv[1:])))
