"""Compares the compiled core with the model: jobs, bad jobs, soil logs, sheets; jobs and bad jobs of the Basin, and with two pairs; shear
calls and distributions, sound and bad; towers on one podium; which way the figures move; districts; drift, torsion and accidental moments, sound and
bad.

usage: python3 -m tests.compares.compare [JOBS [BAD [LOGS [SHEETS [SEED [BASIN [BASIN_BAD [PAIRS [PAIRS_BAD
                                         [SHEARS [SHEARS_BAD [DISTRIBUTIONS [DISTRIBUTIONS_BAD [TOWERS [MOVES [DISTRICTS
                                         [DRIFTS [DRIFTS_BAD [TORSIONS [TORSIONS_BAD [MOMENTS [MOMENTS_BAD]]]]]]]]]]]]]]]]]]]]]]

JOBS are on sites with one pair of near-fault factors for both levels, PAIRS on sites with a pair for each. BAD, BASIN_BAD and PAIRS_BAD are drawn
likewise and then changed; they are counted by what was drawn, though a changed factor can make two pairs of one. A quarter of the SHEETS is of
the Basin, and a quarter has two pairs; jobs by seven numbers and by nine come on top of them. A third each of SHEARS and of SHEARS_BAD is on
sites with one pair, in the Basin, and on sites with two; jobs whose two calls in turn are held to the job call come on top of the DISTRIBUTIONS.
TOWERS are pairs of towers, three calls each, on the three kinds of ground; other numbers of towers come on top. MOVES are pairs of jobs, or of
shear calls, before and after a change of R, I, alpha-y or a weight at one T, on the three kinds of ground. DISTRICTS are district calls; those gone
through one by one, their rows as single calls and the calls with another job in one job's place come on top. DRIFTS, TORSIONS and MOMENTS are calls of
drift, torsion and accidental moments; those gone through one by one come on top, and tests/compares/compare_drifts.py compares them alone. It prints the
count of each stratum, the largest excess over the exact figure of demand 3 on sites, in the Basin and with two pairs, of shear calls and of
distributions, and the number of differences; on standard error it says how far it is. It needs x86-64, or RUKESHOMAJI_LIBRARY, a shared library of
the core for the machine at hand.
"""

import sys

from tests.compares import core
from tests.compares.compare_calls import call_tasks
from tests.compares.compare_districts import district_tasks
from tests.compares.compare_drifts import DRIFTS, DRIFTS_BAD, MOMENTS, MOMENTS_BAD, TORSIONS, TORSIONS_BAD, drift_tasks
from tests.compares.compare_in_turn import IN_TURN, turn_tasks
from tests.compares.compare_jobs import basin_tasks, pair_tasks, site_tasks
from tests.compares.compare_logs import log_tasks
from tests.compares.compare_moves import move_tasks
from tests.compares.compare_sheets import run_both_ways, run_sheets, run_stored_sheets
from tests.compares.compare_towers import tower_tasks
from tests.compares.parts import chunks
from tests.compares.running import compared

JOBS, BAD, LOGS, SHEETS, SEED = 1_000_000, 120_000, 200_000, 120_000, 1
BASIN, BASIN_BAD, PAIRS, PAIRS_BAD = 200_000, 24_000, 200_000, 24_000
SHEARS, SHEARS_BAD, DISTRIBUTIONS, DISTRIBUTIONS_BAD = 200_000, 24_000, 200_000, 24_000
TOWERS = MOVES = 100_002        # a third of them is a whole number
DISTRICTS = 20_000
BOTH_WAYS = 20          # for every so many SHEETS a job on top, by seven numbers and by nine, and each with a number more: four sheets


def main(job_count=JOBS, bad=BAD, logs=LOGS, sheets=SHEETS, seed=SEED, basin=BASIN, basin_bad=BASIN_BAD, two_pairs=PAIRS,
         two_pairs_bad=PAIRS_BAD, shears=SHEARS, shears_bad=SHEARS_BAD, distributions=DISTRIBUTIONS, distributions_bad=DISTRIBUTIONS_BAD,
         towers=TOWERS, moves=MOVES, districts=DISTRICTS, drifts=DRIFTS, drifts_bad=DRIFTS_BAD, torsions=TORSIONS, torsions_bad=TORSIONS_BAD,
         moments=MOMENTS, moments_bad=MOMENTS_BAD):
    """Run all, print all; 1 where anything differs. No fewer jobs, calls and districts are drawn than the strata ask for."""
    core.build()
    tasks = [*site_tasks(seed, job_count, bad), *log_tasks(seed, logs)]
    tasks += [(run_stored_sheets, seed, 0), *chunks(run_sheets, seed, sheets), *chunks(run_both_ways, seed, sheets // BOTH_WAYS)]
    tasks += [*basin_tasks(seed, basin, basin_bad), *pair_tasks(seed, two_pairs, two_pairs_bad)]
    tasks += [*call_tasks(seed, shears, shears_bad, distributions, distributions_bad), *turn_tasks(seed, distributions // IN_TURN)]
    tasks += [*tower_tasks(seed, towers), *move_tasks(seed, moves), *district_tasks(seed, districts)]
    tasks += drift_tasks(seed, (drifts, torsions, moments), (drifts_bad, torsions_bad, moments_bad))
    return compared(tasks, seed)


if __name__ == '__main__':
    sys.exit(main(*(int(word) for word in sys.argv[1:])))
