"""Runs the tasks of a comparison, each in a process of its own, and prints what they compared."""

import sys
import time
from concurrent import futures

from tests.compares import core
from tests.compares.tally import Tally

SHOWN = 5
SAID_EACH = 10          # seconds


def run(task):
    """One task in a process of its own."""
    function, *rest = task
    tally = Tally()
    function(core.load(), tally, *rest)
    return tally


def told(tallies, parts):
    """The tallies as they come; how many of them have come is said on standard error, at most once in ten seconds."""
    start = said = time.monotonic()
    count = 0
    for done, tally in enumerate(tallies, 1):
        count += tally.compared
        now = time.monotonic()
        if now - said >= SAID_EACH or done == parts:
            print(f'{done} of {parts} parts, {count} comparisons, {now - start:.0f} s', file=sys.stderr, flush=True)
            said = now
        yield tally


def compared(tasks, seed):
    """Run all, print all; 1 where anything differs."""
    total = Tally()
    with futures.ProcessPoolExecutor() as pool:     # a core that crashes ends this with an error
        for tally in told(pool.map(run, tasks), len(tasks)):
            total.add(tally)
    for name, count in sorted(total.counts.items()):
        print(f'{count:9}  {name}')
    for largest in total.largest.values():
        print(*(line + '\n' for line in largest.lines() if largest.jobs), sep='', end='')
    for stratum, call, got, expected in total.differences[:SHOWN]:
        print('DIFFERS', stratum, call, got, expected)
    print(f'seed {seed}: {total.compared} comparisons, {len(total.differences)} differences')
    return 1 if total.differences else 0
