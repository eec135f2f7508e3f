"""Runs the tests outside the gate, one after the other: papers and links, the counts that the papers state, manual, README, pictures, header, stored
cases, model; then the numerals of the model, each changed by one; then the programs, the examples and lists that are NULL, which need `rt`, and the last two
x86-64 or RUKESHOMAJI_LIBRARY, a shared library of the core for the machine at hand.

usage: python3 -m tests.all [quick]      quick: the shorter ones that need Python alone, in about half a minute of processor time

The comparison with the model (tests/compares/compare.py), the wrong models (tests/compares/wrong_models.py), which need the library that it
builds, and tests/tried.sh take longer, and are run by themselves.
"""

import os
import pathlib
import platform
import shutil
import subprocess
import sys

ROOT = pathlib.Path(__file__).resolve().parents[1]
# what follows `python3 -m`, one line a check
QUICK = (
    'tests.papers',
    'tests.counts',
    'tests.manual',
    'tests.numerals',
    'tests.readme',
    'tests.writes.pictures check',
    'tests.compares.header',
    'tests.stored',
    'tests.compares.check_model',
)
LONGER = 'tests.compares.changed_numerals'
PROGRAMS = ('tests.compares.run_program', 'tests.compares.run_files', 'tests.compares.run_district')
LINKED = ('tests.examples', 'tests.compares.null_lists')


def left_out():
    """The checks that cannot be run here, and why."""
    if sys.argv[1:] == ['quick']:
        return {LONGER: 'it takes longer', **dict.fromkeys((*PROGRAMS, *LINKED), 'it needs rt')}
    here = os.environ.get('RUKESHOMAJI_LIBRARY') or platform.machine() in ('x86_64', 'AMD64')
    missing = {} if here else dict.fromkeys(LINKED, 'it needs x86-64 or RUKESHOMAJI_LIBRARY')
    return missing if shutil.which('rt') else missing | dict.fromkeys(PROGRAMS, 'it needs rt')


def main():
    """Run each, with what it prints."""
    failed, out, checks = [], left_out(), (*QUICK, LONGER, *PROGRAMS, *LINKED)
    for check in checks:
        print(f'{check}: ', end='', flush=True)
        if check in out:
            print(f'left out: {out[check]}')
        elif subprocess.run([sys.executable, '-m', *check.split()], cwd=ROOT).returncode != 0:
            failed.append(check)
    print(f'{len(checks) - len(out) - len(failed)} passed, {len(out)} left out, {len(failed)} failed', *failed)
    return 1 if failed else 0


if __name__ == '__main__':
    sys.exit(main())
