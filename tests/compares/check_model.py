"""Holds the model to the figures, refusals, listing and demand 3; exits with 1 on any wrong one.

usage: python3 -m tests.compares.check_model
"""

import sys

from tests.compares.checks import (basin, calls, demand_3, districts, drifts, errors, figures, finer, larger_r, logs, moves, moves_drawn, pairs, paper,
                                   refusals, roof, sheet_files, sheets, towers)

MODULES = (figures, paper, finer, basin, pairs, roof, calls, towers, moves, moves_drawn, larger_r, errors, refusals, logs, sheets, districts, sheet_files,
           drifts, demand_3)


def answer(function):
    """What a check gives, or the error that stopped it."""
    try:
        return function()
    except Exception as error:
        return f'{type(error).__name__}: {error}'


def answers(module):
    """Yield (label, got, wanted) of each check; an error between two checks is a wrong one."""
    try:
        for label, function, wanted in module.checks():
            yield label, answer(function), wanted
    except Exception as error:
        yield module.__name__, f'{type(error).__name__}: {error}', 'no error'


def main():
    """Run every check and print the wrong ones and one line of counts."""
    count = wrong = 0
    for module in MODULES:
        for label, got, wanted in answers(module):
            count += 1
            if got != wanted:
                wrong += 1
                print(f'{module.__name__}: {label}: {str(got)[:300]}, wanted {wanted}')
    print(f'{count} checks, {wrong} wrong')
    return 1 if wrong else 0


if __name__ == '__main__':
    sys.exit(main())
