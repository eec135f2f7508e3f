"""Counts what the stored cases of the gate's programs hold, by the model.

usage: python3 -m tests.stored

Of jobs judged (run_refusals), shear calls and distributions (run_calls), soil logs (run_logs), sheets (run_sheets), and drift, torsion and accidental
moments (run_drifts), on a site and in the Basin where there is a ground:
- every refusal is given at every place; of levels and layers at the first, at one between and at the last, of lines at 1, 2, 3 and a later one
- both sides of every limit are there, with nothing else wrong
- every two refusals that can apply together are there, with nothing else wrong, and the earlier one is given; one at two places too
Of job calls (run_jobs), whose input is full, every refusal is given at every place.
Of districts (run_districts) every refusal of a row is given at every place, 21 with each other one, and both sides of the limits of 21 and 22 are there.

It prints what is missing and one line of counts, and exits with 1 where anything is.
"""

import itertools
import sys

from tests.asked import BETWEEN, entries


def missing_places(entry):
    """Places at which a refusal is never given."""
    given = {case.applies[0] for case in entry.cases if case.applies}
    for name, places in entry.places.items():
        there = {place for each, place in given if each == name}
        if BETWEEN in places and there - {*places}:
            there.add(BETWEEN)
        yield from (f'{name} is not given at place {place}' for place in places if place not in there)


def along(entry, names):
    """What may come along with these refusals."""
    return {each for some, others in entry.along.items() if names >= {*some} for each in others} - names


def values(cases, number):
    """All values that a number has in these cases."""
    return set().union(*(case.numbers.get(number, ()) for case in cases))


def missing_sides(entry):
    """Values beside a limit that no case has with nothing else wrong."""
    right = [case for case in entry.cases if not case.applies]
    for number, refusals, taken, refused in entry.limits:
        others = set().union(*(along(entry, {refusal}) for refusal in refusals)) - refusals
        wrong = [case for case in entry.cases if case.applies and case.names() - others <= refusals]
        yield from (f'{number} {value} is not taken' for value in taken if value not in values(right, number))
        yield from (f'{number} {value} is not refused' for value in refused if value not in values(wrong, number))


def pairs(entry):
    """Every two refusals that can apply together, or those with the one that is named; those that have a level, a layer or a line with themselves
    too."""
    twice = [(name, name) for name, places in entry.places.items() if BETWEEN in places]
    every = [pair for pair in (*itertools.combinations(entry.places, 2), *twice) if pair not in entry.cannot]
    return [pair for pair in every if entry.paired in ('', *pair)]


def missing_pairs(entry):
    """Those that no case has with nothing else wrong."""
    there, twice = {case.names() for case in entry.cases}, {name for case in entry.cases if len(case.names()) == 1 for name in case.twice()}
    for one, other in pairs(entry):
        names = frozenset((one, other))
        if one not in twice if one == other else there.isdisjoint({names, *(names | {each} for each in along(entry, names))}):
            yield f'{one} with {other} is not there'


def main():
    """Print what is missing and the counts."""
    missing, cases, places, sides, both = [], 0, 0, 0, 0
    for entry in entries():
        found = [*missing_places(entry)]
        cases, places = cases + len(entry.cases), places + sum(map(len, entry.places.values()))
        if entry.limits:
            found += [*missing_sides(entry), *missing_pairs(entry)]
            sides, both = sides + sum(len(limit.taken + limit.refused) for limit in entry.limits), both + len(pairs(entry))
        missing += [f'{entry.name}: {each}' for each in found]
    print(*(each + '\n' for each in missing), sep='', end='')
    print(f'{cases} stored cases: {places} places, {sides} sides of limits, {both} pairs of refusals; {len(missing)} missing')
    return 1 if missing else 0


if __name__ == '__main__':
    sys.exit(main())
