"""The rules of the Taipei Basin, each formula as its page writes it."""

import re
from fractions import Fraction
from math import ceil

from tests.manual.formulas import value
from tests.manual.pages import page, rows
from tests.model import basin as basins, limits, response, shears
from tests.writes.by_hand.text import comma, decimal

NAME = 'docs/manual/basin.md'


def constants(rule):
    """S_DS and S_MS."""
    said = re.fullmatch(r'S_DS = (\S+) g \((\S+)\) for V and V\*; S_MS = (\S+) g \((\S+)\) for V_M', rule['A']).groups()
    wanted = [words for S in (basins.S_DS, basins.S_MS) for words in (decimal(Fraction(S, 10**8)), comma(S))]
    yield list(said) == wanted, f'{NAME}: A: {said}, wanted {wanted}'


def spectrum(rule, zone, S, B_said):
    """B of a zone for a hazard, and its spectrum over T."""
    (A, B), T0 = basins.A_and_B(S, zone), basins.TABLE_4[zone]
    yield value(rule['B'].split(',')[0], A=Fraction(A), T0=T0) == B and B_said == comma(B), f'{NAME}: B of zone {zone}: {B_said}'
    pieces = [piece.split(': ') for piece in rule['Sa'].split('; ')]
    for T in range(1, 5_000, 13):
        names = {'A': Fraction(A), 'T': Fraction(T), 'T0': Fraction(T0)}
        formula = next(formula for when, formula in pieces if when == 'beyond' or value(when, **names))
        yield value(formula, **names) / 10**8 == response.spectrum_in_g(A, B, T), f'{NAME}: Sa of zone {zone} at {T}'


def zones(rule, table):
    """The zones, their T0, B and spectra."""
    yield [int(row[0]) for row in table] == list(limits.ZONE), f'{NAME}: zones'
    for zone, in_ms, in_s, *both in table:
        T0 = basins.TABLE_4[int(zone)]
        yield (in_ms, Fraction(in_s) * 1000) == (comma(T0), T0), f'{NAME}: T0 of zone {zone}: {in_ms}, {in_s}'
        for S, B_said in zip((basins.S_DS, basins.S_MS), both):
            yield from spectrum(rule, int(zone), S, B_said)


def capacities(rule):
    """Capacity and roots of every R."""
    squares = re.findall(r'√\(([^)]*)\)', rule['root'])
    for R in limits.R_RANGE:
        in_ones = Fraction(R, 100)
        R_a = value(rule['capacity'].removeprefix('R_a = ').split(' for ')[0], R=in_ones)
        got = (R_a, value(squares[0], R_a=R_a)), value(squares[1], R=in_ones), value(squares[2], R=in_ones)
        yield got == (basins.capacity(R), basins.capacity(R)[1], response.mce_capacity(R)[1]), f'{NAME}: capacity or root at R = {R}'


def star(rule):
    """V*."""
    frame, W = limits.Frame(2, 0, 477, 125, 151), 9_001
    names = {'I': Fraction(frame.I, 100), 'alpha_y': Fraction(frame.alphay, 100), 'W': W * 1000, 'p': Fraction(2_923_211, 10**7)}
    yield ceil(value(rule['V*'], **names)) == shears.V_star(frame, 2_923_211, W, divided_by=basins.V_STAR), f'{NAME}: V*'


def basin_rules():
    """Each rule, in every zone; what the page says of a site is of the rules in order."""
    table = rows(page('basin.md'), 'The rules')
    rule, on_site = {row[0]: row[1] for row in table}, {row[0]: row[2] for row in table}
    yield from constants(rule)
    yield from zones(rule, rows(page('basin.md'), 'The zones'))
    yield from capacities(rule)
    yield from star(rule)
    of_sites = {row[0]: row[1] for row in rows(page('rules.md'), '')}
    for step in ('V*', 'T0', 'capacity'):
        yield of_sites[step].startswith(on_site[step]), f'{NAME}: {step} on a site: {on_site[step]}, the rules have {of_sites[step]}'
