"""What ./shear and ./district say of a refusal on standard error, by the texts of examples/rukeshomaji.py."""

import ast

from tests.compares.core import ROOT


def from_module(name):
    """What the module for Python assigns to a name."""
    tree = ast.parse((ROOT / 'examples' / 'rukeshomaji.py').read_text())
    return next(ast.literal_eval(each.value) for each in tree.body if isinstance(each, ast.Assign) and each.targets[0].id == name)


TEXTS, PLACES = from_module('TEXTS'), from_module('PLACES')


NO_BYTE, NO_EMPTY_LINE = 'the sheet has no byte: is there an empty line too many?', 'does an empty line stand between the sheets?'


def meaning(number, place, seen='', begins=0):
    """A refusal in words; seen is what can be seen of a line that is refused, begins the line at which its sheet begins in a file of sheets."""
    names = PLACES.get(number, '')
    where = f'{names} {place}' if isinstance(names, str) else names[place - 1]
    if begins and number == 16:
        where += f', line {begins + place - 1} of the file'
    return f"refusal {number}{f' at {where}' if place else ''}: {TEXTS[number]}{f': {seen}' if seen else ''}"


def of_sheets(parts, rows, seen=None):
    """What ./district says of the sheets of a file by their rows, a line for each that is refused; seen is what can be seen of lines, by the numbers of
    their sheets."""
    begins = 1
    for number, (data, row) in enumerate(zip(parts, rows), 1):
        if row.number:
            yield f'district: sheet {number}: {meaning(row.number, row.place, what_of(data, row.number, (seen or {}).get(number, "")), begins)}'
        begins += data.count(b'\n') + 1


def what_of(data, number, seen):
    """What is said of a sheet beyond its refusal: why it may be too long, that it has no byte, or what is seen of its line."""
    if number == 17:
        ended = sum(line.endswith(b'\r') for line in data.split(b'\n'))
        return f'a CR stands at the end of {ended} of its lines' if ended else NO_EMPTY_LINE
    return seen if data else NO_BYTE
