"""The must-fail edits that docs/WRONG.md lists."""

import re

from tests.papers.declared import CRATES, EDITS, ROOT, TRIED


def applied(name, crate, edit):
    """An edit whose old text does not stand once in its file."""
    text = old = ''
    for line in edit.split('\n'):
        if line.startswith('file: '):
            text = (crate / line[len('file: '):]).read_text()
        if line.startswith('old: '):
            old = line[len('old: '):]
            if text.count(old) != 1:
                yield f'{name}: its old text does not stand once: {old}'
        if line.startswith('new: '):
            text = text.replace(old, line[len('new: '):])


def listed(known):
    """The edits that docs/WRONG.md lists, each with what its rows say of it: code or definition, and whether it is tried."""
    found = {}
    for row in (ROOT / 'docs' / 'WRONG.md').read_text().split('\n'):
        if not row.startswith('|'):
            continue
        crate, marks = None, re.search(r'\| (code|definition)(, tried)? \|', row)
        for first, name in re.findall(r'(?:\b(\w+)/|, )(\w+)\b(?!/)', row):
            crate = first or crate
            if crate and (CRATES / crate).exists() and f'{crate}/{name}' in known or first and (CRATES / first).exists():
                found.setdefault(f'{crate}/{name}', []).extend([marks.groups()] if marks else [])
    return found


def described(name, marks, is_tried):
    """What is wrong with one edit, or with what the rows say of it."""
    crate, stem = name.split('/')
    path = CRATES / crate / 'must-fail' / f'{stem}.edit'
    edit = (path if path.exists() else ROOT / 'tests' / 'tried' / crate / f'{stem}.edit').read_text()
    changes = 'code' if 'file: src/' in edit else 'definition'
    yield from applied(name, CRATES / crate, edit)
    if any(changed != changes or bool(mark) != is_tried for changed, mark in marks):
        yield f"docs/WRONG.md: {name} changes the {changes}, and is {'' if is_tried else 'not '}one of tests/tried"


def edits():
    """What docs/WRONG.md says of the must-fail edits, against those that there are."""
    known, found = EDITS | TRIED, listed(EDITS | TRIED)
    for name, marks in found.items():
        if name in known:
            yield from described(name, marks, name in TRIED)
        else:
            yield f'docs/WRONG.md: no such edit: {name}'
    for name in sorted(known - found.keys()):
        yield f'docs/WRONG.md: does not list {name}'
