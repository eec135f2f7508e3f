"""Checks README.md, CHANGELOG.md, CONTRIBUTING.md, docs/*.md, docs/manual/*.md and docs/landings/*.md.

usage: python3 -m tests.papers

- every link leads to a file or folder, and one to a heading (#..) to a heading of that file
- every path that is named is there: below the root, crates/, the folder that the head of its table or section names, or the folder of
  the path before it
- every name in backticks is declared somewhere; one with `::` in its crate and module; a theorem, and what a column 'definition',
  'theorem' or 'held by' names, in one of the files that its row or paragraph names. A landing note names what there was, and is held to its
  links and paths alone; what was where before the port (docs/PORT.md, docs/PORT-NAMES.md) to its links alone
- docs/MAP.md links every landing note
- docs/PROMISES.md names each public function: by its name in a row or paragraph of its crate, or by `module::*`
- docs/WRONG.md lists each must-fail edit and no other, says which of code and definition it changes, and 'tried' of those that the gate
  leaves out

It prints what is wrong and one line of counts, and exits with 1 where anything is.
"""

import sys

from tests.papers.declared import ROOT
from tests.papers.edits import edits
from tests.papers.functions import functions
from tests.papers.paper import LINK, Paper


DOCS = ROOT / 'docs'
NOTES = sorted(DOCS.glob('landings/*.md'))
# pages that speak of names which are gone
PORT = sorted([*DOCS.glob('PORT*.md'), DOCS / 'DESIGN-PASS.md', DOCS / 'LOOK-BACK.md'])


def every_paper():
    """The files that are checked; of a landing note not the names, of the pages of the port and of today's forms neither names nor paths."""
    pages = sorted({*DOCS.glob('*.md')} - {*PORT})
    named = [*(ROOT / name for name in ('README.md', 'CHANGELOG.md', 'CONTRIBUTING.md')), *pages, *sorted(DOCS.glob('manual/*.md'))]
    return [*map(Paper, named), *(Paper(path, named=False) for path in NOTES), *(Paper(path, named=False, placed=False) for path in PORT)]


def unlinked():
    """Landing notes that docs/MAP.md does not link; one of figures is linked by the note that it belongs to."""
    linked = LINK.findall((DOCS / 'MAP.md').read_text())
    for note in NOTES:
        if f'landings/{note.name}' not in linked and not note.stem.endswith('-figures'):
            yield f'docs/MAP.md: no link to landings/{note.name}'


def main():
    """Check all, say what is wrong."""
    papers = every_paper()
    for paper in papers:
        paper.check()
    wrong = [each for paper in papers for each in paper.wrong] + [*functions(), *edits(), *unlinked()]
    print(*wrong, sep='\n', end='\n' if wrong else '')
    counts = {key: sum(paper.counted[key] for paper in papers) for key in papers[0].counted}
    print(', '.join(f'{count} {key}' for key, count in counts.items()) + f', {len(wrong)} wrong')
    return 1 if wrong else 0


if __name__ == '__main__':
    sys.exit(main())
