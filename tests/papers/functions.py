"""The public functions that docs/PROMISES.md names."""

import re

from tests.papers.declared import CRATES, ROOT, sources
from tests.papers.paper import CODE


def functions():
    """Public functions that docs/PROMISES.md does not name."""
    named, every, anywhere = set(), set(), set()
    for line in (ROOT / 'docs' / 'PROMISES.md').read_text().split('\n'):
        crate = None
        for code in CODE.findall(line.split('|')[1] if line.startswith('|') and line.count('|') > 4 else line):
            first, *rest = code.split('::')
            crate = first if (CRATES / first / 'src').exists() else crate
            inner = [first] * (first != crate) + rest
            if inner and inner[-1] == '*':
                every.add((crate, inner[-2]))
            elif inner:
                named.add((crate, inner[-1]))
            anywhere.add(code)
    for path in sources(CRATES):
        crate = path.relative_to(CRATES).parts[0]
        for name in re.findall(r'\bpub (?:extern "C" )?fn (\w+)', path.read_text()) if path.suffix == '.rt' else ():
            everywhere = name == 'refusal' or name.startswith('rukeshomaji_')
            if not ((crate, name) in named or (crate, path.stem) in every or everywhere and name in anywhere):
                yield f'docs/PROMISES.md: does not name {crate}::{path.stem}::{name}'
