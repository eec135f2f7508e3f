"""What the repository declares: the names of each file of crates/ and include/."""

import os
import pathlib
import re

ROOT = pathlib.Path(__file__).resolve().parents[2]
CRATES = ROOT / 'crates'
DECLARED = re.compile(
    r'^\s*(?:(?:abbrev|unfoldable|pub|record|data|infix[lr]?|\d+)\s+)*(?P<antt>[^\s:(){}]+)\s*(?:[({].*)?:\s'
    r'|^\s*(?:pub )?(?:record|data) (?P<record>[^\s:(]+)'
    r'|\b(?:fn|struct|enum|trait|const|static|mod) (?P<code>\w+)'
    r'|^\s+(?P<variant>[A-Z]\w*)(?:\(\w+\))?,$'
    r'|^(?:\w+ )+\**(?P<c>rukeshomaji_\w+)\(', re.M)
DEFINED = re.compile(r'^\s*(?:pub\s+)?(?:abbrev|unfoldable|opaque)\s+(?:pub\s+)?(?P<name>[^\s:(){}]+)', re.M)
VARIABLE = re.compile(r'^\s*(?:pub )?(?P<field>\w+): ', re.M)


def declared(path):
    """The names that a file declares."""
    text = path.read_text()
    names = {name for match in DECLARED.finditer(text) for name in match.groups() if name}
    return names | {match['field'] for match in VARIABLE.finditer(text)} if path.suffix == '.rt' else names


def sources(folder):
    """The files of a folder that declare something; edits, and what `rt` makes, are left out."""
    found = []
    for here, folders, names in os.walk(folder):
        folders[:] = [name for name in folders if name not in ('must-fail', 'out')]
        found += [pathlib.Path(here, name) for name in names if name.endswith(('.antt', '.rt', '.h'))]
    return sorted(found)


def same_crate(file, other):
    """Both are of one crate."""
    return CRATES in file.parents and file.relative_to(CRATES).parts[0] == other.relative_to(ROOT).parts[1]


NAMES = {path: declared(path) for path in [*sources(CRATES), *sources(ROOT / 'include')]}
ALL = set().union(*NAMES.values())
LAWS = [path for path in NAMES if path.suffix == '.antt']
# what is stated in several words and defined nowhere: theorems, and what a record or a case says
STATED = ({name for path in LAWS for name in NAMES[path] if '_' in name.strip('_')}
          - {match['name'] for path in LAWS for match in DEFINED.finditer(path.read_text())})
EDITS = {f'{path.parts[-3]}/{path.stem}' for path in CRATES.glob('*/must-fail/*.edit')}
TRIED = {f'{path.parts[-2]}/{path.stem}' for path in (ROOT / 'tests' / 'tried').glob('*/*.edit')}
