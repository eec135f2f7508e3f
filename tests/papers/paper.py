"""One paper: its links, the paths and modules that it names, and the names in its backticks."""

import re

from tests.papers.declared import ALL, CRATES, EDITS, NAMES, ROOT, STATED, TRIED, same_crate, sources

LINK = re.compile(r'\[[^\]]*\]\(([^)#]+)(?:#[^)]*)?\)')
ANCHOR = re.compile(r'\[[^\]]*\]\(([^)#]*)#([^)]*)\)')
CODE = re.compile(r'`([^`]+)`')
PATH = re.compile(r'(?<![\w./-])(?:[\w*.-]+/)*[\w*-]+\.(?:antt|rt|py|sh|h|c|md|svg|txt|edit|sheet|listing)\b|(?<![\w./-])[\w*.-]+(?:/[\w*.-]+)+/?')
WORD = re.compile(r'[A-Za-z_][\w·*₀-₉-]*(?:::[\w.*]+)*')
# what stands for any crate or file
STANDS_FOR_ANY = re.compile(r'^lib\.rt$|^(Invariants|Answers)\.antt$|(^|/)(C|CRATE|NAME)(/|$)')
# words in backticks that are no names of the repository
PLAIN = {
    'the language and its kit': 'requires ensures use do infixl lib Prim mathlib native borrow mir std rt',
    'other programs, and functions of C': 'cc nm read write open close memcpy memset',
    'the sheet and the listing': 'site frame level base refused',
    'what the last line of the gate says': 'N passed, 0 failed',
    'fields of version 1': 'na nv',
}
PLAIN_WORDS = {word for words in PLAIN.values() for word in words.split()}
STRICT = ('definition', 'held by', 'theorem')       # heads of columns
BELOW = re.compile(r'below `?(crates(?:/\w+)?)/?`?')
CRATE_NAMES = {path.name for path in CRATES.iterdir()}
FIRST = CRATE_NAMES | {'crates', 'docs', 'tests', 'examples', 'include', 'bench', '.ci', 'specs', 'proofs', 'src'}
# crates, files of the root and those of tests/, but for names that are declared: these are looked up
FILES = CRATE_NAMES | {path.name for path in ROOT.iterdir()} | {path.stem for path in (ROOT / 'tests').rglob('*.py')} - ALL


class Paper:
    """One file of text, read from the top; what is wrong with it."""

    def __init__(self, path, named=True, placed=True):
        self.named, self.placed = named, placed
        self.path, self.wrong, self.counted = path, [], {'links': 0, 'paths': 0, 'names': 0}
        self.bases, self.head = [], []

    def say(self, line, words):
        """One thing that is wrong."""
        self.wrong.append(f'{self.path.relative_to(ROOT)}:{line}: {words}')

    def check(self):
        """Each table row, and each paragraph, by itself."""
        lines = self.path.read_text().split('\n')
        number = 0
        while number < len(lines):
            first, block = number, [lines[number]]
            number += 1
            if block[0].startswith(('    ', '```')):
                while block[0].startswith('```') and lines[number] != '```':
                    number += 1
                number += block[0].startswith('```')
                self.modules(first + 1, block[0])
                continue
            if not block[0].startswith(('|', '#')):
                while number < len(lines) and lines[number] and not lines[number].startswith(('|', '#', '```')):
                    block.append(lines[number])
                    number += 1
            self.block(first + 1, '\n'.join(block))

    def block(self, line, text):
        """One row, heading or paragraph."""
        if text.startswith('#'):
            self.bases, self.head = [], []
        below = BELOW.findall(text)
        self.bases = [ROOT / each for each in below] + self.bases
        cells = [cell.strip() for cell in text.strip().strip('|').split('|')] if text.startswith('|') else [text]
        if text.startswith('|') and not self.head:
            self.head = cells
        if not text.startswith('|'):
            self.head = []
        for target in LINK.findall(text):
            self.counted['links'] += 1
            if not (self.path.parent / target).exists():
                self.say(line, f'no such file: {target}')
        for target, heading in ANCHOR.findall(text):
            file = self.path.parent / target if target else self.path
            if file.is_file() and heading not in headings(file):
                self.say(line, f'no such heading: {target}#{heading}')
        self.modules(line, text)
        files = self.files(line, text)
        for place, cell in enumerate(cells if self.named else ()):
            self.names(line, cell, files, self.head[place] if place < len(self.head) else '')

    def modules(self, line, text):
        """What is run by `python3 -m`."""
        for module in re.findall(r'python3 -m ([\w.]+)', text):
            path = module.replace('.', '/')
            if not any((ROOT / file).exists() for file in (f'{path}.py', f'{path}/__main__.py')):
                self.say(line, f'no such module: {module}')

    def files(self, line, text):
        """The files that a text names, folders opened; those that are not there are said."""
        found, before = [], None
        text = re.sub(r'https?://\S+', '', text)
        for target in LINK.findall(text):
            found.append((self.path.parent / target).resolve())
        for token in PATH.findall(LINK.sub(' ', text)) if self.placed else ():
            token = token.rstrip('.')
            if STANDS_FOR_ANY.search(token) or not self.looks_like_path(token):
                continue
            self.counted['paths'] += 1
            if self.path.name == 'PROMISES.md' and '*' not in token and f'`{token}' not in text:
                self.say(line, f'no link: {token}')
            places = [*([before] if before else []), *self.bases, ROOT, CRATES, self.path.parent]
            hits = [hit for place in places for hit in (sorted(place.glob(token)) or sorted(place.glob(token + '.antt')))]
            if not hits:
                self.say(line, f'no such path: {token}')
                continue
            found += hits if '*' in token else hits[:1]
            before = hits[0].parent
        return [file for path in found for file in (sources(path) if path.is_dir() else [path])]

    def looks_like_path(self, token):
        """Not a fraction, a product or an 'and/or'."""
        if '/' not in token:
            return not token.startswith('*')
        if self.path.name == 'WRONG.md':        # crate/edit is no path: `edits` looks those up
            return re.search(r'\.\w+$', token) is not None
        if token in EDITS | TRIED:
            return False
        return token.split('/')[0] in FIRST

    def names(self, line, cell, files, head):
        """The names in backticks of one cell or paragraph."""
        crate, last = None, ''
        here = set().union(*(NAMES[file] for file in files if file in NAMES))
        fields = set().union(*(NAMES[source] for file in files for source in NAMES if source.suffix == '.rt' and same_crate(file, source)))
        for code in CODE.findall(LINK.sub(' ', cell)):
            if not WORD.fullmatch(code) and not re.fullmatch(r'_\w+', code):
                continue
            self.counted['names'] += 1
            if re.fullmatch(r'_\w+', code):         # the same name with another last word
                code = last.rsplit('_', 1)[0] + code
            if '::' in code:
                first = code.split('::')[0]
                within = (CRATES / str(crate) / 'src' / f'{first}.rt').exists()
                crate = crate if within else first
                self.member(line, f'{crate}::{code}' if within else code)
            elif code in PLAIN_WORDS or code in FILES:
                pass
            elif code not in ALL and not (self.path.parent / code).exists():
                self.say(line, f'not declared: {code}')
            elif here and (code in STATED or head in STRICT) and code not in fields and code not in here:
                self.say(line, f'not declared in the files named there: {code}')
            elif crate and head == 'function' and not any(code in names for file, names in NAMES.items() if CRATES / crate in file.parents):
                self.say(line, f'not declared in {crate}: {code}')
            last = code

    def member(self, line, code):
        """`crate::module::name`."""
        crate, *inner = code.split('::')
        source = CRATES / crate / 'src' if (CRATES / crate).exists() else None
        if source is None:      # a type and its constant or function
            if crate not in ALL or inner[-1] not in ALL:
                self.say(line, f'not declared: {code}')
            return
        *modules, name = inner
        file = source / (f'{modules[0]}.rt' if modules and modules[0] != '..' else 'lib.rt')
        if name == '*' and not modules:
            file = source
        if '..' in modules:
            known = set().union(*(NAMES[path] for path in NAMES if source in path.parents))
        elif not file.exists():
            known = set()
        else:
            known = {'*'} | NAMES.get(file, set()) | {path.stem for path in source.glob('*.rt')}
        if name not in known:
            self.say(line, f'not declared: {code}')


def headings(path):
    """The headings of a file, as links name them."""
    titles = re.findall(r'^#+ (.*)$', path.read_text(), re.M)
    return {re.sub(r'[^\w -]', '', title).strip().lower().replace(' ', '-') for title in titles}
