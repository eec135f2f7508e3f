"""Holds the counts that the papers state to the repository: each is counted, and no number stands here.

usage: python3 -m tests.counts

- stored cases of the programs and rows of `vectors`: docs/MAP.md, docs/PROMISES.md, docs/LIMITS.md, docs/MEASURED.md, docs/DECISIONS.md
- what the gate passes, edits of tests/tried, checks of the model: docs/MEASURED.md
- how many wrong ideas of each request are in the gate: docs/DECISIONS.md, by the sections of docs/WRONG.md
- version and source: README.md, CHANGELOG.md, by crates/linked; the kit's name, the same in README.md and docs/LIMITS.md

It prints what is wrong, or not said, and one line of counts, and exits with 1 where anything is.
"""

import pathlib
import re
import sys

from tests.compares import check_model
from tests.draws.roof import ENDS
from tests.model import limits
from tests.writes.stored_calls import BASIN_GROUND
from tests.writes.stored_drifts import DRIFT, MOMENTS, TORSION

ROOT = pathlib.Path(__file__).resolve().parents[1]
CRATES = ROOT / 'crates'
NUMBER = r'(\d[\d,]*|one|two|three|four|five|six|seven|eight|nine|ten|eleven|twelve)'
WORDS = dict(zip('one two three four five six seven eight nine ten eleven twelve'.split(), range(1, 13)))
REFUSED = re.compile('^refused', re.M)
PAIRS = (4, 5), (6, 7)         # places of the near-fault factors among the numbers of a site
GROUND, SITE = 0, 1            # places of the two among the numbers of a case of `run_jobs`; the frame and the counts of the lists follow the site


def lines(crate, name):
    """The lines of a file of a crate."""
    return (CRATES / crate / name).read_text().splitlines()


def numbered(crate, before=0):
    """The lines of a program's input as numbers: the cases, as many as the first line says, and what stands before them."""
    (count,), *rows = ([int(word) for word in line.split()] for line in lines(crate, 'stdin'))
    cases = rows[len(rows) - count:]
    assert len(rows) - count == before, f'{crate}/stdin: {count} cases, and {len(rows)} lines'
    return cases, rows[:before]


def field(crate, name):
    """A constant of a program's src/fields.rt."""
    return int(re.search(rf'const {name}: \w+ = (\d+);', (CRATES / crate / 'src' / 'fields.rt').read_text())[1])


def refused(crate):
    """Cases of a program that are refused."""
    return len(REFUSED.findall((CRATES / crate / 'stdout').read_text()))


def grounds(rows, ground, site):
    """How many cases of a program are in the Basin, and how many on sites whose two pairs of near-fault factors differ, by the places of the two."""
    on_sites = [row for row in rows if row[ground] == 0]
    pairs = [[[row[site + place] for place in pair] for pair in PAIRS] for row in on_sites]
    return len(rows) - len(on_sites), sum(design != mce for design, mce in pairs)


def jobs():
    """Cases of `run_jobs`, in the Basin, with two pairs, refused; the numbers that a case begins with."""
    rows, _ = numbered('run_jobs')
    weights = SITE + len(limits.Site._fields) + len(limits.Frame._fields)
    heights = weights + 1
    (head,) = {len(row) - row[weights] - row[heights] for row in rows}
    return len(rows), *grounds(rows, GROUND, SITE), refused('run_jobs'), head


def sheets():
    """Sheets of `run_sheets`, of the Basin, of the pairs, of the roof force, of two refusals and of limits, refused."""
    names = lines('run_sheets', 'data/names')
    stored = [path.name for path in (CRATES / 'run_sheets' / 'data').iterdir() if path.name != 'names']
    assert sorted(names) == sorted(stored), 'run_sheets/data/names: does not list the sheets'
    return len(names), *(sum(name.startswith(first) for name in names) for first in ('basin_', 'pairs_', 'roof_', ('two_', 'beside_'))), refused('run_sheets')


def changed_jobs():
    """Cases of `run_refusals`, in the Basin, with two pairs."""
    changes, (good,) = numbered('run_refusals', before=1)
    cases = [dict(enumerate(good)) | dict(zip(row[::2], row[1::2])) for row in changes]
    return len(cases), *grounds(cases, *(field('run_refusals', name) for name in ('GROUND', 'SITE')))


def calls():
    """Cases of `run_calls`: all, shear calls, distributions, refused."""
    rows, _ = numbered('run_calls')
    shears = sum(row[0] <= BASIN_GROUND for row in rows)
    return len(rows), shears, len(rows) - shears, refused('run_calls')


def districts():
    """Cases of `run_districts`, all their jobs, and cases that are refused as a whole."""
    rows, _ = numbered('run_districts')
    return len(rows), sum(jobs for jobs, *_ in rows), refused('run_districts')


def drifts():
    """Cases of `run_drifts`: all, of drift, of torsion, of accidental moments, refused."""
    rows, _ = numbered('run_drifts')
    kinds = [row[0] for row in rows]
    return len(rows), *(kinds.count(kind) for kind in (DRIFT, TORSION, MOMENTS)), refused('run_drifts')


def logs():
    """Cases of `run_logs`, and the last N and the last q of the velocities behind them."""
    rows, _ = numbered('run_logs')
    last = {word: max(map(int, re.findall(rf', {word} (\d+):', (CRATES / 'run_logs' / 'stdout').read_text()))) for word in 'Nq'}
    return len(rows), last['N'], last['q']


def vectors():
    """Rows of `vectors`, in the Basin, with two pairs, at the ends of the rule of the roof force, in millionths."""
    rows = [line.strip() for line in lines('vectors', 'specs/Rows.antt') if re.match(r' +(vector|basin_vector) ', line)]
    periods = [int(re.search(r'\(roots_of [\d ]+\) \((?:\d+ ∷ ){7}(\d+) ', row)[1]) for row in rows]
    runs = sum(tuple(periods[first:first + len(ENDS)]) == ENDS for first in range(len(rows)))
    return (len(rows), sum(row.startswith('basin_vector') for row in rows), sum('(site_of_pairs ' in row for row in rows), runs * len(ENDS),
            sum(row.split()[1] == '1000000' for row in rows))


def ideas(title):
    """Wrong ideas of a section of docs/WRONG.md: all; in the gate, of these of the code; tried outside it, of these of definitions."""
    section = (ROOT / 'docs' / 'WRONG.md').read_text().split(f'## {title}\n')[1].split('\n## ')[0]
    marks = re.findall(r'\| (code|definition)(, tried)? \|', section)
    gate, tried = ([what for what, mark in marks if bool(mark) == left_out] for left_out in (False, True))
    return len(marks), len(gate), gate.count('code'), len(tried), tried.count('definition')


def roots():
    """Must-fail edits of the code of the two roots."""
    texts = [edit.read_text() for edit in (CRATES / 'whole' / 'must-fail').glob('*.edit')]
    return sum(re.search(r'^file: src/(paper|roots)\.rt$', text, re.M) is not None for text in texts)


def gate():
    """What the gate passes: crates and must-fail edits; edits of tests/tried; checks of the model."""
    crates = re.findall(r'^[^#\n]+:', (ROOT / 'crates.txt').read_text(), re.M)
    edits, tried = (len(list(folder.glob(files))) for folder, files in ((CRATES, '*/must-fail/*.edit'), (ROOT / 'tests' / 'tried', '*/*.edit')))
    return len(crates) + edits, tried, sum(1 for module in check_model.MODULES for _ in module.checks())


def release():
    """Version and source, as a program asks for them; the version as it is written."""
    text = (CRATES / 'linked' / 'src' / 'lib.rt').read_text()
    version, source = (int(re.search(rf'pub const {name}: u64 = ([\d_]+);', text)[1].replace('_', '')) for name in ('VERSION', 'SOURCE'))
    return version, source, f'{version // 10**6}.{version // 1000 % 1000}.{version % 1000}'


def statements():
    """(paper, what it says, the numbers). N stands for a number, in digits or as a word, and [N] for the letter."""
    job, in_basin, with_pairs, job_refused, head = jobs()
    sheet, changed, call, log, vector = sheets(), changed_jobs(), calls(), logs(), vectors()
    passed, tried, checks = gate()
    yield 'docs/MAP.md', r'`run_jobs` \(N job calls, N in the Taipei Basin, N with two pairs', (job, in_basin, with_pairs)
    yield 'docs/MAP.md', r'`run_sheets` \(N sheets, N of the Basin, N of the pairs, N of the roof force, N of two refusals and of limits, N of all refused\)', sheet
    yield 'docs/MAP.md', r'`run_refusals` \(N changed jobs, N in the Basin, N with two pairs\)', changed
    yield 'docs/MAP.md', r'`run_calls` \(N calls: N shear calls, N distributions with every cell of their buffers; N refused\)', call
    yield 'docs/PROMISES.md', r'`run_districts` \(N districts, N of them refused as a whole', districts()[::2]
    yield 'docs/MAP.md', r'`run_districts` \(N districts of N jobs in all, with every cell of their rows; N refused as a whole\)', districts()
    yield ('docs/MAP.md', r'`run_drifts` \(N calls: N of drift, N of torsion, N of accidental moments, with every cell of their buffers; N refused\)',
           drifts())
    yield ('docs/PROMISES.md', r'`run_drifts` \(N calls, N of drift, N of torsion and N of accidental moments, with all cells of their buffers, N refused\)',
           drifts())
    yield 'docs/MAP.md', r'`run_logs` \(N soil logs, every blow count from 0 to N and every q from 0 to N\)', log
    yield 'docs/MAP.md', r'`vectors` holds the definitions to N jobs, N in the Basin, N with two pairs, N of all at the ends', vector[:4]
    yield 'docs/PROMISES.md', r'N jobs of the independent model, N of them in the Taipei Basin and N with two pairs of [^,]+, N of all', vector[:4]
    yield ('docs/PROMISES.md', r'`run_jobs` \(N calls with all cells of their buffers, N of them refused; N in the Basin, N with two pairs\)',
           (job, job_refused, in_basin, with_pairs))
    yield ('docs/PROMISES.md', r'`run_sheets` \(N sheets, N of them refused; N of the Basin, N of the pairs, N of the roof force, N of two refusals and of limits\)',
           (sheet[0], sheet[-1], *sheet[1:-1]))
    yield 'docs/PROMISES.md', r'`run_refusals` \(N changed jobs, N in the Basin, N with two pairs\)', changed
    yield 'docs/PROMISES.md', r'`run_calls` \(N calls, N of them shear calls and N distributions with all cells of their buffers, N refused\)', call
    yield 'docs/PROMISES.md', r'`run_logs` \(N logs, and the velocity of every [N] from 0 to N and of every q from 0 to N\)', log
    yield ('docs/LIMITS.md', r'agree with N jobs of an independent model, N of them in the Basin, N with two pairs of [^|]+? and N of all',
           vector[:4])
    yield 'docs/MEASURED.md', r'`\.ci/run` in a fresh clone, [^.]*? N passed', (passed,)
    yield ('docs/MEASURED.md', r'It runs N stored jobs, N changed jobs, N sheets, N calls of the shear call and the distribution, N districts, '
           r'N calls of drift, torsion and accidental moments and N soil logs, and computes N',
           (job, changed[0], sheet[0], call[0], districts()[0], drifts()[0], log[0], vector[0]))
    yield 'docs/MEASURED.md', r'check_model` makes N checks of the model', (checks,)
    yield 'docs/MEASURED.md', r'`tests/tried\.sh` tries N more edits', (tried,)
    yield 'docs/DECISIONS.md', r'the N jobs of the model are compared by a computed statement', (vector[0],)
    yield 'docs/DECISIONS.md', r'held to the core by the comparison, and to N jobs', (vector[0],)
    yield 'docs/DECISIONS.md', r'every tenth row of `vectors` of each kind of ground, N of them, is in millionths', (vector[4],)
    yield 'docs/DECISIONS.md', r'a case of `run_jobs` is its first N numbers, .* as many as the counts among the N say', (head, head)
    yield from wishes()
    yield from released()


def wishes():
    """How many wrong ideas of each request docs/DECISIONS.md leaves in the gate."""
    decisions = 'docs/DECISIONS.md'
    pairs, finer, towers, moves = (ideas(f'The wrong ideas of {each}') for each in (
        'a pair of near-fault factors for each hazard level', 'the finer spectrum', 'towers on one podium', 'which way the figures move'))
    yield decisions, r'of the N wrong ideas of two pairs N are in the gate', pairs[:2]
    yield decisions, r'with the N edits of the finer spectrum in the gate', finer[1:2]
    yield decisions, r'with the N edits of the root in the gate', (roots(),)
    yield decisions, r'of the wrong ideas of towers N edits are in the gate and N (?:is|are) tried outside it', (towers[1], towers[3])
    yield decisions, r'of the wrong ideas of moves N edits are in the gate, N of them of the code, and N of definitions are tried outside it', (
        moves[1], moves[2], moves[4])


def released():
    """Version, source and kit."""
    version, source, written = release()
    kit = re.search(r'`(rattle-\S+ logic (\w+))`', (ROOT / 'docs' / 'LIMITS.md').read_text())
    yield 'README.md', r'The version is ([\d.]+\d)\.', (written,)
    yield 'README.md', r'`rt version` says `([^`]+)`', (kit[1],)
    yield 'docs/LIMITS.md', r'`sum=(\w+) native', (kit[2],)
    yield 'docs/LIMITS.md', r'its sum, (\w+), in every verdict', (kit[2],)
    yield 'CHANGELOG.md', r'\n## (\d[\d.]*\d): ', (written,)
    yield 'CHANGELOG.md', r'(?:`rukeshomaji_version` stays|The version is) N', (version,)
    yield 'CHANGELOG.md', r'(?:`rukeshomaji_source` stays|The source of the rules is|The source of the rules stays) N', (source,)


def value(text):
    """What a group says: a number in digits or as a word, or any other text as it stands."""
    if re.fullmatch(r'\d{1,3}(,\d{3})+|\d+', text):
        return int(text.replace(',', ''))
    return WORDS.get(text, text)


def wrong():
    """How many numbers are held, and each statement that a paper does not make, or makes with another number. The first place in a paper counts:
    in CHANGELOG.md it is the newest."""
    texts, counted, said = {}, 0, []
    for paper, words, numbers in statements():
        text = texts.setdefault(paper, (ROOT / paper).read_text())
        counted += len(numbers)
        pattern = re.sub(r'(?<![\w\[])N(?![\w\]])', lambda _: NUMBER, words).replace(' ', r'\s+')
        found = re.search(pattern, text)
        if not found:
            said.append(f'{paper}: does not say: {words}')
        elif tuple(map(value, found.groups())) != numbers:
            said.append(f"{paper}: says {', '.join(found.groups())}; counted: {', '.join(map(str, numbers))}; in: {words}")
    return counted, said


def main():
    """Print what is wrong."""
    counted, said = wrong()
    print(*said, sep='\n', end='\n' if said else '')
    print(f'{counted} counts, {len(said)} wrong')
    return 1 if said else 0


if __name__ == '__main__':
    sys.exit(main())
