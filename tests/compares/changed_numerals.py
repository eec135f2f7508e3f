"""Numerals of the model, each changed by one: are they seen by what the gate holds the definitions and the code to?

The numerals of the chain are tried on the jobs of crates/vectors, those of the soil log on the logs of crates/run_logs, those of
the ranges and refusals on the changed jobs of crates/run_refusals, the jobs of crates/vectors, the shear calls and distributions of
crates/run_calls and the cases of crates/run_drifts, those of districts on crates/run_districts and on the file of sheets of crates/district,
those of drift, torsion and accidental moments on crates/run_drifts: the files that stand there, which the unchanged model must meet first.
What they do not see, and the numerals of towers, are tried on the figures of tests/compares/check_model.py. A numeral of an assertion is left
alone, and so are the names of LEFT, each with its reason.

usage: python3 -m tests.compares.changed_numerals
"""

import ast
import contextlib
import copy
import inspect
import io
import pathlib
import re
import signal
import sys

from tests.compares import check_model
from tests.compares.checks import basin as basin_figures, errors, figures, sheet_files, towers as tower_figures
from tests.model import accidental, basin, calls, district, drift, exact, limits, response, shears, sheets, site, soil, storeys, torsion, towers
from tests.model.job import job
from tests.writes import call_cases, district_sheets, districts, drifts, log_cases, refusal_cases, stored_drifts, vectors

LEFT = {
    **dict.fromkeys(('DIGITS', 'low_fraction', 'high_fraction', 'squares', 'bounds', 'base_margin', 'check', 'check_distribution'),
                    'the margin, not the chain'),
    'root': 'where a search begins and how it goes; that it ends at the root is asserted',
}
# (module, line, numeral): why the changed text means the same
SAME = {
    ('tests.model.site', 'S_S_COLUMNS', 5000): 'the coefficients of the first two columns are equal in every class',
    ('tests.model.site', 'S_S_COLUMNS', 9000): 'those of the last two are equal in every class',
    ('tests.model.response', 'k', 1): 'no root^2 of an R lies less than one above a square',
    ('tests.model.limits', 'for', 4): 'there are four lists',
}
MOST_SECONDS = 20       # a changed model may not end
CRATES = pathlib.Path(__file__).resolve().parents[2] / 'crates'


def numerals(tree):
    """The whole numbers of a module that are rules, in its order."""
    names = [getattr(tree, 'name', None), *(getattr(target, 'id', None) for target in getattr(tree, 'targets', ()))]
    if isinstance(tree, ast.Assert) or not LEFT.keys().isdisjoint(names):
        return
    if isinstance(tree, ast.Constant) and type(tree.value) is int:
        yield tree
    for node in ast.iter_child_nodes(tree):
        yield from numerals(node)


def changed(module):
    """Yield (place, text, key of SAME) with the module changed at that place; it is as it was afterwards. A class without a numeral stays the
    same one, as other modules hold it."""
    source = inspect.getsource(module)
    tree, lines = ast.parse(source), source.splitlines()
    tree.body = [node for node in tree.body if not isinstance(node, ast.ClassDef) or any(numerals(node))]
    for number, node in enumerate(numerals(tree)):
        other = copy.deepcopy(tree)
        list(numerals(other))[number].value += 1
        try:
            exec(compile(other, module.__file__, 'exec'), module.__dict__)      # pylint: disable=exec-used
            text = lines[node.lineno - 1].strip()
            yield f'{module.__name__}:{node.lineno}:{node.col_offset + 1}', text, (module.__name__, text.split()[0], node.value)
        finally:
            exec(compile(tree, module.__file__, 'exec'), module.__dict__)       # pylint: disable=exec-used


def vector_rows():
    """The jobs of crates/vectors as arguments of the model, with what it makes of each."""
    written = io.StringIO()
    with contextlib.redirect_stdout(written):
        vectors.main()
    assert written.getvalue() == (CRATES / 'vectors' / 'specs' / 'Rows.antt').read_text(), 'crates/vectors is of another model'
    for result, roots in vectors.all_worked():
        yield tuple(result.ground), tuple(result.frame), result.weights, result.heights, result.s, roots


def vector(line, frame, weights, heights, s, roots):
    """Every printed stage and every exact figure; a line of one number is a zone, of the changed model's own type."""
    result = job(limits.Basin(*line) if len(line) == 1 else line, frame, weights, heights, s=s)
    return vectors.printed(result), exact.chain(result, roots)


def answers(stored):
    """What a program's stored lines say after the last ': ' or '; ', case by case."""
    return [re.split('[:;] ', line)[-1] for line in stored.read_text().splitlines()]


def called(case):
    """What the program `run_calls` says of a case; a ground of one number is a zone, of the changed model's own type."""
    if isinstance(case, call_cases.Shear) and len(case.ground) == 1:
        case = case._replace(ground=limits.Basin(*case.ground))
    return case.said()


def judged(*case):
    """What the program `run_refusals` says of a changed job, `run_calls` of a call or `run_drifts` of a case; or a job's stages, which are there where
    it is accepted."""
    if isinstance(case[0], tuple(stored_drifts.LINES)):
        return case[0].said()
    if isinstance(case[0], (call_cases.Shear, call_cases.Distribution)):
        return called(*case)
    return refusal_cases.outcome(*case) if len(case) == 1 else vector(*case)


def log_or_velocity(*case):
    """What the program `run_logs` says of three lists, or of a kind and its value."""
    return log_cases.outcome(*case) if len(case) == 3 else str(log_cases.velocity(*case))


def in_district(case):
    """What the program `run_districts` says of a case, or the program `district` of a file of sheets."""
    return sheets.listing(case) if isinstance(case, bytes) else case.said()


def late(*_):
    """The changed model took too long."""
    raise TimeoutError


def sees(probe, cases, known):
    """The first case that comes out otherwise, or at which the model stops or does not end; None where there is none."""
    signal.signal(signal.SIGALRM, late)
    for case, answer in zip(cases, known):
        signal.alarm(MOST_SECONDS)
        try:
            if probe(*case) != answer:
                return case
        except Exception:       # a changed model may stop anywhere: that too is seen
            return case
        finally:
            signal.alarm(0)
    return None


def suites():
    """(modules, the function tried, its cases, what it is known to answer)."""
    rows = list(vector_rows())
    yield (site, basin, response, shears, storeys, exact), vector, rows, [vector(*row) for row in rows]
    logs = [*(log_cases.lists(*case) for case in log_cases.all_cases()), *log_cases.values()]
    yield (soil,), log_or_velocity, logs, answers(CRATES / 'run_logs' / 'stdout')
    of_drift = drifts.all_cases()
    yield (drift, torsion, accidental), judged, [(case,) for case in of_drift], drifts.stored(of_drift)
    jobs = [(changes,) for changes in refusal_cases.all_cases()]
    cases = call_cases.all_cases()
    known = [*drifts.stored(of_drift), *answers(CRATES / 'run_refusals' / 'stdout'), *(vector(*row) for row in rows), *call_cases.stored(cases)]
    yield (limits, calls), judged, [*((case,) for case in of_drift), *jobs, *rows, *((case,) for case in cases)], known
    yield (towers,), towers.holds, [], []        # no stored case says what towers add up to
    cases = districts.all_cases()
    known = [*districts.stored(cases), district_sheets.stored()]
    yield (district, sheets), in_district, [(case,) for case in (*cases, district_sheets.file_of_sheets())], known


def by_figures():
    """Do the figures that the model is checked against see it?"""
    if any(towers.holds(*case) != known for case, known in tower_figures.HOLDS.items()):
        return True
    return any(got != wanted for module in (figures, basin_figures, errors, sheet_files) for _, got, wanted in check_model.answers(module))


def main():
    """Print what the stored cases do not see, and the counts."""
    tried = by_cases = by_others = same = 0
    for modules, probe, cases, known in suites():
        assert len(cases) == len(known) and sees(probe, cases, known) is None, 'the stored cases are of another model'
        for module in modules:
            count = 0
            for place, text, key in changed(module):
                count += 1
                if sees(probe, cases, known) is not None:
                    by_cases += 1
                elif by_figures():
                    by_others += 1
                    print(f'{place}: seen by the figures of check_model only: {text}', flush=True)
                else:
                    same += key in SAME
                    print(f'{place}: not seen: {text}: {SAME.get(key, "no reason known")}', flush=True)
            assert sees(probe, cases, known) is None and not by_figures(), 'the model is not as it was'
            tried += count
            print(f'{module.__name__}: {count} numerals', flush=True)
    print(f'{tried} numerals: {by_cases} seen by the stored cases, {by_others} by the figures of check_model only, {same} mean the same')
    return 0 if tried == by_cases + by_others + same else 1


if __name__ == '__main__':
    sys.exit(main())
