"""How far printed shears come above the exact figure of demand 3: the largest excess seen, and the job or call that shows it.

Demand 3 grants six ten-millionths of I*W/(1.4*alpha-y) and some newtons. Ten-millionths are counted beyond the newtons, since a
light job has a ten-millionth far below a newton, and newtons beyond the six ten-millionths. The exact figure is the chain at roots
of 30 digits.
"""

from typing import NamedTuple

from tests.draws.plain_jobs import Inputs
from tests.model import exact, limits

MARGIN = 6
NEWTONS = {'base': 1, 'storey': 3}
# the jobs `heavy` and `tall` of crates/job/proofs/SharpMargin.antt
SHARP = (
    Inputs(limits.one_pair(50, 30, 100, 45, 149, 143, 2), limits.Frame(1, 95, 101, 150, 100), [20_000] * 50, list(range(1, 51))),
    Inputs(limits.one_pair(80, 30, 100, 50, 147, 165, 3), limits.Frame(1, 3_568, 446, 150, 192), [12, 1], [1_948, 2_000]),
)


def words(ground):
    """A ground with its numbers."""
    return f"{'basin' if isinstance(ground, limits.Basin) else 'site'} {tuple(ground)}"


class Excess(NamedTuple):
    """An excess, and the job or call that shows it."""

    size: object
    job: object


def shear_words(call):
    """A job or a shear call, as far as its base shear depends on it."""
    return f'{words(call.ground)} frame {tuple(call.frame)}'


class Largest:
    """The largest excess by part and unit, over the jobs measured."""

    parts, what = NEWTONS, 'jobs'

    def __init__(self, where=''):
        self.where, self.seen, self.jobs = where, {}, 0

    def keep(self, key, excess):
        """The larger of two."""
        if key not in self.seen or excess.size > self.seen[key].size:
            self.seen[key] = excess

    def over(self, job):
        """The excess of each part, in N; demand 3 is asserted of the job."""
        over = exact.check(job)
        return {'base': over.V_D, 'storey': max(over.storeys)}

    def measure(self, job):
        """One accepted job."""
        unit = exact.shear_unit(job) / job.s
        for part, excess in self.over(job).items():
            self.keep((part, 'N'), Excess(max(0, excess - MARGIN * unit), job))
            self.keep((part, 'ten-millionths'), Excess(max(0, excess - NEWTONS[part]) / unit, job))
        self.jobs += 1

    def add(self, other):
        """Another's jobs too."""
        for key, excess in other.seen.items():
            self.keep(key, excess)
        self.jobs += other.jobs

    def words(self, job):
        """One of the jobs."""
        return f'{shear_words(job)} {len(job.weights)} levels, {job.W} kN, top {job.heights[-1]}'

    def part_lines(self):
        """What was seen of each part beside what demand 3 grants."""
        for part in self.parts:
            beyond, most, newtons = self.seen[part, 'ten-millionths'], self.seen[part, 'N'], NEWTONS[part]
            yield f'  {part}: {float(beyond.size):.4f} ten-millionths beyond {newtons} N (granted: less than {MARGIN}), ' \
                  f'{float(most.size):.4f} N beyond {MARGIN} ten-millionths (granted: less than {newtons})'
            yield from (f'    {unit}: {self.words(job)}' for unit, job in (('ten-millionths', beyond.job), ('N', most.job)))

    def lines(self):
        """What was seen; nothing but the heading where nothing was measured."""
        yield ' '.join(('largest excess over the exact figure, of', str(self.jobs), self.what, self.where)).rstrip()
        if self.jobs:
            yield from self.part_lines()


class OfShears(Largest):
    """The same of shear calls, which have a base alone."""

    parts, what = ('base',), 'shear calls'

    def over(self, job):
        """The excess of V_D."""
        return {'base': exact.check_shear_call(job).V_D}

    def words(self, job):
        """One of the calls."""
        return f'{shear_words(job)} {job.W} kN, top {job.h}'


class OfDistributions(Largest):
    """The largest excess of distributions over the exact figure from the number handed in."""

    what = 'distributions'

    def measure(self, job):
        """One that was taken: "less than two newtons above" is asserted of it."""
        self.keep('N', Excess(exact.check_distribution(job), job))
        self.jobs += 1

    def part_lines(self):
        """What was seen beside what is granted."""
        size, over = self.seen['N']
        yield f'  storey: {float(size):.4f} N (granted: less than 2)'
        yield f'    N: {over.base_shear} N at {over.period} ms, weights {over.weights}, heights {over.heights}'
