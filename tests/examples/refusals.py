"""A call of examples/rukeshomaji.py for each refusal, and what it is to say."""

SITE, FRAME = (80, 45, 100, 55, 100, 100, 100, 100, 1), (2, 1000, 480, 100, 150)
WEIGHTS, HEIGHTS = [5000] * 3, [100, 200, 300]


def refusals(core):
    """A call for each refusal, and what it is to say."""
    def job(site=SITE, frame=FRAME, weights=WEIGHTS, heights=HEIGHTS):
        return core.job, (site, frame, weights, heights)

    def call(weight=15_000, height=300, site=SITE, frame=FRAME):
        return core.shear_call, (site, frame, weight, height)

    def basin_call(zone=1, weight=15_000, height=300, frame=FRAME):
        return core.basin_shear_call, (zone, frame, weight, height)

    def over(base_shear=1_071_429, period=1000, weights=WEIGHTS, heights=HEIGHTS):
        return core.distribution, (base_shear, period, weights, heights)

    def log(*lists):
        return core.site_class, lists

    def drift(heights=HEIGHTS, displacements=(100, 200, 300), limit=50):
        return core.drift, (heights, displacements, limit)

    def moments(base_shear=1_071_429, period=1000, weights=WEIGHTS, heights=HEIGHTS, dimension=240):
        return core.accidental_moments, (base_shear, period, weights, heights, dimension)

    def with_number(numbers, place, number):
        return (*numbers[:place], number, *numbers[place + 1:])

    yield 1, 0, job(weights=[], heights=[])
    yield 2, 0, job(heights=HEIGHTS[:2])
    yield 3, 2, job(weights=[5000, 20_001, 5000])
    yield 4, 3, job(heights=[100, 200, 200])
    yield from ((5, place + 1, job(with_number(SITE, place, 75))) for place in (0, 1, 2, 3))
    yield from ((6, place - 3, job(with_number(SITE, place, 99))) for place in (4, 5, 6, 7))
    yield 7, 0, job(with_number(SITE, 8, 4))
    yield from ((number, 0, job(frame=with_number(FRAME, place, 99_999))) for number, place in ((8, 2), (9, 3), (10, 4), (11, 0), (12, 1)))
    yield 13, 0, log([], [], [])
    yield 14, 2, log([3000, 0], [2, 2], [2, 2])
    yield 14, 0, log([2999], [2], [2])
    yield 15, 1, log([3000], [2], [1])
    yield from ((15, 2, log([1000, 2000], [core.MEASURED, kind], [2000, q])) for kind, q in ((core.SOFT_CLAY, 0), (core.SOFT_CLAY, 401), (5, 100)))
    yield 16, 1, (core.sheet, (b'',))
    yield 17, 0, (core.sheet, (b'\n' * 4097,))
    yield 18, 0, (core.sheet, (b'basin\t5\nframe\t2\t1000\t480\t100\t150\nlevel\t5000\t100\n',))
    yield from ((18, 0, (function, (zone, FRAME, WEIGHTS, HEIGHTS))) for function in (core.basin_job, core.basin_figures)
                for zone in (0, 5, 2 ** 64 - 1))
    for number in (0, 1_000_001, 2 ** 64 - 1):
        yield from ((3, 0, each) for each in (call(weight=number, height=0), basin_call(zone=5, weight=number)))
    for number in (0, 2_001, 2 ** 64 - 1):
        yield from ((4, 0, each) for each in (call(height=number, site=with_number(SITE, 0, 75)), basin_call(zone=5, height=number)))
    yield 5, 2, call(site=with_number(SITE, 1, 75), frame=with_number(FRAME, 2, 99))
    yield 18, 0, basin_call(zone=5, frame=with_number(FRAME, 2, 99))
    yield from ((12, 0, each) for each in (call(frame=with_number(FRAME, 1, 60_001)), basin_call(frame=with_number(FRAME, 1, 60_001))))
    yield 1, 0, over(0, weights=[], heights=[])
    yield 2, 0, over(0, heights=HEIGHTS[:2])
    yield 3, 2, over(0, weights=[5000, 20_001, 5000])
    yield 4, 3, over(0, heights=[100, 200, 200])
    yield from ((19, 0, over(number, 10_000)) for number in (0, 1_200_000_001, 2 ** 64 - 1))
    yield from ((20, 0, over(period=number)) for number in (10_000, 2 ** 64 - 1))
    jobs = [core.on_site(SITE, FRAME, 0, 3)]
    yield 1, 0, drift([], [0] * 5, 0)
    yield 1, 0, drift(range(1, 52), [0] * 51)
    yield 2, 0, drift(displacements=[0] * 2, limit=0)
    yield 4, 2, drift(heights=[100, 100, 300], displacements=[2_000_000] * 3)
    yield from ((23, place + 1, drift(displacements=with_number((100, 200, 300), place, number), limit=0)) for place in (0, 1, 2)
                for number in (1_000_001, -1_000_001, 2 ** 63 - 1, -2 ** 63))
    yield from ((24, 0, drift(limit=number)) for number in (0, 10_001, 2 ** 64 - 1))
    yield from ((23, 0, (core.torsion, numbers)) for numbers in ((1_000_001, 0), (0, 1_000_001), (2 ** 64 - 1, 1), (1, 2 ** 64 - 1)))
    yield from ((25, 0, (core.torsion, numbers)) for numbers in ((0, 0), (1_000_000, 0), (999_999, 1_000_000)))
    yield 1, 0, moments(0, 10_000, [], [], 0)
    yield 2, 0, moments(0, heights=HEIGHTS[:2], dimension=0)
    yield 3, 2, moments(0, weights=[5000, 20_001, 5000])
    yield 4, 3, moments(0, heights=[100, 200, 200])
    yield 19, 0, moments(0, 10_000, dimension=0)
    yield 20, 0, moments(period=10_000, dimension=0)
    yield from ((26, 0, moments(dimension=number)) for number in (0, 5_001, 2 ** 64 - 1))
    yield from ((22, 0, (core.district, arguments)) for arguments in ((jobs * 257, WEIGHTS, HEIGHTS), (jobs, WEIGHTS, HEIGHTS[:2]), ([], [], [1])))
