"""What district.c prints, by the module rukeshomaji.py beside this file. After examples/build.sh, from the project's root:

    python3 examples/district.py
"""

from rukeshomaji import Frame, Site, district, in_basin, on_site

WIDTH = 10              # thousandths of a cell
WEIGHTS, HEIGHTS = [5000] * 3 + [3000] * 3 + [2500], [100, 200, 300, 40, 75, 110, 145]
OFFICE, STEEL = Frame(2, 1000, 480, 100, 150), Frame(1, 0, 480, 125, 100)
NEAR_FAULT = Site(70, 40, 90, 50, 112, 123, 118, 136, 2)
JOBS = [on_site(Site(80, 45, 100, 55, 100, 100, 100, 100, 1), OFFICE, 0, 3), in_basin(3, OFFICE, 0, 3), on_site(NEAR_FAULT, STEEL, 3, 4),
        on_site(NEAR_FAULT, STEEL._replace(r=200), 3, 4), on_site(Site(60, 35, 80, 45, 100, 100, 100, 100, 3), Frame(4, 0, 300, 100, 150), 5, 3)]


def main():
    """A row for each job, the totals of the report, and its cells that are not 0."""
    rows, report = district(JOBS, WEIGHTS, HEIGHTS)
    for number, row in enumerate(rows, 1):
        print('row', number, *row, sep='\t')
    *totals, cells = report
    print('report', *totals, sep='\t')
    for k, count in enumerate(cells):
        if count:
            print('cell', WIDTH * k, WIDTH * k + WIDTH - 1, count, sep='\t')


if __name__ == '__main__':
    main()
