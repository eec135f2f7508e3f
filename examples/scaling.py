"""What scaling.c prints, by the module rukeshomaji.py beside this file. After examples/build.sh, from the project's root:

    python3 examples/scaling.py
"""

from rukeshomaji import Frame, Site, distribution, shear_call

MILLION = 1_000_000
WEIGHTS, HEIGHTS = [5000] * 3, [100, 200, 300]


def required(percent, vd):
    """The base shear that the analysis is brought to, in N: so many percent of V_D, rounded up."""
    return -(-percent * vd // 100)


def factor(percent, vd, analysis):
    """What forces and deformations of the analysis are multiplied by, in millionths, rounded up; 1 where the analysis gives as much.

    The base shear of the analysis is in N, 1 or more, rounded down.
    """
    return max(MILLION, -(-required(percent, vd) * MILLION // analysis))


def main():
    """V_D alone, three analyses of a regular and of an irregular building, and 90 % of V_D over the storeys."""
    figures = shear_call(Site(80, 45, 100, 55, 100, 100, 100, 100, 1), Frame(2, 1000, 480, 100, 150), sum(WEIGHTS), HEIGHTS[-1])
    print('base', *figures, sep='\t')
    for analysis in (850_000, 1_000_000, 1_100_000):
        for building, percent in (('regular', 90), ('irregular', 100)):
            print(building, analysis, required(percent, figures.vd), factor(percent, figures.vd, analysis), sep='\t')
    storeys = distribution(required(90, figures.vd), figures.t, WEIGHTS, HEIGHTS)
    for level in range(3, 0, -1):
        print('level', level, *(each[level - 1] for each in storeys), sep='\t')


if __name__ == '__main__':
    main()
