"""What moves.c prints, by the module rukeshomaji.py beside this file. After examples/build.sh, from the project's root:

    python3 examples/moves.py
"""

from rukeshomaji import Frame, Site, shear_call

SITE, FRAME, WEIGHT, HEIGHT = Site(80, 45, 100, 55, 100, 100, 100, 100, 1), Frame(2, 1000, 480, 100, 150), 15_000, 300
# what is changed and the new number; frame and total weight with it
CHANGES = [*(('R', r, FRAME._replace(r=r), WEIGHT) for r in (100, 175, 400, 480, 600)), ('I', 125, FRAME._replace(i=125), WEIGHT),
           ('alpha-y', 100, FRAME._replace(alpha_y=100), WEIGHT), ('weight', 16_000, FRAME, 16_000)]


def main():
    """Each change with V, V_M, V*, V_D and T. I, alpha-y, R and the weight do not change T; with another T nothing is promised."""
    results = [shear_call(SITE, frame, weight, HEIGHT) for _, _, frame, weight in CHANGES]
    if len({figures.t for figures in results}) != 1:
        raise SystemExit('T differs: do not compare the shears')
    for (name, number, _, _), figures in zip(CHANGES, results):
        print(name, number, *figures, sep='\t')


if __name__ == '__main__':
    main()
