"""What podium.c prints, by the module rukeshomaji.py beside this file. After examples/build.sh, from the project's root:

    python3 examples/podium.py
"""

from rukeshomaji import Frame, Site, shear_call

SITE, FRAME = Site(80, 45, 100, 55, 100, 100, 100, 100, 1), Frame(2, 1000, 480, 100, 150)
# total weight in kN and top height in dm of each tower
SPLITS = [[(5000, 300), (10_000, 300)], [(7500, 250), (7500, 300)], [(4996, 300), (4996, 300), (5008, 300)]]


def called(name, weight, height):
    """The figures of a shear call, printed: weight, height, V_D and T."""
    figures = shear_call(SITE, FRAME, weight, height)
    print(name, weight, height, figures.vd, figures.t, sep='\t')
    return figures


def main():
    """Each building in towers and as a whole, with the height of its highest tower, and how many newtons more the towers come to."""
    for towers in SPLITS:
        parts = [called('tower', *tower) for tower in towers]
        whole = called('whole', sum(weight for weight, _ in towers), max(height for _, height in towers))
        if any(part.t != whole.t for part in parts):
            raise SystemExit('T differs: do not compare the sum')
        print('more', sum(part.vd for part in parts) - whole.vd, sep='\t')


if __name__ == '__main__':
    main()
