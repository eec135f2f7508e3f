"""The base shear under which the drift of the worked sheet is judged, which storeys of a frame are within the drift limit of document 000, 0.005, the
torsion factor of three floors, and the accidental moments of the worked sheet's forces: what drift.c prints, by the module rukeshomaji.py beside this
file. docs/manual/drift.md works these figures out by hand. After examples/build.sh, from the project's root:

    python3 examples/drift.py
"""

from rukeshomaji import Frame, Site, accidental_moments, drift, shear_call, torsion

LIMIT = 50              # ten-thousandths: 0.005
BASE_SHEAR = 1_071_429  # V_D of the worked sheet, N
PERIOD = 1000           # T of the worked sheet, ms
DIMENSION = 240         # of the plan, at a right angle to the forces, dm
ALPHA_Y = 100           # hundredths: 1.00, with which V* is the base shear of the drift

# the frame: heights of its levels in dm and their displacements in 0.01 mm, lowest level first
FRAME_HEIGHTS, DISPLACEMENTS = [45, 80, 115, 150, 185, 220], [2251, 4001, 2880, 1270, -700, -1640]

# the floors: largest and average displacement of each, in 0.01 mm
FLOORS = [(2500, 2000), (2400, 1000), (1800, 1800)]

# the worked sheet: its site, its frame, and weights in kN and heights in dm of its levels
SITE, FRAME = Site(80, 45, 100, 55, 100, 100, 100, 100, 1), Frame(2, 1000, 480, 100, 150)
WEIGHTS, HEIGHTS = [5000] * 3, [100, 200, 300]


def print_drift():
    """Of each storey, the highest first: the difference between its ends and the most that the limit allows, in 0.01 mm, and the verdict."""
    verdicts, height, displacement, lines = drift(FRAME_HEIGHTS, DISPLACEMENTS, LIMIT), 0, 0, []
    for storey, (verdict, top, moved) in enumerate(zip(verdicts, FRAME_HEIGHTS, DISPLACEMENTS), 1):
        lines.append(('storey', storey, moved - displacement, LIMIT * (top - height), 'yes' if verdict else 'no'))
        height, displacement = top, moved
    for line in reversed(lines):
        print(*line, sep='\t')


def main():
    """The base shear of the drift in N, the storeys, the factor of each floor in thousandths, the moment of each level each way in 0.01 N*dm."""
    print('V_drift', shear_call(SITE, FRAME._replace(alpha_y=ALPHA_Y), sum(WEIGHTS), HEIGHTS[-1]).star, sep='\t')
    print_drift()
    for largest, average in FLOORS:
        print('floor', largest, average, torsion(largest, average), sep='\t')
    moments = accidental_moments(BASE_SHEAR, PERIOD, WEIGHTS, HEIGHTS, DIMENSION)
    for level in range(3, 0, -1):
        print('moment', level, moments.positive[level - 1], moments.negative[level - 1], sep='\t')


if __name__ == '__main__':
    main()
