/* Drift, torsion and accidental moments: the base shear under which the drift of the worked sheet is judged, which storeys of a frame are within
 * the drift limit of document 000, 0.005, the torsion factor of three floors, and the accidental moments of the worked sheet's forces.
 * docs/manual/drift.md works these figures out by hand. After examples/build.sh, from the project's root:
 *
 *     cc -Iinclude -o target/lib/drift examples/drift.c target/lib/librukeshomaji.a && target/lib/drift
 */
#include <inttypes.h>
#include <stdio.h>
#include "rukeshomaji.h"

enum { STOREYS = 6, FLOORS = 3, LEVELS = 3 };
enum {
    LIMIT = 50,             /* ten-thousandths: 0.005 */
    BASE_SHEAR = 1071429,   /* V_D of the worked sheet, N */
    PERIOD = 1000,          /* T of the worked sheet, ms */
    DIMENSION = 240,        /* of the plan, at a right angle to the forces, dm */
    ALPHA_Y = 100           /* hundredths: 1.00, with which V* is the base shear of the drift */
};

/* the frame: heights of its levels in dm and their displacements in 0.01 mm, lowest level first */
static const uint64_t frame_heights[STOREYS] = {45, 80, 115, 150, 185, 220};
static const int64_t displacements[STOREYS] = {2251, 4001, 2880, 1270, -700, -1640};

/* the floors: largest and average displacement of each, in 0.01 mm */
static const uint64_t floors[FLOORS][2] = {{2500, 2000}, {2400, 1000}, {1800, 1800}};

/* the worked sheet: its site, its frame with that alpha-y, and weights in kN and heights in dm of its levels */
static const RukeshomajiSite site = {80, 45, 100, 55, 100, 100, 100, 100, RUKESHOMAJI_HARD};
static const RukeshomajiFrame frame = {RUKESHOMAJI_CONCRETE, 1000, 480, 100, ALPHA_Y};
static const uint64_t weights[LEVELS] = {5000, 5000, 5000}, heights[LEVELS] = {100, 200, 300};

static int refusal(uint64_t number, uint64_t place)
{
    fprintf(stderr, "refused %" PRIu64 " at %" PRIu64 "\n", number, place);
    return 1;
}

/* The base shear of the drift, in N: V* of the worked sheet with alpha-y as 1.00. */
static int print_base_shear(void)
{
    RukeshomajiFigures f;
    uint64_t weight = 0;
    for (int x = 0; x < LEVELS; x++) weight += weights[x];
    uint64_t refused = rukeshomaji_shear_call(&site, &frame, weight, heights[LEVELS - 1], &f);
    if (refused) return refusal(refused, f.place);
    printf("V_drift\t%" PRIu64 "\n", f.star);
    return 0;
}

/* Of each storey, the highest first: the difference between its ends and the most that the limit allows, in 0.01 mm, and the verdict. */
static int print_drift(void)
{
    uint64_t verdicts[STOREYS], place;
    uint64_t refused = rukeshomaji_drift(frame_heights, STOREYS, displacements, STOREYS, LIMIT, verdicts, STOREYS, &place);
    if (refused) return refusal(refused, place);
    for (int x = STOREYS - 1; x >= 0; x--) {
        int64_t bottom = x ? displacements[x - 1] : 0;
        uint64_t height = frame_heights[x] - (x ? frame_heights[x - 1] : 0);
        printf("storey\t%d\t%" PRId64 "\t%" PRIu64 "\t%s\n", x + 1, displacements[x] - bottom, LIMIT * height, verdicts[x] ? "yes" : "no");
    }
    return 0;
}

/* Of each floor: largest and average displacement in 0.01 mm, and the torsion factor in thousandths. */
static int print_torsion(void)
{
    for (int x = 0; x < FLOORS; x++) {
        RukeshomajiTorsion reply;
        uint64_t refused = rukeshomaji_torsion(floors[x][0], floors[x][1], &reply);
        if (refused) return refusal(refused, reply.place);
        printf("floor\t%" PRIu64 "\t%" PRIu64 "\t%" PRIu64 "\n", floors[x][0], floors[x][1], reply.factor);
    }
    return 0;
}

/* Of each level, the roof first: its accidental moment each way, in 0.01 N*dm. */
static int print_moments(void)
{
    int64_t positive[LEVELS], negative[LEVELS];
    uint64_t place;
    uint64_t refused = rukeshomaji_accidental_moments(BASE_SHEAR, PERIOD, weights, LEVELS, heights, LEVELS, DIMENSION, positive, LEVELS,
                                                      negative, LEVELS, &place);
    if (refused) return refusal(refused, place);
    for (int x = LEVELS; x > 0; x--) printf("moment\t%d\t%" PRId64 "\t%" PRId64 "\n", x, positive[x - 1], negative[x - 1]);
    return 0;
}

int main(void)
{
    if (rukeshomaji_version() / 1000000 != RUKESHOMAJI_VERSION / 1000000 || rukeshomaji_version() < 2006000) {
        fprintf(stderr, "the library is of another major version than the header, or older than 2.6.0\n");
        return 2;
    }
    return print_base_shear() || print_drift() || print_torsion() || print_moments();
}
