/* V_D without storeys, the factor by which document 000, 3.4, scales a dynamic analysis, and a base shear of one's own over the storeys. The
 * building is that of the worked sheet; docs/manual/shear_and_storeys.md works these figures out by hand. After examples/build.sh, from the
 * project's root:
 *
 *     cc -Iinclude -o target/lib/scaling examples/scaling.c target/lib/librukeshomaji.a && target/lib/scaling
 */
#include <inttypes.h>
#include <stdio.h>
#include "rukeshomaji.h"

enum { LEVELS = 3, ANALYSES = 3, REGULAR = 90, IRREGULAR = 100, MILLION = 1000000 };

/* The base shear that the analysis is brought to, in N: so many percent of V_D, rounded up. */
static uint64_t required(uint64_t percent, uint64_t vd)
{
    return (percent * vd + 99) / 100;
}

/* What forces and deformations of the analysis are multiplied by, in millionths: the required base shear over that of the analysis, rounded up,
 * so that the scaled base shear is not below the required one; 1 where the analysis gives as much. The base shear of the analysis is in N, 1
 * or more, rounded down. */
static uint64_t factor(uint64_t percent, uint64_t vd, uint64_t analysis)
{
    uint64_t millionths = (required(percent, vd) * MILLION + analysis - 1) / analysis;
    return millionths > MILLION ? millionths : MILLION;
}

static int refusal(uint64_t number, uint64_t place)
{
    fprintf(stderr, "refused %" PRIu64 " at %" PRIu64 "\n", number, place);
    return 1;
}

int main(void)
{
    RukeshomajiSite site = {80, 45, 100, 55, 100, 100, 100, 100, RUKESHOMAJI_HARD};
    RukeshomajiFrame frame = {RUKESHOMAJI_CONCRETE, 1000, 480, 100, 150};
    uint64_t weights[LEVELS] = {5000, 5000, 5000}, heights[LEVELS] = {100, 200, 300}, analyses[ANALYSES] = {850000, 1000000, 1100000};
    uint64_t forces[LEVELS], shears[LEVELS], overturnings[LEVELS], weight = 0, place;
    RukeshomajiFigures f;
    if (rukeshomaji_version() / 1000000 != RUKESHOMAJI_VERSION / 1000000 || rukeshomaji_version() < 2002000) {
        fprintf(stderr, "the library is of another major version than the header, or older than 2.2.0\n");
        return 2;
    }
    for (int x = 0; x < LEVELS; x++) weight += weights[x];
    uint64_t refused = rukeshomaji_shear_call(&site, &frame, weight, heights[LEVELS - 1], &f);
    if (refused) return refusal(refused, f.place);
    printf("base\t%" PRIu64 "\t%" PRIu64 "\t%" PRIu64 "\t%" PRIu64 "\t%" PRIu64 "\n", f.v, f.vm, f.star, f.vd, f.t);
    for (int a = 0; a < ANALYSES; a++) {
        printf("regular\t%" PRIu64 "\t%" PRIu64 "\t%" PRIu64 "\n", analyses[a], required(REGULAR, f.vd), factor(REGULAR, f.vd, analyses[a]));
        printf("irregular\t%" PRIu64 "\t%" PRIu64 "\t%" PRIu64 "\n", analyses[a], required(IRREGULAR, f.vd), factor(IRREGULAR, f.vd, analyses[a]));
    }
    refused = rukeshomaji_distribution(required(REGULAR, f.vd), f.t, weights, LEVELS, heights, LEVELS, forces, LEVELS, shears, LEVELS,
                                       overturnings, LEVELS, &place);
    if (refused) return refusal(refused, place);
    for (int x = LEVELS; x > 0; x--)
        printf("level\t%d\t%" PRIu64 "\t%" PRIu64 "\t%" PRIu64 "\n", x, forces[x - 1], shears[x - 1], overturnings[x - 1]);
    return 0;
}
