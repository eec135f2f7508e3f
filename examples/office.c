/* The worked sheet as a call from C: it prints what examples/office.listing has. After examples/build.sh, from the project's root:
 *
 *     cc -Iinclude -o target/lib/office examples/office.c target/lib/librukeshomaji.a && target/lib/office
 */
#include <inttypes.h>
#include <stdio.h>
#include "rukeshomaji.h"

enum { LEVELS = 3 };

int main(void)
{
    RukeshomajiSite site = {80, 45, 100, 55, 100, 100, 100, 100, RUKESHOMAJI_HARD};
    RukeshomajiFrame frame = {RUKESHOMAJI_CONCRETE, 1000, 480, 100, 150};
    uint64_t weights[LEVELS] = {5000, 5000, 5000}, heights[LEVELS] = {100, 200, 300};
    uint64_t forces[LEVELS], shears[LEVELS], overturnings[LEVELS];
    RukeshomajiFigures f;
    if (rukeshomaji_version() / 1000000 != RUKESHOMAJI_VERSION / 1000000) {
        fprintf(stderr, "the library is of another major version than the header\n");
        return 2;
    }
    uint64_t refused = rukeshomaji_job(&site, &frame, weights, LEVELS, heights, LEVELS, forces, LEVELS, shears, LEVELS, overturnings, LEVELS, &f);
    if (refused) {
        fprintf(stderr, "refused %" PRIu64 " at %" PRIu64 "\n", refused, f.place);
        return 1;
    }
    printf("base\t%" PRIu64 "\t%" PRIu64 "\t%" PRIu64 "\t%" PRIu64 "\t%" PRIu64 "\n", f.v, f.vm, f.star, f.vd, f.t);
    for (int x = LEVELS; x > 0; x--)
        printf("level\t%d\t%" PRIu64 "\t%" PRIu64 "\t%" PRIu64 "\n", x, forces[x - 1], shears[x - 1], overturnings[x - 1]);
    return 0;
}
