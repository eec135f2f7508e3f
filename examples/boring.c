/* The site class of a boring in soft clay; docs/manual/soft_clay.md works it out by hand. After examples/build.sh, from the project's root:
 *
 *     cc -Iinclude -o target/lib/boring examples/boring.c target/lib/librukeshomaji.a && target/lib/boring
 */
#include <inttypes.h>
#include <stdio.h>
#include "rukeshomaji.h"

enum { LAYERS = 5 };

int main(void)
{
    uint64_t thicknesses[LAYERS] = {300, 500, 400, 800, 1000};
    uint64_t kinds[LAYERS] = {RUKESHOMAJI_COHESIONLESS, RUKESHOMAJI_SOFT_CLAY, RUKESHOMAJI_SOFT_CLAY, RUKESHOMAJI_COHESIVE,
                              RUKESHOMAJI_COHESIONLESS};
    uint64_t values[LAYERS] = {8, 25, 40, 12, 35}; /* N = 8; q_u = 0.25 and 0.40 kgf/cm2; N = 12; N = 35 */
    RukeshomajiClass c;
    if (rukeshomaji_version() / 1000000 != RUKESHOMAJI_VERSION / 1000000 || rukeshomaji_version() < 2004000) {
        fprintf(stderr, "the library is of another major version than the header, or older than 2.4.0\n");
        return 2;
    }
    uint64_t refused = rukeshomaji_site_class(thicknesses, LAYERS, kinds, LAYERS, values, LAYERS, &c);
    if (refused) {
        fprintf(stderr, "refused %" PRIu64 " at %" PRIu64 "\n", refused, c.place);
        return 1;
    }
    printf("class\t%" PRIu64 "\n", c.class_number);
    return 0;
}
