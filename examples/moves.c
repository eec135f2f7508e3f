/* Which way the figures move: the building of the worked sheet with one number changed, at the same period in use. A larger I, a larger weight and a
 * smaller alpha-y lower none of the shears. A larger R raises neither V nor V_M nor V_D, and V* can rise with it. docs/manual/moves.md explains these
 * figures. After examples/build.sh, from the project's root:
 *
 *     cc -Iinclude -o target/lib/moves examples/moves.c target/lib/librukeshomaji.a && target/lib/moves
 */
#include <inttypes.h>
#include <stdio.h>
#include "rukeshomaji.h"

/* The name and the new number of what is changed; then R, I and alpha-y in 0.01 and the total weight in kN of the call. */
typedef struct {
    const char *name;
    uint64_t number, r, i, alpha, weight;
} Change;

enum { CALCULATED = 1000, HEIGHT = 300, CHANGES = 8 };

static const RukeshomajiSite site = {80, 45, 100, 55, 100, 100, 100, 100, RUKESHOMAJI_HARD};
static const Change changes[CHANGES] = {
    {"R", 100, 100, 100, 150, 15000}, {"R", 175, 175, 100, 150, 15000}, {"R", 400, 400, 100, 150, 15000},       {"R", 480, 480, 100, 150, 15000},
    {"R", 600, 600, 100, 150, 15000}, {"I", 125, 480, 125, 150, 15000}, {"alpha-y", 100, 480, 100, 100, 15000}, {"weight", 16000, 480, 100, 150, 16000}};

/* The shear call of a change. What is refused is said and returned. */
static uint64_t called(const Change *c, RukeshomajiFigures *f)
{
    RukeshomajiFrame frame = {RUKESHOMAJI_CONCRETE, CALCULATED, c->r, c->i, c->alpha};
    uint64_t refused = rukeshomaji_shear_call(&site, &frame, c->weight, HEIGHT, f);
    if (refused)
        fprintf(stderr, "%s of %" PRIu64 ": refused %" PRIu64 " at %" PRIu64 "\n", c->name, c->number, refused, f->place);
    return refused;
}

/* What is changed, the new number, V, V_M, V*, V_D and T. */
static void print(const Change *c, const RukeshomajiFigures *f)
{
    printf("%s\t%" PRIu64 "\t%" PRIu64 "\t%" PRIu64 "\t%" PRIu64 "\t%" PRIu64 "\t%" PRIu64 "\n", c->name, c->number, f->v, f->vm, f->star, f->vd, f->t);
}

int main(void)
{
    if (rukeshomaji_version() / 1000000 != RUKESHOMAJI_VERSION / 1000000 || rukeshomaji_version() < 2002000) {
        fprintf(stderr, "the library is of another major version than the header, or older than 2.2.0\n");
        return 2;
    }
    RukeshomajiFigures f[CHANGES];
    for (int x = 0; x < CHANGES; x++) {
        if (called(&changes[x], &f[x])) return 1;
        /* I, alpha-y, R and the weight do not change T; with another T nothing is promised. */
        if (f[x].t != f[0].t) {
            fprintf(stderr, "T differs: do not compare the shears\n");
            return 1;
        }
    }
    for (int x = 0; x < CHANGES; x++) print(&changes[x], &f[x]);
    return 0;
}
