/* Towers on one podium: V_D of each tower and of the whole building, and how many newtons more the towers come to. The site and the frame are those
 * of the worked sheet; docs/manual/towers.md explains these figures. After examples/build.sh, from the project's root:
 *
 *     cc -Iinclude -o target/lib/podium examples/podium.c target/lib/librukeshomaji.a && target/lib/podium
 */
#include <inttypes.h>
#include <stdio.h>
#include "rukeshomaji.h"

enum { SPLITS = 3, MOST = 3 };

/* A tower: its total weight in kN and its top height in dm. */
typedef struct {
    uint64_t weight, height;
} Tower;

/* The towers of a building, 1 to MOST. */
typedef struct {
    int count;
    Tower towers[MOST];
} Split;

static const RukeshomajiSite site = {80, 45, 100, 55, 100, 100, 100, 100, RUKESHOMAJI_HARD};
static const RukeshomajiFrame frame = {RUKESHOMAJI_CONCRETE, 1000, 480, 100, 150};
static const Split splits[SPLITS] = {
    {2, {{5000, 300}, {10000, 300}}}, {2, {{7500, 250}, {7500, 300}}}, {3, {{4996, 300}, {4996, 300}, {5008, 300}}}};

/* The shear call of a tower, printed: weight, height, V_D and T. What is refused is returned. */
static uint64_t called(const char *name, Tower tower, RukeshomajiFigures *f)
{
    uint64_t refused = rukeshomaji_shear_call(&site, &frame, tower.weight, tower.height, f);
    if (refused)
        fprintf(stderr, "%s of %" PRIu64 " kN, %" PRIu64 " dm: refused %" PRIu64 " at %" PRIu64 "\n", name, tower.weight, tower.height, refused, f->place);
    else
        printf("%s\t%" PRIu64 "\t%" PRIu64 "\t%" PRIu64 "\t%" PRIu64 "\n", name, tower.weight, tower.height, f->vd, f->t);
    return refused;
}

/* Each tower, and the whole with the height of its highest tower. The sum of V_D is compared only where all have the same T. */
static int compared(const Split *split)
{
    Tower whole = {0, 0};
    RukeshomajiFigures parts[MOST], f;
    uint64_t sum = 0;
    for (int x = 0; x < split->count; x++) {
        if (called("tower", split->towers[x], &parts[x])) return 1;
        whole.weight += split->towers[x].weight;
        if (whole.height < split->towers[x].height) whole.height = split->towers[x].height;
        sum += parts[x].vd;
    }
    if (called("whole", whole, &f)) return 1;
    for (int x = 0; x < split->count; x++)
        if (parts[x].t != f.t) {
            fprintf(stderr, "T differs: do not compare the sum\n");
            return 1;
        }
    /* With one site, one frame and one T the sum is never below V_D of the whole, so this does not wrap. */
    printf("more\t%" PRIu64 "\n", sum - f.vd);
    return 0;
}

int main(void)
{
    if (rukeshomaji_version() / 1000000 != RUKESHOMAJI_VERSION / 1000000 || rukeshomaji_version() < 2002000) {
        fprintf(stderr, "the library is of another major version than the header, or older than 2.2.0\n");
        return 2;
    }
    for (int s = 0; s < SPLITS; s++)
        if (compared(&splits[s])) return 1;
    return 0;
}
