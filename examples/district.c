/* A whole district in one call: five jobs over one store of seven levels, a row for each, and the report. The first two jobs share a stretch: the levels
 * of the worked sheet, on its site and in zone 3 of the Taipei Basin. The third and the fourth share another stretch, and differ in R. The fifth names more
 * levels than the store has left: it is refused with 21, and the others are answered as without it. docs/manual/district.md explains these figures.
 * After examples/build.sh, from the project's root:
 *
 *     cc -Iinclude -o target/lib/district examples/district.c target/lib/librukeshomaji.a && target/lib/district
 */
#include <inttypes.h>
#include <stdio.h>
#include "rukeshomaji.h"

enum { JOBS = 5, LEVELS = 7, WIDTH = 10 };

static const uint64_t weights[LEVELS] = {5000, 5000, 5000, 3000, 3000, 3000, 2500}, heights[LEVELS] = {100, 200, 300, 40, 75, 110, 145};

/* basin, zone, site, frame, start, count; a job in the Basin has no site */
static const RukeshomajiDistrictJob jobs[JOBS] = {
    {0, 0, {80, 45, 100, 55, 100, 100, 100, 100, RUKESHOMAJI_HARD}, {RUKESHOMAJI_CONCRETE, 1000, 480, 100, 150}, 0, 3},
    {1, 3, {0, 0, 0, 0, 0, 0, 0, 0, 0}, {RUKESHOMAJI_CONCRETE, 1000, 480, 100, 150}, 0, 3},
    {0, 0, {70, 40, 90, 50, 112, 123, 118, 136, RUKESHOMAJI_NORMAL}, {RUKESHOMAJI_STEEL, RUKESHOMAJI_NO_PERIOD, 480, 125, 100}, 3, 4},
    {0, 0, {70, 40, 90, 50, 112, 123, 118, 136, RUKESHOMAJI_NORMAL}, {RUKESHOMAJI_STEEL, RUKESHOMAJI_NO_PERIOD, 200, 125, 100}, 3, 4},
    {0, 0, {60, 35, 80, 45, 100, 100, 100, 100, RUKESHOMAJI_SOFT}, {RUKESHOMAJI_OTHER, RUKESHOMAJI_NO_PERIOD, 300, 100, 150}, 5, 3}};

/* Number of the job, number and place of its refusal, V, V_M, V*, V_D and T. */
static void print_row(int job, const RukeshomajiRow *row)
{
    printf("row\t%d\t%" PRIu64 "\t%" PRIu64 "\t%" PRIu64 "\t%" PRIu64 "\t%" PRIu64 "\t%" PRIu64 "\t%" PRIu64 "\n", job, row->number, row->place, row->v,
           row->vm, row->star, row->vd, row->t);
}

/* The totals, and the cells that are not 0: the thousandths of V_D over W from where to where, and how many jobs. */
static void print_report(const RukeshomajiReport *report)
{
    printf("report\t%" PRIu64 "\t%" PRIu64 "\t%" PRIu64 "\t%" PRIu64 "\t%" PRIu64 "\t%" PRIu64 "\n", report->accepted, report->refused, report->sum,
           report->by_v, report->by_vm, report->by_star);
    for (int k = 0; k < RUKESHOMAJI_CELLS; k++)
        if (report->cells[k]) printf("cell\t%d\t%d\t%" PRIu64 "\n", WIDTH * k, WIDTH * k + WIDTH - 1, report->cells[k]);
}

int main(void)
{
    if (rukeshomaji_version() / 1000000 != RUKESHOMAJI_VERSION / 1000000 || rukeshomaji_version() < 2005000) {
        fprintf(stderr, "the library is of another major version than the header, or older than 2.5.0\n");
        return 2;
    }
    RukeshomajiRow rows[JOBS];
    RukeshomajiReport report;
    uint64_t refused = rukeshomaji_district(jobs, JOBS, weights, LEVELS, heights, LEVELS, rows, JOBS, &report);
    if (refused) {
        fprintf(stderr, "the whole call: refused %" PRIu64 "\n", refused);
        return 1;
    }
    for (int x = 0; x < JOBS; x++) print_row(x + 1, &rows[x]);
    print_report(&report);
    return 0;
}
