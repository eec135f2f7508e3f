/* Calls each entry with its lists and buffers as they are, and with each set of them as NULL with 0; prints what comes back, and what the
 * buffers then hold. tests/compares/null_lists.py compiles it, runs it and compares. */
#include <inttypes.h>
#include <stdio.h>
#include "rukeshomaji.h"

#define LEVELS 3

static const RukeshomajiSite site = {80, 45, 100, 55, 100, 100, 100, 100, 1};
static const RukeshomajiFrame frame = {2, 1000, 480, 100, 150};
static const uint64_t weights[LEVELS] = {5000, 5000, 5000}, heights[LEVELS] = {100, 200, 300};
static const uint64_t thicknesses[LEVELS] = {1000, 1000, 1000}, kinds[LEVELS] = {1, 2, 3}, values[LEVELS] = {3000, 20, 40};
static const int64_t displacements[LEVELS] = {5001, 1, -4999};
static const char sheet[] = "site\t80\t45\t100\t55\t100\t100\t1\nframe\t2\t1000\t480\t100\t150\n"
                            "level\t5000\t100\nlevel\t5000\t200\nlevel\t5000\t300\n";

/* the list, or NULL where its bit is set; and how many there are */
#define LIST(list, bit) (set >> (bit) & 1 ? NULL : (list)), (uint64_t)(set >> (bit) & 1 ? 0 : LEVELS)
#define PAINT UINT64_C(0xa5a5a5a5a5a5a5a5)

static void figures(const char *name, unsigned set, uint64_t number, RukeshomajiFigures f) {
    printf("%s %u: %" PRIu64 " %" PRIu64 " %" PRIu64 " %" PRIu64 " %" PRIu64 " %" PRIu64 " %" PRIu64, name, set, number, f.place, f.v,
           f.vm, f.star, f.vd, f.t);
}

/* of a site, or of the Basin's zone where it is not 0: the job call with each set of lists and buffers */
static void jobs(const char *name, uint64_t zone) {
    for (unsigned set = 0; set < 32; set++) {
        uint64_t cells[3][LEVELS] = {{7, 7, 7}, {8, 8, 8}, {9, 9, 9}};
        RukeshomajiFigures f = {PAINT, PAINT, PAINT, PAINT, PAINT, PAINT};
        uint64_t number = zone ? rukeshomaji_basin_job(zone, &frame, LIST(weights, 0), LIST(heights, 1), LIST(cells[0], 2),
                                                       LIST(cells[1], 3), LIST(cells[2], 4), &f)
                               : rukeshomaji_job(&site, &frame, LIST(weights, 0), LIST(heights, 1), LIST(cells[0], 2), LIST(cells[1], 3),
                                                 LIST(cells[2], 4), &f);
        figures(name, set, number, f);
        for (int i = 0; i < 3 * LEVELS; i++) printf(" %" PRIu64, cells[i / LEVELS][i % LEVELS]);
        printf("\n");
    }
}

/* the call without buffers likewise */
static void without_buffers(const char *name, uint64_t zone) {
    for (unsigned set = 0; set < 4; set++) {
        RukeshomajiFigures f = {PAINT, PAINT, PAINT, PAINT, PAINT, PAINT};
        uint64_t number = zone ? rukeshomaji_basin_figures(zone, &frame, LIST(weights, 0), LIST(heights, 1), &f)
                               : rukeshomaji_figures(&site, &frame, LIST(weights, 0), LIST(heights, 1), &f);
        figures(name, set, number, f);
        printf("\n");
    }
}

/* the distribution with each set of lists and buffers; its place comes back through a pointer */
static void distributions(void) {
    for (unsigned set = 0; set < 32; set++) {
        uint64_t cells[3][LEVELS] = {{7, 7, 7}, {8, 8, 8}, {9, 9, 9}}, place = PAINT;
        uint64_t number = rukeshomaji_distribution(1071429, 1000, LIST(weights, 0), LIST(heights, 1), LIST(cells[0], 2), LIST(cells[1], 3),
                                                   LIST(cells[2], 4), &place);
        printf("distribution %u: %" PRIu64 " %" PRIu64, set, number, place);
        for (int i = 0; i < 3 * LEVELS; i++) printf(" %" PRIu64, cells[i / LEVELS][i % LEVELS]);
        printf("\n");
    }
}

/* the district with each set of jobs, weights, heights and rows */
static void districts(void) {
    for (unsigned set = 0; set < 16; set++) {
        RukeshomajiDistrictJob each[LEVELS] = {{0, 0, site, frame, 0, 3}, {1, 3, site, frame, 1, 2}, {0, 0, site, frame, 0, 0}};
        union { RukeshomajiRow rows[LEVELS]; uint64_t cells[7 * LEVELS]; } held;
        union { RukeshomajiReport report; uint64_t cells[6 + RUKESHOMAJI_CELLS]; } reply;
        for (int i = 0; i < 7 * LEVELS; i++) held.cells[i] = 7;
        for (int i = 0; i < 6 + RUKESHOMAJI_CELLS; i++) reply.cells[i] = PAINT;
        uint64_t number = rukeshomaji_district(LIST(each, 0), LIST(weights, 1), LIST(heights, 2), LIST(held.rows, 3), &reply.report);
        printf("district %u: %" PRIu64, set, number);
        for (int i = 0; i < 7 * LEVELS; i++) printf(" %" PRIu64, held.cells[i]);
        for (int i = 0; i < 6 + RUKESHOMAJI_CELLS; i++) printf(" %" PRIu64, reply.cells[i]);
        printf("\n");
    }
}

/* drift with each set of heights, displacements and verdicts */
static void drifts(void) {
    for (unsigned set = 0; set < 8; set++) {
        uint64_t verdicts[LEVELS] = {7, 7, 7}, place = PAINT;
        uint64_t number = rukeshomaji_drift(LIST(heights, 0), LIST(displacements, 1), 50, LIST(verdicts, 2), &place);
        printf("drift %u: %" PRIu64 " %" PRIu64, set, number, place);
        for (int i = 0; i < LEVELS; i++) printf(" %" PRIu64, verdicts[i]);
        printf("\n");
    }
}

/* the accidental moments with each set of weights, heights and the two buffers */
static void moments(void) {
    for (unsigned set = 0; set < 16; set++) {
        int64_t cells[2][LEVELS] = {{-9, -9, -9}, {8, 8, 8}};
        uint64_t place = PAINT;
        uint64_t number = rukeshomaji_accidental_moments(1071429, 1000, LIST(weights, 0), LIST(heights, 1), 200, LIST(cells[0], 2), LIST(cells[1], 3),
                                                         &place);
        printf("accidental_moments %u: %" PRIu64 " %" PRIu64, set, number, place);
        for (int i = 0; i < 2 * LEVELS; i++) printf(" %" PRId64, cells[i / LEVELS][i % LEVELS]);
        printf("\n");
    }
}

int main(void) {
    jobs("job", 0);
    jobs("basin_job", 3);
    without_buffers("figures", 0);
    without_buffers("basin_figures", 3);
    distributions();
    districts();
    drifts();
    moments();
    for (unsigned set = 0; set < 8; set++) {
        RukeshomajiClass c = {PAINT, PAINT};
        uint64_t number = rukeshomaji_site_class(LIST(thicknesses, 0), LIST(kinds, 1), LIST(values, 2), &c);
        printf("site_class %u: %" PRIu64 " %" PRIu64 " %" PRIu64 "\n", set, number, c.place, c.class_number);
    }
    for (unsigned set = 0; set < 2; set++) {
        char listing[RUKESHOMAJI_LONGEST_LISTING];
        RukeshomajiListing reply = {PAINT, PAINT};
        uint64_t number = rukeshomaji_sheet(set ? NULL : sheet, set ? 0 : sizeof sheet - 1, listing, &reply);
        printf("sheet %u: %" PRIu64 " %" PRIu64 " ", set, number, reply.place);
        for (uint64_t i = 0; i < reply.length; i++) printf("%02x", (unsigned char)listing[i]);
        printf("\n");
    }
    return 0;
}
