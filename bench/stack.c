/* How deep a call of the core goes into the stack: a thread's own stack is painted, and what is no longer as painted was used. */
#include <pthread.h>
#include <stdio.h>
#include <string.h>
#include "inputs.h"

enum { STACK = 1 << 18, PAINT = 0xa5 };
static uint8_t stack[STACK] __attribute__((aligned(4096)));
static uint8_t *before;
static volatile u64 kept;
typedef int64_t i64;

static JobInput job;
static DistrictInput district;
static LogInput soil;
static char text[BYTES + 64];
static u64 forces[LEVELS], shears[LEVELS], moments[LEVELS];

/* where the stack stands right before the call of an entry: its caller's part is not counted */
#define HERE() __asm__ volatile("mov %%rsp, %0" : "=r"(before))

static void *one_job(void *p)
{
    static JobReply reply;
    HERE();
    kept += rukeshomaji_job(&job.site, &job.frame, job.weights, 50, job.heights, 50, forces, 50, shears, 50, moments, 50, &reply);
    return p;
}

static void *one_figures(void *p)
{
    static JobReply reply;
    HERE();
    kept += rukeshomaji_figures(&job.site, &job.frame, job.weights, 50, job.heights, 50, &reply);
    return p;
}

static void *one_basin_job(void *p)
{
    static JobReply reply;
    HERE();
    kept += rukeshomaji_basin_job(1, &job.frame, job.weights, 50, job.heights, 50, forces, 50, shears, 50, moments, 50, &reply);
    return p;
}

static void *one_basin_figures(void *p)
{
    static JobReply reply;
    HERE();
    kept += rukeshomaji_basin_figures(1, &job.frame, job.weights, 50, job.heights, 50, &reply);
    return p;
}

static void *one_shear_call(void *p)
{
    static JobReply reply;
    HERE();
    kept += rukeshomaji_shear_call(&job.site, &job.frame, RUKESHOMAJI_MOST_TOTAL_WEIGHT, job.heights[LEVELS - 1], &reply);
    return p;
}

static void *one_basin_shear_call(void *p)
{
    static JobReply reply;
    HERE();
    kept += rukeshomaji_basin_shear_call(1, &job.frame, RUKESHOMAJI_MOST_TOTAL_WEIGHT, job.heights[LEVELS - 1], &reply);
    return p;
}

static void *one_distribution(void *p)
{
    static u64 place;
    HERE();
    kept += rukeshomaji_distribution(RUKESHOMAJI_MOST_BASE_SHEAR, 1000, job.weights, 50, job.heights, 50, forces, 50, shears, 50, moments, 50, &place);
    return p;
}

static void *one_district(void *p)
{
    static RukeshomajiRow rows[JOBS];
    static RukeshomajiReport report;
    HERE();
    kept += rukeshomaji_district(district.job, district.jobs, district.weights, district.levels, district.heights, district.levels, rows, JOBS, &report);
    return p;
}

static void *one_drift(void *p)
{
    static i64 displacements[LEVELS];
    static u64 verdicts[LEVELS], place;
    HERE();
    kept += rukeshomaji_drift(job.heights, 50, displacements, 50, 50, verdicts, 50, &place);
    return p;
}

static void *one_torsion(void *p)
{
    static RukeshomajiTorsion reply;
    HERE();
    kept += rukeshomaji_torsion(2500, 2000, &reply);
    return p;
}

static void *one_moments(void *p)
{
    static i64 positive[LEVELS], negative[LEVELS];
    static u64 place;
    HERE();
    kept += rukeshomaji_accidental_moments(RUKESHOMAJI_MOST_BASE_SHEAR, 1000, job.weights, 50, job.heights, 50, 240, positive, 50, negative, 50, &place);
    return p;
}

static void *one_log(void *p)
{
    static ClassReply reply;
    HERE();
    kept += rukeshomaji_site_class(soil.thicknesses, LAYERS, soil.kinds, LAYERS, soil.values, LAYERS, &reply);
    return p;
}

static void *one_sheet(void *p)
{
    static char listing[LONGEST];
    static SheetReply reply;
    size_t length = sheet_of(&job, text);
    HERE();
    kept += rukeshomaji_sheet(text, length, listing, &reply);
    return p;
}

/* The second of two runs: in the first the loader binds what the code calls. */
static long depth(void *run(void *))
{
    long untouched = 0;
    for (int turn = 0; turn < 2; turn++) {
        pthread_attr_t own;
        pthread_t thread;
        memset(stack, PAINT, STACK);
        pthread_attr_init(&own);
        pthread_attr_setstack(&own, stack, STACK);
        pthread_create(&thread, &own, run, NULL);
        pthread_join(thread, NULL);
        for (untouched = 0; untouched < STACK && stack[untouched] == PAINT;) untouched++;
    }
    return before - (stack + untouched);
}

int main(void)
{
    job = fixed_job(LEVELS);
    soil = fixed_log();
    fixed_district(&district, 1, LEVELS);
    long least = depth(one_district);
    drawn_district(&district, JOBS, LEVELS);
    printf("stack touched below the call: job %ld, in the Basin %ld, figures %ld, in the Basin %ld, shear call %ld, in the Basin %ld, "
           "distribution %ld, district of 1 job %ld, of 256 %ld, drift %ld, torsion %ld, accidental moments %ld, soil log %ld, sheet %ld bytes\n",
           depth(one_job), depth(one_basin_job), depth(one_figures), depth(one_basin_figures), depth(one_shear_call), depth(one_basin_shear_call),
           depth(one_distribution), least, depth(one_district), depth(one_drift), depth(one_torsion), depth(one_moments), depth(one_log), depth(one_sheet));
    return 0;
}
