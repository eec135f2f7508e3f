/* count LEVELS JOBS: one job of the fixed input, then a job and a sheet of each of a pool of drawn ones; then districts of JOBS jobs, of the fixed
 * input and drawn, each in one call and in calls without buffers, for bench/growth to count in. */
#include <stdio.h>
#include <stdlib.h>
#include "inputs.h"
#include "calls.h"

Job plain_job;
Sheet plain_sheet;

static JobInput job;
static DistrictInput district;
static char text[BYTES + 64];
static size_t length;
static u64 forces[LEVELS], shears[LEVELS], moments[LEVELS];
static volatile u64 kept;

static u64 base_shear(Job *of)
{
    JobReply reply;
    size_t n = job.levels;
    of(&job.site, &job.frame, job.weights, n, job.heights, n, forces, n, shears, n, moments, n, &reply);
    return reply.vd;
}

static u64 listed(Sheet *of)
{
    static char listing[LONGEST];
    SheetReply reply;
    of(text, length, listing, &reply);
    return reply.length;
}

/* in functions of their own, by whose names the counts are told apart */
#define COUNTED(name, call) __attribute__((noinline)) void name(void) { kept += call; }
COUNTED(core_fixed_job, base_shear(rukeshomaji_job))
COUNTED(core_drawn_job, base_shear(rukeshomaji_job))
COUNTED(plain_fixed_job, base_shear(plain_job))
COUNTED(plain_drawn_job, base_shear(plain_job))
COUNTED(core_drawn_sheet, listed(rukeshomaji_sheet))
COUNTED(plain_drawn_sheet, listed(plain_sheet))
COUNTED(fixed_district_call, (one_call(&district), 0))
COUNTED(fixed_single_calls, (single_calls(&district), 0))
COUNTED(drawn_district_call, (one_call(&district), 0))
COUNTED(drawn_single_calls, (single_calls(&district), 0))

int main(int count, char **words)
{
    size_t levels = count == 3 ? atoi(words[1]) : 0, jobs = count == 3 ? atoi(words[2]) : 0;
    if (levels < 1 || levels > LEVELS || jobs < 1 || jobs > JOBS) return 1;
    job = fixed_job(levels);
    core_fixed_job(), plain_fixed_job();
    for (int i = 0; i < POOL; i++) {
        job = drawn_job(levels), length = sheet_of(&job, text);
        core_drawn_job(), plain_drawn_job();
        core_drawn_sheet(), plain_drawn_sheet();
    }
    fixed_district(&district, jobs, levels);
    fixed_district_call(), fixed_single_calls();
    for (int i = 0; i < DISTRICTS; i++) {
        drawn_district(&district, jobs, levels);
        drawn_district_call(), drawn_single_calls();
    }
    return 0;
}
