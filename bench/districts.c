/* Times a district of 256 jobs in one call beside its 256 calls without buffers, turn by turn. */
#define _POSIX_C_SOURCE 200809L
#include <stdio.h>
#include "clock.h"
#include "inputs.h"
#include "calls.h"

enum { COMPARED = 400 };

/* several in turn, so that no branch can be learnt by heart */
static DistrictInput districts[DISTRICTS];

/* ---- rows and report are what the calls without buffers give, a stretch outside the store apart */
static u64 weight_of(const DistrictInput *d, size_t i)
{
    u64 w = 0;
    for (size_t x = 0; x < d->job[i].count; x++) w += d->weights[d->job[i].start + x];
    return w;
}

static int same_district(DistrictInput *d)
{
    RukeshomajiReport r = {0};
    size_t outside = drawn(d->jobs);
    single_calls(d);
    d->job[outside].start = drawn(2) ? d->levels : -(u64)1;
    one_call(d);
    for (size_t i = 0; i < d->jobs; i++) {
        JobReply *p = replies + i;
        RukeshomajiRow one = {numbers[i], p->place, p->v, p->vm, p->star, p->vd, p->t};
        if (i == outside) one = (RukeshomajiRow){RUKESHOMAJI_REFUSED_STRETCH, 0, 0, 0, 0, 0, 0};
        if (memcmp(&one, rows + i, sizeof one)) return 0;
        if (one.number) {
            r.refused++;
            continue;
        }
        r.accepted++, r.sum += one.vd;
        ++*(one.vd == one.v ? &r.by_v : one.vd == one.vm ? &r.by_vm : &r.by_star);
        r.cells[one.vd / weight_of(d, i) / 10]++;
    }
    return !memcmp(&r, &report, sizeof r);
}

static int same(void)
{
    for (int i = 0; i < COMPARED; i++) {
        DistrictInput *d = districts + i % DISTRICTS;
        (i % 4 ? drawn_district : spoilt_district)(d, 1 + drawn(JOBS), 0);
        if (!same_district(d)) return 0;
    }
    return 1;
}

/* ---- ns a job in one round over all districts */
static double round_of(void calls(const DistrictInput *))
{
    double start = now();
    for (int i = 0; i < DISTRICTS; i++) calls(districts + i);
    return (now() - start) / DISTRICTS / JOBS;
}

/* Every second round the single calls come first. */
static void timed(const char *name, size_t levels, void lay(DistrictInput *, size_t, size_t))
{
    static double one[ROUNDS], many[ROUNDS], ratios[ROUNDS];
    for (int i = 0; i < DISTRICTS; i++) lay(districts + i, JOBS, levels);
    for (int i = 0; i < ROUNDS; i++) {
        if (i % 2) many[i] = round_of(single_calls), one[i] = round_of(one_call);
        else one[i] = round_of(one_call), many[i] = round_of(single_calls);
        ratios[i] = one[i] / many[i];
    }
    printf("district of 256 jobs, %-24s %4.0f ns a job   over 256 calls %5.3f\n", name, median(one), median(ratios));
    fflush(stdout);
}

int main(void)
{
    if (!same()) {
        printf("a district and its calls without buffers differ\n");
        return 1;
    }
    printf("%d districts: rows and report are those of the calls without buffers\n", COMPARED);
    timed("1 level", 1, drawn_district);
    timed("10 levels", 10, drawn_district);
    timed("25 levels", 25, drawn_district);
    timed("50 levels", 50, drawn_district);
    timed("1 to 50 levels", 0, drawn_district);
    timed("50 levels, refused", 50, spoilt_district);
    return 0;
}
