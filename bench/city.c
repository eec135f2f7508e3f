/* city [THREADS..]: a city of a million buildings of 10 levels, in districts of 256, by as many threads at once as each word says; without
 * words by one, then by two. bench/run builds it and runs it; after that target/bench/city, from the project's root, repeats it. All
 * buildings are drawn first, which is not timed; with their rows they take 0.4 GB. Every turn must give the same rows and report. */
#define _POSIX_C_SOURCE 200809L
#include <pthread.h>
#include <stdatomic.h>
#include <stdio.h>
#include "clock.h"
#include "inputs.h"

enum { BUILDINGS = 1000000, STOREYS = 10, PARTS = (BUILDINGS + JOBS - 1) / JOBS, MOST_THREADS = 64, TURNS = 11 };

static RukeshomajiDistrictJob *jobs;
static u64 *weights, *heights;
static RukeshomajiRow *rows, *first_rows;

/* the next district, which the first thread that is free takes */
static atomic_size_t next;

static void *room(size_t count, size_t size)
{
    void *p = calloc(count, size);
    if (!p) {
        fprintf(stderr, "city: not enough memory\n");
        exit(2);
    }
    return p;
}

static void draw_city(void)
{
    jobs = room(BUILDINGS, sizeof *jobs), rows = room(BUILDINGS, sizeof *rows), first_rows = room(BUILDINGS, sizeof *rows);
    weights = room(BUILDINGS * STOREYS, sizeof *weights), heights = room(BUILDINGS * STOREYS, sizeof *heights);
    for (size_t i = 0; i < BUILDINGS; i++) {
        JobInput p = drawn_job(STOREYS);
        jobs[i] = district_job(&p, drawn(2), i % JOBS * STOREYS);
        memcpy(weights + i * STOREYS, p.weights, STOREYS * sizeof *weights);
        memcpy(heights + i * STOREYS, p.heights, STOREYS * sizeof *heights);
    }
}

/* Reports add up, field by field. */
static void add_report(RukeshomajiReport *sum, const RukeshomajiReport *r)
{
    sum->accepted += r->accepted, sum->refused += r->refused, sum->sum += r->sum;
    sum->by_v += r->by_v, sum->by_vm += r->by_vm, sum->by_star += r->by_star;
    for (int k = 0; k < RUKESHOMAJI_CELLS; k++) sum->cells[k] += r->cells[k];
}

static void *run_districts(void *report)
{
    for (size_t i; (i = atomic_fetch_add(&next, 1)) < PARTS;) {
        size_t at = i * JOBS, n = BUILDINGS - at < JOBS ? BUILDINGS - at : JOBS;
        RukeshomajiReport r;
        rukeshomaji_district(jobs + at, n, weights + at * STOREYS, n * STOREYS, heights + at * STOREYS, n * STOREYS, rows + at, n, &r);
        add_report(report, &r);
    }
    return report;
}

/* One turn, in seconds, from before the threads are made until all have ended. */
static double turn(int threads, RukeshomajiReport *report)
{
    static RukeshomajiReport reports[MOST_THREADS];
    pthread_t made[MOST_THREADS];
    double start = now();
    next = 0;
    memset(reports, 0, sizeof reports), memset(report, 0, sizeof *report);
    for (int i = 0; i < threads; i++)
        if (pthread_create(made + i, NULL, run_districts, reports + i)) exit(2);
    for (int i = 0; i < threads; i++) pthread_join(made[i], NULL), add_report(report, reports + i);
    return (now() - start) / 1e9;
}

static void timed(int threads, const RukeshomajiReport *first)
{
    double times[TURNS];
    for (int i = 0; i < TURNS; i++) {
        RukeshomajiReport r;
        memset(rows, 0xa5, BUILDINGS * sizeof *rows);
        times[i] = turn(threads, &r);
        if (memcmp(&r, first, sizeof r) || memcmp(rows, first_rows, BUILDINGS * sizeof *rows)) {
            printf("%d threads: other rows or another report\n", threads);
            exit(1);
        }
    }
    qsort(times, TURNS, sizeof *times, ascending);
    double rate = BUILDINGS / times[TURNS / 2] / 1e6;
    printf("city of %d buildings of %d levels, %d thread%s at once: %.3f s (best of %d turns %.3f s), %.2f million buildings a second, %.2f each thread\n",
           BUILDINGS, STOREYS, threads, threads == 1 ? "" : "s", times[TURNS / 2], TURNS, *times, rate, rate / threads);
    fflush(stdout);
}

int main(int count, char **words)
{
    RukeshomajiReport first;
    for (int i = 1; i < count; i++)
        if (atoi(words[i]) < 1 || atoi(words[i]) > MOST_THREADS) {
            fprintf(stderr, "city [THREADS..]: 1 to %d threads\n", MOST_THREADS);
            return 2;
        }
    draw_city();
    turn(1, &first);
    memcpy(first_rows, rows, BUILDINGS * sizeof *rows);
    printf("city: %lu accepted, %lu refused, V_D %lu N in all\n", first.accepted, first.refused, first.sum);
    if (count == 1) timed(1, &first), timed(2, &first);
    for (int i = 1; i < count; i++) timed(atoi(words[i]), &first);
    return 0;
}
