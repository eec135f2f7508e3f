/* Times one call of each kind: the core, and the same rules in plain C, turn by turn. */
#define _POSIX_C_SOURCE 200809L
#include <stdio.h>
#include "clock.h"
#include "inputs.h"
#include "sides.h"

enum { COMPARED = 20000 };

typedef enum { JOB, LOG, SHEET } Call;

/* a round takes as many calls as take some 100 us, or the whole of a pool where that takes longer */
typedef struct {
    const char *name;
    Call call;
    size_t count;          /* of inputs: 1, or POOL */
    long calls;
} Kind;

static JobInput jobs[POOL];
static LogInput logs[POOL];
static SheetInput sheets[POOL];
static char texts[POOL][BYTES + 64];
static volatile u64 kept;
static u64 forces[LEVELS], shears[LEVELS], moments[LEVELS];

/* V_D, the class, the length of the listing */
static u64 job_call(Job *job, const JobInput *p)
{
    JobReply reply;
    size_t n = p->levels;
    job(&p->site, &p->frame, p->weights, n, p->heights, n, forces, n, shears, n, moments, n, &reply);
    return reply.vd;
}

static u64 log_call(Log *log, const LogInput *p)
{
    ClassReply reply;
    log(p->thicknesses, LAYERS, p->kinds, LAYERS, p->values, LAYERS, &reply);
    return reply.class_number;
}

static u64 sheet_call(Sheet *sheet, const SheetInput *p)
{
    static char listing[LONGEST];
    SheetReply reply;
    sheet(p->bytes, p->length, listing, &reply);
    return reply.length;
}

/* One round, in ns a call. A single input has another first weight or value at each call. */
static double round_of(const Kind *k, const Side *side)
{
    size_t mask = k->count - 1;
    double start = now();
    for (long i = 0; i < k->calls; i++) switch (k->call) {
    case JOB:
        if (!mask) jobs->weights[0] = 4000 + i % 1000;
        kept += job_call(side->job, jobs + (i & mask));
        break;
    case LOG:
        if (!mask) logs->values[0] = 2 + i % 20;
        kept += log_call(side->log, logs + (i & mask));
        break;
    case SHEET:
        kept += sheet_call(side->sheet, sheets + (i & mask));
    }
    return (now() - start) / k->calls;
}

static int has(const Side *side, Call call) { return call == JOB || (side->log && side->sheet); }

/* The median time of the core, and the median of its ratio over each other side, both sides of a ratio in one round. */
static void timed(const char *name, Call call, size_t count, double guess)
{
    static double times[SIDES][ROUNDS], ratios[ROUNDS];
    Kind k = {name, call, count, (long)(100000 / guess / count + 1) * count};
    for (int i = 0; i < ROUNDS; i++)
        for (int s = 0; s < SIDES; s++)
            if (has(sides + s, call)) times[s][i] = round_of(&k, sides + s);
    printf("%-28s %-6s %8.0f ns", name, count == 1 ? "fixed" : "drawn", median(times[0]));
    for (int s = 1; s < SIDES; s++) {
        if (!has(sides + s, call)) continue;
        for (int i = 0; i < ROUNDS; i++) ratios[i] = times[0][i] / times[s][i];
        printf("   %s %5.2f", sides[s].name, median(ratios));
    }
    printf("\n");
    fflush(stdout);
}

/* ---- every side gives what the core gives, in the reply and in each cell */
static int same_job(const JobInput *p)
{
    static u64 cells[SIDES][3 * LEVELS];
    JobReply replies[SIDES];
    u64 numbers[SIDES];
    for (int s = 0; s < SIDES; s++) {
        if (!sides[s].log) continue;
        size_t n = p->levels;
        u64 *c = memset(cells[s], 0, sizeof cells[s]);
        numbers[s] = sides[s].job(&p->site, &p->frame, p->weights, n, p->heights, n, c, n, c + LEVELS, n, c + 2 * LEVELS, n, replies + s);
        if (numbers[s] != *numbers || memcmp(replies, replies + s, sizeof *replies) || memcmp(cells, cells + s, sizeof *cells)) return 0;
    }
    return 1;
}

/* the doubles round once, at the end: a few newtons off, and T may be a millisecond off where inputs are drawn */
static int near_job(const JobInput *p)
{
    u64 a = job_call(rukeshomaji_job, p), b = job_call(double_job, p), off = a > b ? a - b : b - a;
    return off <= a / 100000 + 1;
}

static int same_log(const LogInput *p)
{
    ClassReply replies[SIDES];
    u64 numbers[SIDES];
    for (int s = 0; s < SIDES; s++) {
        if (!sides[s].log) continue;
        numbers[s] = sides[s].log(p->thicknesses, LAYERS, p->kinds, LAYERS, p->values, LAYERS, replies + s);
        if (numbers[s] != *numbers || memcmp(replies, replies + s, sizeof *replies)) return 0;
    }
    return 1;
}

static int same_sheet(const char *bytes, size_t length)
{
    static char listings[SIDES][LONGEST];
    SheetReply replies[SIDES];
    u64 numbers[SIDES];
    for (int s = 0; s < SIDES; s++) {
        if (!sides[s].sheet) continue;
        memset(listings[s], 'x', LONGEST);
        numbers[s] = sides[s].sheet(bytes, length, listings[s], replies + s);
        if (numbers[s] != *numbers || memcmp(replies, replies + s, sizeof *replies) || memcmp(listings, listings + s, LONGEST)) return 0;
    }
    return 1;
}

static int same(void)
{
    for (size_t n = 1; n <= LEVELS; n++) {
        JobInput p = fixed_job(n);
        if (!same_job(&p) || !near_job(&p)) return 0;
    }
    for (int i = 0; i < COMPARED; i++) {
        size_t n = 1 + drawn(LEVELS);
        JobInput p = i % 5 ? drawn_job(n) : spoilt_job(n);
        LogInput l = i ? i % 3 ? drawn_log() : clay_log() : fixed_log();
        char text[BYTES + 64];
        size_t length = sheet_of(&p, text);
        if (i % 4 == 1) l.thicknesses[drawn(LAYERS)] = drawn(3) ? 0 : 99;
        if (i % 4 == 2) l.values[drawn(LAYERS)] = drawn(60);
        if (i % 8 == 3) l.kinds[drawn(LAYERS)] = drawn(6);
        if (i % 7 == 3) text[drawn(length)] = '0' + drawn(12);
        if (i % 100 == 99) long_sheet(&p, text, drawn_weight), length = BYTES;
        if (!same_job(&p) || !same_log(&l) || !same_sheet(text, length)) return 0;
    }
    return 1;
}

/* ---- the kinds of call, each on its fixed input and on a pool of drawn ones */
static void time_drawn(const char *name, size_t levels, double guess, JobInput draw(size_t))
{
    for (int i = 0; i < POOL; i++) jobs[i] = draw(levels);
    timed(name, JOB, POOL, guess);
}

static void time_jobs(const char *name, size_t levels, double guess, JobInput fixed, JobInput draw(size_t))
{
    jobs[0] = fixed;
    timed(name, JOB, 1, guess);
    time_drawn(name, levels, guess, draw);
}

static void lay_sheet(int i, const JobInput *p)
{
    sheets[i] = (SheetInput){texts[i], sheet_of(p, texts[i])};
}

static void time_sheets(const char *name, size_t levels, double guess)
{
    JobInput p = fixed_job(levels);
    lay_sheet(0, &p);
    timed(name, SHEET, 1, guess);
    for (int i = 0; i < POOL; i++) p = drawn_job(levels), lay_sheet(i, &p);
    timed(name, SHEET, POOL, guess);
}

static void time_long_sheets(const char *name)
{
    JobInput p = fixed_job(1);
    for (int i = 0; i < POOL; i++) sheets[i] = (SheetInput){texts[i], BYTES};
    long_sheet(&p, texts[0], least_weight);
    timed(name, SHEET, 1, 8000);
    for (int i = 0; i < POOL; i++) p = drawn_job(1), long_sheet(&p, texts[i], drawn_weight);
    timed(name, SHEET, POOL, 8000);
}

static void time_logs(const char *name)
{
    logs[0] = fixed_log();
    timed(name, LOG, 1, 300);
    for (int i = 0; i < POOL; i++) logs[i] = drawn_log();
    timed(name, LOG, POOL, 300);
}

int main(void)
{
    if (!same()) {
        printf("the core and the plain C differ\n");
        return 1;
    }
    printf("%d jobs, logs and sheets: all sides give the same\n", COMPARED);
    JobInput refused = fixed_job(50);
    refused.frame.calculated = 60001;
    time_jobs("job of 1 level", 1, 100, fixed_job(1), drawn_job);
    time_drawn("job of 1 level, R alone", 1, 100, ductile_job);
    time_jobs("job of 10 levels", 10, 200, fixed_job(10), drawn_job);
    time_jobs("job of 25 levels", 25, 400, fixed_job(25), drawn_job);
    time_jobs("job of 50 levels", 50, 800, fixed_job(50), drawn_job);
    time_jobs("refused job of 50 levels", 50, 80, refused, spoilt_job);
    time_sheets("sheet of 1 level", 1, 400);
    time_sheets("sheet of 50 levels", 50, 5000);
    time_long_sheets("refused sheet of 4,096 bytes");
    time_logs("soil log of 40 layers");
    return 0;
}
