/* What the core and the plain C are run on. */
#include <stdio.h>
#include "inputs.h"

static u64 state = 88172645463325252u;

u64 drawn(u64 count)
{
    state ^= state << 13;
    state ^= state >> 7;
    state ^= state << 17;
    return state % count;
}

JobInput fixed_job(size_t levels)
{
    JobInput p = {{70, 40, 90, 50, 112, 123, 112, 123, 2}, {2, 700, 480, 125, 150}, levels, {0}, {0}};
    for (size_t x = 0; x < levels; x++) p.weights[x] = 5000 + 10 * x, p.heights[x] = 38 * (x + 1);
    return p;
}

/* from all that is allowed, storeys of up to 4.5 m; half of the sites have one pair for both levels, the others a second one that is made
 * from the first */
JobInput drawn_job(size_t levels)
{
    JobInput p = {{50 + 10 * drawn(4), 30 + 5 * drawn(4), 70 + 10 * drawn(4), 40 + 5 * drawn(4), 100 + drawn(51), 100 + drawn(101), 100, 100,
                   1 + drawn(3)},
                  {1 + drawn(4), drawn(2) ? 0 : 1 + drawn(3000), 100 + drawn(501), 100 + 25 * drawn(3), 100 + drawn(101)},
                  levels, {0}, {0}};
    u64 storey = 2000 / levels < 45 ? 2000 / levels : 45, height = 0;
    for (size_t x = 0; x < levels; x++) p.weights[x] = 1 + drawn(20000), p.heights[x] = height += 1 + drawn(storey);
    p.site.nam = p.site.nad % 2 ? 250 - p.site.nad : p.site.nad, p.site.nvm = p.site.nad % 2 ? 300 - p.site.nvd : p.site.nvd;
    return p;
}

JobInput ductile_job(size_t levels)
{
    JobInput p = fixed_job(levels);
    p.frame.r = 100 + drawn(501);
    return p;
}

JobInput spoilt_job(size_t levels)
{
    JobInput p = drawn_job(levels);
    switch (drawn(6)) {
    case 0: p.weights[drawn(levels)] = 0; break;
    case 1: p.heights[drawn(levels)] = 0; break;
    case 2: p.site.ssm = 75; break;
    case 3: *(p.site.nad % 2 ? &p.site.nvm : &p.site.nvd) = 201; break;
    case 4: p.frame.i = 110; break;
    default: p.frame.calculated = 60001;
    }
    return p;
}

RukeshomajiDistrictJob district_job(const JobInput *p, u64 basin, u64 start)
{
    return (RukeshomajiDistrictJob){basin, 1 + drawn(4), p->site, p->frame, start, p->levels};
}

static void add_job(DistrictInput *d, const JobInput *p, u64 basin)
{
    d->job[d->jobs++] = district_job(p, basin, d->levels);
    for (size_t x = 0; x < p->levels; x++, d->levels++) d->weights[d->levels] = p->weights[x], d->heights[d->levels] = p->heights[x];
}

static void lay_district(DistrictInput *d, size_t jobs, size_t levels, JobInput draw(size_t), u64 grounds)
{
    d->jobs = d->levels = 0;
    while (d->jobs < jobs) {
        JobInput p = draw(levels ? levels : 1 + drawn(LEVELS));
        add_job(d, &p, drawn(grounds));
    }
}

void fixed_district(DistrictInput *d, size_t jobs, size_t levels) { lay_district(d, jobs, levels, fixed_job, 1); }
void drawn_district(DistrictInput *d, size_t jobs, size_t levels) { lay_district(d, jobs, levels, drawn_job, 2); }
void spoilt_district(DistrictInput *d, size_t jobs, size_t levels) { lay_district(d, jobs, levels, spoilt_job, 1); }

LogInput fixed_log(void)
{
    LogInput p;
    for (size_t i = 0; i < LAYERS; i++) p.thicknesses[i] = 75, p.kinds[i] = 2 + i % 2, p.values[i] = 2 + i % 24;
    return p;
}

LogInput drawn_log(void)
{
    LogInput p;
    u64 left = 3000;
    for (size_t i = 0; i < LAYERS; i++) {
        u64 later = LAYERS - 1 - i, most = later ? 2 * (left - later) / (later + 1) : left;
        u64 d = later ? 1 + drawn(most ? most : 1) : left;
        if (d > left - later) d = left - later;
        p.thicknesses[i] = d, left -= d;
        p.kinds[i] = 1 + drawn(3);
        p.values[i] = p.kinds[i] == 1 ? 500 + drawn(29501) : p.kinds[i] == 2 ? 2 + drawn(24) : 1 + drawn(50);
    }
    return p;
}

LogInput clay_log(void)
{
    LogInput p = drawn_log();
    for (size_t i = drawn(LAYERS); i < LAYERS; i += 1 + drawn(4)) p.kinds[i] = 4, p.values[i] = 1 + drawn(400);
    return p;
}

static size_t first_lines(const JobInput *p, char *out)
{
    const Site *s = &p->site;
    const Frame *f = &p->frame;
    size_t n = sprintf(out, "site\t%lu\t%lu\t%lu\t%lu\t%lu\t%lu", s->ssd, s->s1d, s->ssm, s->s1m, s->nad, s->nvd);
    if (s->nam != s->nad || s->nvm != s->nvd) n += sprintf(out + n, "\t%lu\t%lu", s->nam, s->nvm);
    return n + sprintf(out + n, "\t%lu\nframe\t%lu\t%lu\t%lu\t%lu\t%lu\n", s->class_number, f->kind, f->calculated, f->r, f->i, f->alpha_y);
}

size_t sheet_of(const JobInput *p, char *out)
{
    size_t n = first_lines(p, out);
    for (size_t x = 0; x < p->levels; x++) n += sprintf(out + n, "level\t%lu\t%lu\n", p->weights[x], p->heights[x]);
    return n;
}

u64 least_weight(void) { return 1; }
u64 drawn_weight(void) { return 1 + drawn(20000); }

void long_sheet(const JobInput *p, char *out, u64 weight(void))
{
    char last[64];
    size_t n = first_lines(p, out);
    while (n + 40 < BYTES) n += sprintf(out + n, "level\t%lu\t1\n", weight());
    while (n + 26 < BYTES) n += sprintf(out + n, "level\t1\t1\n");
    /* a level line of the bytes that are left, 17 to 26 of them */
    int digits = BYTES - n - 8;
    sprintf(last, "level\t%.*s\t%.*s\n", digits - digits / 2, "111111111", digits / 2, "111111111");
    for (char *c = last; *c; c++) out[n++] = *c;
}
