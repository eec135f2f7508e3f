/* A district in one call, and its jobs one by one in calls without buffers. */
static RukeshomajiRow rows[JOBS];
static RukeshomajiReport report;
static u64 numbers[JOBS];
static JobReply replies[JOBS];

static inline void one_call(const DistrictInput *d)
{
    rukeshomaji_district(d->job, d->jobs, d->weights, d->levels, d->heights, d->levels, rows, d->jobs, &report);
}

static inline void single_calls(const DistrictInput *d)
{
    for (size_t i = 0; i < d->jobs; i++) {
        const RukeshomajiDistrictJob *j = d->job + i;
        const u64 *w = d->weights + j->start, *h = d->heights + j->start, n = j->count;
        numbers[i] = j->basin ? rukeshomaji_basin_figures(j->zone, &j->frame, w, n, h, n, replies + i)
                              : rukeshomaji_figures(&j->site, &j->frame, w, n, h, n, replies + i);
    }
}
