/* Refusals 1 to 12 of a job. */
#include "rules.h"

static u64 refusal(u64 number, u64 place) { return number << 32 | place; }

static int among(const u64 *values, int count, u64 x)
{
    for (int i = 0; i < count; i++)
        if (values[i] == x) return 1;
    return 0;
}

u64 OF(judged)(const Site *s, const Frame *f, const u64 *w, u64 n, const u64 *h, u64 m, u64 room)
{
    static const u64 ssd[] = {50, 60, 70, 80}, s1d[] = {30, 35, 40, 45}, ssm[] = {70, 80, 90, 100}, s1m[] = {40, 45, 50, 55};
    static const u64 i_values[] = {100, 125, 150};
    if (n < 1 || n > 50) return refusal(1, 0);
    if (m != n || room < n) return refusal(2, 0);
    for (size_t x = 0; x < n; x++)
        if (w[x] < 1 || w[x] > 20000) return refusal(3, x + 1);
    u64 below = 0;
    for (size_t x = 0; x < n; x++) {
        if (h[x] < 1 || h[x] > 2000 || h[x] <= below) return refusal(4, x + 1);
        below = h[x];
    }
    if (!among(ssd, 4, s->ssd)) return refusal(5, 1);
    if (!among(s1d, 4, s->s1d)) return refusal(5, 2);
    if (!among(ssm, 4, s->ssm)) return refusal(5, 3);
    if (!among(s1m, 4, s->s1m)) return refusal(5, 4);
    if (s->nad < 100 || s->nad > 150) return refusal(6, 1);
    if (s->nvd < 100 || s->nvd > 200) return refusal(6, 2);
    if (s->nam < 100 || s->nam > 150) return refusal(6, 3);
    if (s->nvm < 100 || s->nvm > 200) return refusal(6, 4);
    if (s->class_number < 1 || s->class_number > 3) return refusal(7, 0);
    if (f->r < 100 || f->r > 600) return refusal(8, 0);
    if (!among(i_values, 3, f->i)) return refusal(9, 0);
    if (f->alpha_y < 100 || f->alpha_y > 200) return refusal(10, 0);
    if (f->kind < 1 || f->kind > 4) return refusal(11, 0);
    if (f->calculated > 60000) return refusal(12, 0);
    return 0;
}
