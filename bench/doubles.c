/* The rules in doubles, as a desk program would write them: no stage is rounded but the printed newtons. */
#include <math.h>
#include "rules.h"

static const double COLUMNS_A[] = {0.5, 0.6, 0.7, 0.8, 0.9}, COLUMNS_V[] = {0.3, 0.35, 0.4, 0.45, 0.5};
static const double FA[3][5] = {{1, 1, 1, 1, 1}, {1.1, 1.1, 1, 1, 1}, {1.2, 1.2, 1.1, 1, 1}};
static const double FV[3][5] = {{1, 1, 1, 1, 1}, {1.5, 1.4, 1.3, 1.2, 1.1}, {1.8, 1.7, 1.6, 1.5, 1.4}};

static double between(const double *columns, const double *values, double x)
{
    if (x <= columns[0]) return values[0];
    for (int i = 0; i < 4; i++)
        if (x <= columns[i + 1])
            return values[i] + (values[i + 1] - values[i]) * (x - columns[i]) / (columns[i + 1] - columns[i]);
    return values[4];
}

static double spectrum(double a, double b, double t)
{
    double t0 = b / a;
    if (t <= 0.2 * t0) return a * (0.4 + 3 * t / t0);
    if (t <= t0) return a;
    if (t <= 2.5 * t0) return b / t;
    return 0.4 * a;
}

static double factor(double a, double b, double t, double capacity)
{
    double t0 = b / a, root = sqrt(2 * capacity - 1);
    if (t >= t0) return capacity;
    if (t >= 0.6 * t0) return root + (capacity - root) * (t - 0.6 * t0) / (0.4 * t0);
    if (t >= 0.2 * t0) return root;
    return root + (root - 1) * (t - 0.2 * t0) / (0.2 * t0);
}

static double modified(double q) { return q <= 0.3 ? q : q <= 0.8 ? 0.52 * q + 0.144 : 0.7 * q; }

u64 OF(job)(const Site *s, const Frame *f, const u64 *w, u64 n, const u64 *h, u64 m, u64 *forces, u64 nf, u64 *shears, u64 ns,
            u64 *moments, u64 nm, JobReply *reply)
{
    static const double c[] = {0.085, 0.07, 0.07, 0.05};
    u64 room = nf < ns ? nf : ns;
    u64 refused = OF(judged)(s, f, w, n, h, m, room < nm ? room : nm);
    if (refused) return refuse_job(reply, refused);
    double W = 0, P = 0;
    for (size_t x = 0; x < n; x++) W += 1000.0 * w[x], P += (double)w[x] * h[x];
    double t = c[f->kind - 1] * pow(h[n - 1] / 10.0, 0.75);
    t = floor(1000 * t);
    if (f->calculated) t = fmin(f->calculated, floor(1.4 * t));
    t /= 1000;
    const double *fa = FA[s->class_number - 1], *fv = FV[s->class_number - 1];
    double ss = s->ssd * s->nad / 1e4, s1 = s->s1d * s->nvd / 1e4, ms = s->ssm * s->nam / 1e4, m1 = s->s1m * s->nvm / 1e4;
    double ps = s->ssd / 100.0, p1 = s->s1d / 100.0, r = f->r / 100.0, design = 1 + (r - 1) / 1.5;
    double a = between(COLUMNS_A, fa, ss) * ss, b = between(COLUMNS_V, fv, s1) * s1;
    double am = between(COLUMNS_A, fa, ms) * ms, bm = between(COLUMNS_V, fv, m1) * m1;
    double ap = between(COLUMNS_A, fa, ps) * ps, bp = between(COLUMNS_V, fv, p1) * p1;
    double share = f->i / 1.4 / f->alpha_y * W, fs = factor(ap, bp, t, design);
    double v = share * modified(spectrum(a, b, t) / factor(a, b, t, design));
    double vm = share * modified(spectrum(am, bm, t) / factor(am, bm, t, r));
    double star = share / 3 * fs * modified(spectrum(ap, bp, t) / fs), vd = fmax(fmax(v, vm), star);
    double ft = t <= 0.7 ? 0 : fmin(0.07 * t, 0.25) * vd, px = 0, above = 0, moment = 0;
    for (size_t x = n; x-- > 0;) {
        px += (double)w[x] * h[x];
        double under = ceil(ft + (vd - ft) * px / P);
        shears[x] = under, forces[x] = under - above;
        above = under;
        moments[x] = moment += under * (h[x] - (x ? h[x - 1] : 0));
    }
    *reply = (JobReply){0, ceil(v), ceil(vm), ceil(star), ceil(vd), round(1000 * t)};
    return 0;
}
