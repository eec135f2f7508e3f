/* The rules in 64-bit integers: roots, period and velocities by halves, those of soft clay from a table, the overturning of each storey
 * carried on from the one above. */
#include "rules.h"

static const u64 COLUMNS_A[] = {5000, 6000, 7000, 8000, 9000}, COLUMNS_V[] = {3000, 3500, 4000, 4500, 5000};
static const u64 FA[3][5] = {{10000, 10000, 10000, 10000, 10000}, {11000, 11000, 10000, 10000, 10000}, {12000, 12000, 11000, 10000, 10000}};
static const u64 FV[3][5] = {{10000, 10000, 10000, 10000, 10000}, {15000, 14000, 13000, 12000, 11000}, {18000, 17000, 16000, 15000, 14000}};

static u64 up(u64 n, u64 d) { return n / d + (n % d != 0); }

static u64 between(const u64 *columns, const u64 *values, u64 x)
{
    if (x <= columns[0]) return values[0];
    for (int i = 0; i < 4; i++)
        if (x <= columns[i + 1])
            return (values[i] * (columns[i + 1] - x) + values[i + 1] * (x - columns[i])) / (columns[i + 1] - columns[i]);
    return values[4];
}

static u64 root(u64 den, u64 n)         /* the largest k with den k^2 <= n */
{
    u64 lo = 0, hi = 1 << 25;
    while (lo + 1 < hi) {
        u64 mid = (lo + hi) / 2;
        if (den * mid * mid <= n) lo = mid; else hi = mid;
    }
    return lo;
}

static u64 period(const Frame *f, u64 h)
{
    static const u64 c[] = {85, 70, 70, 50};
    u64 k = c[f->kind - 1], n = k * k * k * k * h * h * h, lo = 0, hi = 8192;
    while (lo + 1 < hi) {
        u64 mid = (lo + hi) / 2;
        if (1000 * mid * mid * mid * mid <= n) lo = mid; else hi = mid;
    }
    if (f->calculated == 0) return lo;
    u64 most = 14 * lo / 10;
    return f->calculated < most ? f->calculated : most;
}

static u64 spectrum(u64 a, u64 b, u64 t)
{
    u64 ta = t * a;
    if (ta <= 200 * b) {
        u64 u = 3 * ta;
        return up((400 + u / b) * a + up(u % b * a, b), 10000);
    }
    if (ta <= 1000 * b) return up(a, 10);
    if (ta <= 2500 * b) return up(100 * b, t);
    return up(4 * a, 100);
}

/* thirds: the capacity in thirds of a ten-millionth; n over d: the root's square */
static u64 lower_factor(u64 a, u64 b, u64 t, u64 thirds, u64 n, u64 d)
{
    u64 ta = t * a;
    if (1000 * b <= ta) return thirds / 3;
    u64 k = root(d, 100000000000000 * n);
    if (600 * b <= ta) return k + (thirds - 3 * k) * (ta - 600 * b) / (1200 * b);
    if (200 * b <= ta) return k;
    return k - up((k - 10000000) * (200 * b - ta), 200 * b);
}

static u64 upper_factor(u64 a, u64 b, u64 t, u64 thirds, u64 n, u64 d)
{
    u64 ta = t * a;
    if (1000 * b <= ta) return up(thirds, 3);
    u64 k = root(d, 100000000000000 * n - 1) + 1;
    if (600 * b <= ta) return k + up((thirds - 3 * k) * (ta - 600 * b), 1200 * b);
    if (200 * b <= ta) return k;
    return k - (k - 10000000) * (200 * b - ta) / (200 * b);
}

static u64 modified(u64 q)
{
    if (q <= 3000000) return q;
    if (q <= 8000000) return up(52 * q + 144000000, 100);
    return up(7 * q, 10);
}

static u64 blended(u64 sa, u64 f)
{
    if (10 * sa <= 3 * f) return sa;
    if (10 * sa <= 8 * f) return up(520 * sa + 144 * f, 1000);
    return up(7 * sa, 10);
}

/* the part of V_D at the roof, in 100,000: none up to 700 ms, then 0.07 a second, at most a quarter */
static u64 roof_part(u64 T) { return T <= 700 ? 0 : 7 * T <= 25000 ? 7 * T : 25000; }

u64 OF(job)(const Site *s, const Frame *f, const u64 *w, u64 n, const u64 *h, u64 m, u64 *forces, u64 nf, u64 *shears, u64 ns,
            u64 *moments, u64 nm, JobReply *reply)
{
    u64 room = nf < ns ? nf : ns;
    u64 refused = OF(judged)(s, f, w, n, h, m, room < nm ? room : nm);
    if (refused) return refuse_job(reply, refused);
    u64 W = 0, P = 0;
    for (size_t x = 0; x < n; x++) W += w[x], P += w[x] * h[x];
    u64 T = period(f, h[n - 1]);
    const u64 *fa = FA[s->class_number - 1], *fv = FV[s->class_number - 1];
    u64 ss = s->ssd * s->nad, s1 = s->s1d * s->nvd, ms = s->ssm * s->nam, m1 = s->s1m * s->nvm, ps = 100 * s->ssd, p1 = 100 * s->s1d;
    u64 a = between(COLUMNS_A, fa, ss) * ss, b = between(COLUMNS_V, fv, s1) * s1;
    u64 am = between(COLUMNS_A, fa, ms) * ms, bm = between(COLUMNS_V, fv, m1) * m1;
    u64 ap = between(COLUMNS_A, fa, ps) * ps, bp = between(COLUMNS_V, fv, p1) * p1;
    u64 design = (2 * f->r + 100) * 100000, mce = 3 * f->r * 100000;
    u64 q = up(spectrum(a, b, T) * 10000000, lower_factor(a, b, T, design, f->r - 25, 75));
    u64 qm = up(spectrum(am, bm, T) * 10000000, lower_factor(am, bm, T, mce, f->r - 50, 50));
    u64 p = blended(spectrum(ap, bp, T), upper_factor(ap, bp, T, design, f->r - 25, 75));
    u64 v = up(f->i * modified(q) * W, 14000 * f->alpha_y), vm = up(f->i * modified(qm) * W, 14000 * f->alpha_y);
    u64 star = up(f->i * p * W, 42000 * f->alpha_y), vd = v > vm ? v : vm;
    if (star > vd) vd = star;
    u64 ft = up(roof_part(T) * vd, 100000), px = 0, above = 0;
    for (size_t x = n; x-- > 0;) {
        px += w[x] * h[x];
        shears[x] = ft + up((vd - ft) * px, P);
        forces[x] = shears[x] - above;
        above = shears[x];
    }
    u64 moment = 0;
    for (size_t x = n; x-- > 0;) moments[x] = moment += shears[x] * (h[x] - (x ? h[x - 1] : 0));
    *reply = (JobReply){0, v, vm, star, vd, T};
    return 0;
}

/* velocities of soft clay by q: made once */
static u64 clay[401];
__attribute__((constructor)) static void make(void)
{
    for (u64 q = 1; q <= 400; q++) clay[q] = clay_velocity(q);
}

static u64 velocity(u64 kind, u64 value)
{
    if (kind == 1) return value;
    if (kind == 4) return clay[value];
    u64 n = (kind == 2 ? 1000000000 : 512000000) * value, lo = 0, hi = 4096;
    while (lo + 1 < hi) {
        u64 mid = (lo + hi) / 2;
        if (mid * mid * mid <= n) lo = mid; else hi = mid;
    }
    return lo;
}

u64 OF(site_class)(const u64 *d, u64 n, const u64 *kinds, u64 nk, const u64 *values, u64 nv, ClassReply *reply)
{
    if (nk != n || nv != n) return reply_class(reply, 2, 0, 0);
    if (n < 1 || n > 40) return reply_class(reply, 13, 0, 0);
    for (size_t i = 0; i < n; i++)
        if (d[i] == 0) return reply_class(reply, 14, i + 1, 0);
    u64 left = 3000;
    for (size_t i = 0; i < n; i++) {
        if (d[i] > left) return reply_class(reply, 14, 0, 0);
        left -= d[i];
    }
    if (left) return reply_class(reply, 14, 0, 0);
    static const u64 least[] = {500, 2, 1, 1}, most[] = {30000, 25, 50, 400};
    u64 upper = 0, lower = 0;
    for (size_t i = 0; i < n; i++) {
        u64 k = kinds[i];
        if (k < 1 || k > 4 || values[i] < least[k - 1] || values[i] > most[k - 1]) return reply_class(reply, 15, i + 1, 0);
        u64 v = velocity(k, values[i]);
        upper += up(100000000 * d[i], v);
        lower += 100000000 * d[i] / v;
    }
    if (27 * upper < 3000000000) return reply_class(reply, 0, 0, 1);
    if (18 * lower > 3000000000) return reply_class(reply, 0, 0, 3);
    return reply_class(reply, 0, 0, 2);
}
