/* The job as fast as C gives it that we know of: one pass, hardware square roots set right by one, no division where a reciprocal
 * serves, judging without early exits. */
#include <math.h>
#include "rules.h"

typedef int64_t i64;

static inline u64 up(u64 n, u64 d) { return (n + d - 1) / d; }

/* Table 2, the last column twice: beyond it nothing changes */
static const u64 FA[3][6] = {{10000, 10000, 10000, 10000, 10000, 10000}, {11000, 11000, 10000, 10000, 10000, 10000},
                             {12000, 12000, 11000, 10000, 10000, 10000}};
static const u64 FV[3][6] = {{10000, 10000, 10000, 10000, 10000, 10000}, {15000, 14000, 13000, 12000, 11000, 11000},
                             {18000, 17000, 16000, 15000, 14000, 14000}};

/* A, by F_a, and B, by F_v */
static inline u64 fa(u64 c, u64 x)
{
    u64 y = x < 5000 ? 0 : x > 9000 ? 4000 : x - 5000, i = y / 1000, r = y % 1000;
    return (FA[c][i] * (1000 - r) + FA[c][i + 1] * r) / 1000 * x;
}

static inline u64 fv(u64 c, u64 x)
{
    u64 y = x < 3000 ? 0 : x > 5000 ? 2000 : x - 3000, i = y / 500, r = y % 500;
    return (FV[c][i] * (500 - r) + FV[c][i + 1] * r) / 500 * x;
}

/* the largest k with k^2 <= m */
static inline u64 root_of(u64 m)
{
    u64 k = (u64)sqrt((double)(i64)m);
    k -= k * k > m;
    k += (k + 1) * (k + 1) <= m;
    return k;
}

static inline u64 period(u64 kind, u64 calculated, u64 h)
{
    static const u64 c4[] = {52200625, 24010000, 24010000, 6250000};
    u64 m = c4[kind - 1] * (h * h * h) / 1000;
    u64 t = (u64)sqrt(sqrt((double)(i64)m));
    t -= t * t * t * t > m;
    u64 v = t + 1;
    t += v * v * v * v <= m;
    if (!calculated) return t;
    u64 most = 14 * t / 10;
    return calculated < most ? calculated : most;
}

static inline u64 spectrum(u64 a, u64 b, u64 ta, u64 t)
{
    if (ta <= 200 * b) {
        u64 u = 3 * ta;
        return up((400 + u / b) * a + up(u % b * a, b), 10000);
    }
    if (ta <= 1000 * b) return up(a, 10);
    if (ta <= 2500 * b) return up(100 * b, t);
    return up(4 * a, 100);
}

static inline u64 modified(u64 q)
{
    if (q <= 3000000) return q;
    if (q <= 8000000) return up(52 * q + 144000000, 100);
    return up(7 * q, 10);
}

static inline __attribute__((always_inline)) u64 lower_q(u64 a, u64 b, u64 t, u64 thirds, u64 square)
{
    u64 ta = t * a, sa = spectrum(a, b, ta, t), f;
    if (1000 * b <= ta) f = thirds / 3;
    else {
        u64 k = root_of(square);
        if (600 * b <= ta) f = k + (thirds - 3 * k) * (ta - 600 * b) / (1200 * b);
        else if (200 * b <= ta) f = k;
        else f = k - up((k - 10000000) * (200 * b - ta), 200 * b);
    }
    return up(sa * 10000000, f);
}

/* the part of V_D at the roof, in 100,000: none up to 700 ms, then 0.07 a second, at most a quarter */
static u64 roof_part(u64 T) { return T <= 700 ? 0 : 7 * T <= 25000 ? 7 * T : 25000; }

u64 OF(job)(const Site *s, const Frame *f, const u64 *w, u64 n, const u64 *h, u64 m, u64 *restrict forces, u64 nf,
            u64 *restrict shears, u64 ns, u64 *restrict moments, u64 nm, JobReply *reply)
{
    u64 room = nf < ns ? nf : ns;
    room = room < nm ? room : nm;
    if (n - 1 > 49 || m != n || room < n) goto refuse;
    u64 W = 0, P = 0, below = 0, bad = 0;
    for (size_t x = 0; x < n; x++) {
        u64 a = w[x], b = h[x];
        bad |= (a - 1 > 19999) | (b <= below) | (b > 2000);
        below = b, W += a, P += a * b;
    }
    bad |= (s->ssd - 50 > 30) | (s->ssd % 10 != 0) | (s->s1d - 30 > 15) | (s->s1d % 5 != 0);
    bad |= (s->ssm - 70 > 30) | (s->ssm % 10 != 0) | (s->s1m - 40 > 15) | (s->s1m % 5 != 0);
    bad |= (s->nad - 100 > 50) | (s->nvd - 100 > 100) | (s->nam - 100 > 50) | (s->nvm - 100 > 100) | (s->class_number - 1 > 2);
    bad |= (f->r - 100 > 500) | ((f->i != 100) & (f->i != 125) & (f->i != 150)) | (f->alpha_y - 100 > 100) | (f->kind - 1 > 3);
    bad |= f->calculated > 60000;
    if (bad) {
    refuse:
        return refuse_job(reply, OF(judged)(s, f, w, n, h, m, room));
    }
    u64 T = period(f->kind, f->calculated, below), c = s->class_number - 1;
    u64 a = fa(c, s->ssd * s->nad), b = fv(c, s->s1d * s->nvd), am = fa(c, s->ssm * s->nam), bm = fv(c, s->s1m * s->nvm);
    u64 ap = fa(c, 100 * s->ssd), bp = fv(c, 100 * s->s1d), design = (2 * f->r + 100) * 100000, mce = 3 * f->r * 100000;
    u64 q = lower_q(a, b, T, design, 100000000000000 * (f->r - 25) / 75), qm = lower_q(am, bm, T, mce, 100000000000000 * (f->r - 50) / 50);
    u64 ta = T * ap, sa = spectrum(ap, bp, ta, T), uf;
    if (1000 * bp <= ta) uf = up(design, 3);
    else {
        u64 k = root_of((100000000000000 * (f->r - 25) - 1) / 75) + 1;
        if (600 * bp <= ta) uf = k + up((design - 3 * k) * (ta - 600 * bp), 1200 * bp);
        else if (200 * bp <= ta) uf = k;
        else uf = k - (k - 10000000) * (200 * bp - ta) / (200 * bp);
    }
    u64 p = 10 * sa <= 3 * uf ? sa : 10 * sa <= 8 * uf ? up(520 * sa + 144 * uf, 1000) : up(7 * sa, 10);
    u64 iw = f->i * W, d = 14000 * f->alpha_y;
    u64 v = up(iw * modified(q), d), vm = up(iw * modified(qm), d), star = up(iw * p, 3 * d), vd = v > vm ? v : vm;
    vd = star > vd ? star : vd;
    u64 ft = up(roof_part(T) * vd, 100000), px = 0, above = 0, moment = 0, part = vd - ft;
    double inv = 1.0 / (double)(i64)P;
    u64 top = h[n - 1];
    for (size_t x = n; x-- > 0;) {
        u64 bottom = x ? h[x - 1] : 0;
        px += w[x] * top;
        u64 num = part * px, quotient = (u64)(i64)((double)(i64)num * inv);
        i64 rest = (i64)(num - quotient * P);
        u64 shear = ft + quotient + (rest > 0) + (rest > (i64)P);
        shears[x] = shear;
        forces[x] = shear - above;
        above = shear;
        moments[x] = moment += shear * (top - bottom);
        top = bottom;
    }
    *reply = (JobReply){0, v, vm, star, vd, T};
    return 0;
}
