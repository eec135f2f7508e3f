/* The site class as fast as C gives it that we know of: velocities from a table, times by reciprocals set right by one. */
#include "rules.h"

typedef int64_t i64;
#define likely(x) __builtin_expect(!!(x), 1)

/* velocities of N up to 50, cohesive and cohesionless, and of q up to 400, with their reciprocals: made once */
static u64 vel[3][401];
static double inverse[3][401];
static const u64 least[] = {2, 1, 1}, most[] = {25, 50, 400};
__attribute__((constructor)) static void make(void)
{
    for (int k = 0; k < 2; k++)
        for (u64 i = 1; i <= 50; i++) {
            u64 n = (k ? 512000000 : 1000000000) * i, v = 0;
            while ((v + 1) * (v + 1) * (v + 1) <= n) v++;
            vel[k][i] = v, inverse[k][i] = 1.0 / v;
        }
    for (u64 q = 1; q <= 400; q++) vel[2][q] = clay_velocity(q), inverse[2][q] = 1.0 / vel[2][q];
}

u64 OF(site_class)(const u64 *d, u64 n, const u64 *kinds, u64 nk, const u64 *values, u64 nv, ClassReply *reply)
{
    if (nk != n || nv != n) return reply_class(reply, 2, 0, 0);
    if (n < 1 || n > 40) return reply_class(reply, 13, 0, 0);
    u64 sum = 0, bad = 0, zero = 0;
    for (size_t i = 0; i < n; i++) zero |= d[i] == 0, bad |= d[i] > 3000, sum += d[i];
    if (zero | bad | (sum != 3000)) {
        for (size_t i = 0; i < n; i++)
            if (d[i] == 0) return reply_class(reply, 14, i + 1, 0);
        return reply_class(reply, 14, 0, 0);
    }
    u64 upper = 0, lower = 0;
    for (size_t i = 0; i < n; i++) {
        u64 k = kinds[i] - 2, v = values[i], ns = 100000000 * d[i];
        if (likely(k < 3)) {
            if (v - least[k] > most[k] - least[k]) return reply_class(reply, 15, i + 1, 0);
            u64 z = vel[k][v], q = (u64)(i64)((double)(i64)ns * inverse[k][v]);
            i64 r = (i64)(ns - q * z);
            q -= r < 0;
            q += r >= (i64)z;
            lower += q, upper += q + (q * z != ns);
        } else {
            if (k != (u64)-1 || v - 500 > 29500) return reply_class(reply, 15, i + 1, 0);
            u64 q = ns / v;
            lower += q, upper += q + (q * v != ns);
        }
    }
    if (27 * upper < 3000000000) return reply_class(reply, 0, 0, 1);
    if (18 * lower > 3000000000) return reply_class(reply, 0, 0, 3);
    return reply_class(reply, 0, 0, 2);
}
