/* Sheet and listing as fast as C gives them that we know of: no copy of a line, decimals by pairs of digits. */
#include <string.h>
#include "rules.h"

static inline const uint8_t *digits(const uint8_t *p, const uint8_t *end, u64 *value)
{
    if (p >= end || *p != '\t') return NULL;
    const uint8_t *first = ++p;
    u64 v = 0, c;
    while (p < end && (c = (u64)*p - '0') < 10) {
        v = v * 10 + c, p++;
        if (p - first > 9) return NULL;
    }
    if (p == first || (*first == '0' && p - first > 1)) return NULL;
    *value = v;
    return p;
}

static char PAIRS[200];
__attribute__((constructor)) static void pairs(void)
{
    for (int i = 0; i < 100; i++) PAIRS[2 * i] = '0' + i / 10, PAIRS[2 * i + 1] = '0' + i % 10;
}

static const u64 TENS[] = {1, 10, 100, 1000, 10000, 100000, 1000000, 10000000, 100000000, 1000000000, 10000000000, 100000000000,
                           1000000000000, 10000000000000, 100000000000000, 1000000000000000, 10000000000000000, 100000000000000000,
                           1000000000000000000, 10000000000000000000u};

static inline uint8_t *decimal(uint8_t *out, u64 v)
{
    *out++ = '\t';
    int bits = 64 - __builtin_clzll(v | 1), n = bits * 1233 >> 12;
    n += v >= TENS[n];
    if (!n) n = 1;
    uint8_t *p = out + n;
    while (v >= 100) p -= 2, memcpy(p, PAIRS + 2 * (v % 100), 2), v /= 100;
    if (v >= 10) memcpy(p - 2, PAIRS + 2 * v, 2); else p[-1] = '0' + v;
    return out + n;
}

static u64 refused(uint8_t *listing, SheetReply *reply, u64 number, u64 place)
{
    memcpy(listing, "refused", 7);
    uint8_t *out = decimal(decimal(listing + 7, number), place);
    *out++ = '\n';
    *reply = (SheetReply){place, out - listing};
    return number;
}

#define REFUSED(number, place) return refused(out, reply, number, place)

/* so many numbers and LF, or NULL */
static inline const uint8_t *numbers(const uint8_t *p, const uint8_t *end, int count, u64 *values)
{
    for (int i = 0; i < count; i++)
        if (!(p = digits(p, end, values + i))) return NULL;
    return p < end && *p == '\n' ? p + 1 : NULL;
}

u64 OF(sheet)(const char *s, u64 length, char *listing, SheetReply *reply)
{
    const uint8_t *p = (const uint8_t *)s, *end = p + length;
    uint8_t *out = (uint8_t *)listing;
    u64 site[9], frame[5], level[2], w[50], h[50], forces[50], shears[50], moments[50];
    if (length > 4096) REFUSED(17, 0);
    if (length < 4 || memcmp(p, "site", 4)) REFUSED(16, 1);
    p += 4;
    for (int i = 0; i < 7; i++)
        if (!(p = digits(p, end, site + i))) REFUSED(16, 1);
    if (p < end && *p == '\n') site[8] = site[6], site[6] = site[4], site[7] = site[5], p++;
    else if (!(p = numbers(p, end, 2, site + 7))) REFUSED(16, 1);
    if (end - p < 5 || memcmp(p, "frame", 5) || !(p = numbers(p + 5, end, 5, frame))) REFUSED(16, 2);
    size_t n = 0;
    for (; p < end; n++) {
        if (end - p < 5 || memcmp(p, "level", 5) || !(p = numbers(p + 5, end, 2, level))) REFUSED(16, n + 3);
        if (n < 50) w[n] = level[0], h[n] = level[1];
    }
    if (n > 50) REFUSED(1, 0);
    Site si = {site[0], site[1], site[2], site[3], site[4], site[5], site[6], site[7], site[8]};
    Frame fr = {frame[0], frame[1], frame[2], frame[3], frame[4]};
    JobReply j;
    u64 number = OF(job)(&si, &fr, w, n, h, n, forces, n, shears, n, moments, n, &j);
    if (number) REFUSED(number, j.place);
    memcpy(out, "base", 4);
    out = decimal(decimal(decimal(decimal(decimal(out + 4, j.v), j.vm), j.star), j.vd), j.t);
    *out++ = '\n';
    for (size_t x = n; x-- > 0;) {
        memcpy(out, "level", 5);
        out = decimal(decimal(decimal(decimal(out + 5, x + 1), forces[x]), shears[x]), moments[x]);
        *out++ = '\n';
    }
    *reply = (SheetReply){0, out - (uint8_t *)listing};
    return 0;
}
