/* Sheet and listing, over the rules in integers. */
#include <string.h>
#include "rules.h"

static const uint8_t *field(const uint8_t *p, const uint8_t *end, u64 *value)
{
    if (!p || p == end || *p != '\t') return NULL;
    const uint8_t *first = ++p;
    for (*value = 0; p < end && *p >= '0' && *p <= '9' && p - first < 10; p++) *value = *value * 10 + (*p - '0');
    if (p == first || p - first > 9 || (*first == '0' && p - first > 1)) return NULL;
    return p;
}

static const uint8_t *line(const uint8_t *p, const uint8_t *end, const char *word, int count, u64 *values)
{
    size_t n = strlen(word);
    if ((size_t)(end - p) < n || memcmp(p, word, n)) return NULL;
    p += n;
    for (int i = 0; i < count && p; i++) p = field(p, end, values + i);
    return p && p < end && *p == '\n' ? p + 1 : NULL;
}

static uint8_t *put(uint8_t *out, const char *word, const u64 *values, int count)
{
    while (*word) *out++ = *word++;
    for (int i = 0; i < count; i++) {
        uint8_t digits[20];
        int n = 0;
        u64 v = values[i];
        do digits[n++] = '0' + v % 10; while (v /= 10);
        *out++ = '\t';
        while (n) *out++ = digits[--n];
    }
    *out++ = '\n';
    return out;
}

static u64 refused(uint8_t *listing, SheetReply *reply, u64 number, u64 place)
{
    *reply = (SheetReply){place, put(listing, "refused", (u64[]){number, place}, 2) - listing};
    return number;
}

#define REFUSED(number, place) return refused(out, reply, number, place)

u64 OF(sheet)(const char *s, u64 length, char *listing, SheetReply *reply)
{
    const uint8_t *p = (const uint8_t *)s, *end = p + length;
    uint8_t *out = (uint8_t *)listing;
    u64 site[9], frame[5], level[2], w[50], h[50], forces[50], shears[50], moments[50];
    if (length > 4096) REFUSED(17, 0);
    const uint8_t *second = line(p, end, "site", 7, site);
    if (second) site[8] = site[6], site[6] = site[4], site[7] = site[5];
    else second = line(p, end, "site", 9, site);
    if (!(p = second)) REFUSED(16, 1);
    if (!(p = line(p, end, "frame", 5, frame))) REFUSED(16, 2);
    size_t n = 0;
    for (; p < end; n++) {
        if (!(p = line(p, end, "level", 2, level))) REFUSED(16, n + 3);
        if (n < 50) w[n] = level[0], h[n] = level[1];
    }
    if (n > 50) REFUSED(1, 0);
    Site a = {site[0], site[1], site[2], site[3], site[4], site[5], site[6], site[7], site[8]};
    Frame b = {frame[0], frame[1], frame[2], frame[3], frame[4]};
    JobReply j;
    u64 number = OF(job)(&a, &b, w, n, h, n, forces, n, shears, n, moments, n, &j);
    if (number) REFUSED(number, j.place);
    out = put(out, "base", (u64[]){j.v, j.vm, j.star, j.vd, j.t}, 5);
    for (size_t x = n; x-- > 0;) out = put(out, "level", (u64[]){x + 1, forces[x], shears[x], moments[x]}, 4);
    *reply = (SheetReply){0, out - (uint8_t *)listing};
    return 0;
}
