/* The same rules in plain C, beside the entries of the core. A file of them is compiled once for each side that is timed: OF(job) is
 * plain_job, clang_job, best_job or double_job. */
#include <math.h>
#include <stddef.h>
#include "../include/rukeshomaji.h"

typedef uint64_t u64;
typedef RukeshomajiSite Site;
typedef RukeshomajiFrame Frame;
typedef RukeshomajiFigures JobReply;
typedef RukeshomajiClass ClassReply;
typedef RukeshomajiListing SheetReply;
enum { LONGEST = RUKESHOMAJI_LONGEST_LISTING };

typedef u64 Job(const Site *, const Frame *, const u64 *, u64, const u64 *, u64, u64 *, u64, u64 *, u64, u64 *, u64, JobReply *);
typedef u64 Log(const u64 *, u64, const u64 *, u64, const u64 *, u64, ClassReply *);
typedef u64 Sheet(const char *, u64, char *, SheetReply *);

#define JOINED(side, name) side##_##name
#define NAMED(side, name) JOINED(side, name)
#define OF(name) NAMED(SIDE, name)

#ifdef SIDE
Job OF(job);
Log OF(site_class);
Sheet OF(sheet);

/* 0 where nothing is refused, else number * 2^32 + place */
u64 OF(judged)(const Site *, const Frame *, const u64 *, u64, const u64 *, u64, u64 room);

/* the reply of a job that OF(judged) refuses, and of a soil log */
static inline u64 refuse_job(JobReply *reply, u64 refused)
{
    *reply = (JobReply){refused & 0xffffffff, 0, 0, 0, 0, 0};
    return refused >> 32;
}

/* soft clay, dm/s, of q in 0.01 kgf/cm2: 25th powers do not fit 64 bits, and no q but 100 comes nearer to a whole number than 0.001 */
static inline u64 clay_velocity(u64 q) { return (u64)(1200 * pow((double)q / 100, 0.36) + 1e-9); }

static inline u64 reply_class(ClassReply *reply, u64 number, u64 place, u64 class_number)
{
    *reply = (ClassReply){place, class_number};
    return number;
}
#endif
