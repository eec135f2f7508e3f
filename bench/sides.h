/* The core first, and what it is timed against: the same rules in plain C and, of a job alone, in doubles. */
#define DECLARED(side) Job side##_job; Log side##_site_class; Sheet side##_sheet;
DECLARED(plain)
DECLARED(best)
#ifdef CLANG
DECLARED(clang)
#endif
Job double_job;

typedef struct {
    const char *name;
    Job *job;
    Log *log;
    Sheet *sheet;
} Side;

static const Side sides[] = {
    {"core", rukeshomaji_job, rukeshomaji_site_class, rukeshomaji_sheet},
    {"gcc -O2", plain_job, plain_site_class, plain_sheet},
#ifdef CLANG
    {"clang -O3", clang_job, clang_site_class, clang_sheet},
#endif
    {"best", best_job, best_site_class, best_sheet},
    {"doubles", double_job, NULL, NULL},
};

enum { SIDES = sizeof sides / sizeof *sides };
