/* What the core and the plain C are run on: one fixed input of each kind, and pools of drawn ones. */
#include "rules.h"

enum { LEVELS = 50, LAYERS = 40, POOL = 512, BYTES = 4096, JOBS = RUKESHOMAJI_DISTRICT_JOBS, DISTRICTS = 8 };

typedef struct {
    Site site;
    Frame frame;
    size_t levels;
    u64 weights[LEVELS], heights[LEVELS];
} JobInput;

typedef struct {
    u64 thicknesses[LAYERS], kinds[LAYERS], values[LAYERS];
} LogInput;

typedef struct {
    const char *bytes;
    size_t length;
} SheetInput;

typedef struct {
    size_t jobs, levels;                          /* levels of the store */
    RukeshomajiDistrictJob job[JOBS];
    u64 weights[JOBS * LEVELS], heights[JOBS * LEVELS];
} DistrictInput;

u64 drawn(u64 count);                             /* below count */

JobInput fixed_job(size_t levels);
JobInput drawn_job(size_t levels);
JobInput ductile_job(size_t levels);              /* the fixed job with another R, drawn */
JobInput spoilt_job(size_t levels);               /* a drawn job with one number that is refused */
RukeshomajiDistrictJob district_job(const JobInput *, u64 basin, u64 start);  /* in the Basin, where it is asked for, in a drawn zone */

/* so many jobs of so many levels each, or of 1 to LEVELS where they are 0, each on levels of its own */
void fixed_district(DistrictInput *, size_t jobs, size_t levels);     /* the fixed job over and over, on its site */
void drawn_district(DistrictInput *, size_t jobs, size_t levels);     /* drawn jobs, half of them in the Basin */
void spoilt_district(DistrictInput *, size_t jobs, size_t levels);    /* spoilt jobs on sites */

LogInput fixed_log(void);
LogInput drawn_log(void);
LogInput clay_log(void);                          /* a drawn log with soft clay in it */

/* into BYTES bytes, and how many were written */
size_t sheet_of(const JobInput *, char *);
/* all of BYTES, the first lines of a sheet and level lines: more than LEVELS of them, so that it is refused after its last byte */
void long_sheet(const JobInput *, char *, u64 weight(void));
u64 least_weight(void), drawn_weight(void);
