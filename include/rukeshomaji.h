/* Rukeshomaji: the seismic base shear of a building by Taiwan's 2005 code, with storeys, drift and torsion, in whole numbers. C99 or newer,
 * and C++.
 *
 * examples/build.sh makes the library of x86-64 Linux, librukeshomaji.a and librukeshomaji.so; examples/ has programs in C and C++, a
 * module for Python and programs that use it. Pointers and 64-bit numbers are all that an entry takes and returns.
 *
 * crates/linked/src/lib.rt has the contract of each entry, which is proved; this page repeats it. What it says of threads, NULL, overlap, heap
 * and stack is not proved (docs/LIMITS.md). Document 000 is the code's text in English; docs/manual states the rules.
 *
 *   Every input is taken. An entry returns 0, or the number of the first refusal that applies; it writes no message and ends no program.
 *   A district returns 0 also where some of its jobs are refused: each row has a number and a place of its own.
 *   Every field of `figures`, `reply` or `report`, and `place`, is written at each call. Where the call is refused, all but the place and a
 *   listing's length are 0. A refused job of a district has zeros for figures in its own row; the report counts it.
 *   Where the call is refused its buffers, and the rows of a district, hold what they held. A listing's bytes past its length, and rows past the
 *   last job, hold what they held in any case.
 *   Nothing is kept between calls: an answer depends on its own call alone. Calls may run at once, from any threads, also over lists that
 *   they share, as long as nothing that one of them writes to is used by another.
 *   A list or a buffer is a pointer and a count of its elements. With a count of 0 the pointer may be NULL, which is tried and not proved
 *   (docs/LIMITS.md). No other pointer may be NULL; each is aligned for its type.
 *   What is written (buffers, figures, place, reply, listing, rows, report) must not overlap anything else that is passed. What is only read may.
 *   No entry uses the heap; the library needs memcpy and memset alone. docs/MEASURED.md says how much stack each entry took.
 */
#ifndef RUKESHOMAJI_H
#define RUKESHOMAJI_H
#include <stdint.h>

#ifdef __cplusplus
extern "C" {
#endif

/* Three numbers name what you link; the functions at the end of this page give those of the library. Version: 1,000,000 times the major
 * number, 1,000 times the minor one, and the last. A struct or a declaration changes only when the major number changes: a program that was
 * compiled with a header of another major number may call rukeshomaji_version, which never changes, and nothing else. Edition: the year of
 * the code. Source: the state of the rules, which goes up by one whenever any call answers differently; it is 6 since a soil log takes soft
 * clay by its unconfined compression strength (2.4.0). */
#define RUKESHOMAJI_VERSION 2006000
#define RUKESHOMAJI_EDITION 2005
#define RUKESHOMAJI_SOURCE 6

/* the most levels of a call, layers of a soil log and bytes of a sheet, and the most bytes that a listing can have */
#define RUKESHOMAJI_MOST_LEVELS 50
#define RUKESHOMAJI_MOST_LAYERS 40
#define RUKESHOMAJI_MOST_BYTES 4096
#define RUKESHOMAJI_LONGEST_LISTING 4610

/* the largest total weight of a shear call, in kN, and the largest base shear of a distribution, in N */
#define RUKESHOMAJI_MOST_TOTAL_WEIGHT 1000000
#define RUKESHOMAJI_MOST_BASE_SHEAR 1200000000

/* the most jobs of a district, and how many cells its report has; since 2.5.0 */
#define RUKESHOMAJI_DISTRICT_JOBS 256
#define RUKESHOMAJI_CELLS 113

/* the largest size of a displacement, in 0.01 mm, the largest limit of a drift call, in ten-thousandths, the largest plan dimension, in dm, and the
 * largest torsion factor, in thousandths; since 2.6.0 */
#define RUKESHOMAJI_MOST_DISPLACEMENT 1000000
#define RUKESHOMAJI_MOST_DRIFT_LIMIT 10000
#define RUKESHOMAJI_MOST_DIMENSION 5000
#define RUKESHOMAJI_MOST_TORSION_FACTOR 3000

/* Refusals: what an entry returns where it does not return 0; beside each its place. Of 1 to 15 the lowest number that applies is returned,
 * at its lowest place, but 14 at a layer of thickness 0 where there is one. A job in the Taipei Basin has no site: 18 stands where 5 to 7
 * stand, after 1 to 4 and before 8 to 12. A shear call has no levels: its 3 and 4 are of the total weight and the top height, at place 0. In
 * a distribution 19, then 20, follow 1 to 4. For a sheet 17, then 16, come before all others. A district is refused with 22 alone, as a whole; a
 * row of it with 21 before all others. A drift call has no weights: its 1 is of the heights, it has no 3, and 23, then 24, follow 1, 2, 4. In a
 * torsion call 25 follows 23. In accidental moments 19, 20, 26 follow 1 to 4. No other entry returns 23 to 26. */
#define RUKESHOMAJI_REFUSED_LEVELS 1      /* no level, or over 50, judged on the weights, of a drift call on the heights: 0 */
#define RUKESHOMAJI_REFUSED_LENGTHS 2     /* lists of unequal length, or a result buffer shorter than them: 0 */
#define RUKESHOMAJI_REFUSED_WEIGHT 3      /* weight out of range: level, the lowest is 1; of a shear call: 0 */
#define RUKESHOMAJI_REFUSED_HEIGHT 4      /* height out of range, or not above the one below: level; of a shear call out of range: 0 */
#define RUKESHOMAJI_REFUSED_MAPPED 5      /* mapped value not in its table: 1 to 4, in the order of the site's fields */
#define RUKESHOMAJI_REFUSED_NEAR_FAULT 6  /* near-fault factor out of range: 1 to 4, in the order of the site's fields */
#define RUKESHOMAJI_REFUSED_CLASS 7       /* unknown site class: 0 */
#define RUKESHOMAJI_REFUSED_R 8           /* R out of range: 0 */
#define RUKESHOMAJI_REFUSED_I 9           /* I not in its table: 0 */
#define RUKESHOMAJI_REFUSED_ALPHA_Y 10    /* alpha-y out of range: 0 */
#define RUKESHOMAJI_REFUSED_KIND 11       /* unknown kind of frame: 0 */
#define RUKESHOMAJI_REFUSED_PERIOD 12     /* calculated period out of range: 0 */
#define RUKESHOMAJI_REFUSED_LAYERS 13     /* no layer, or over 40: 0 */
#define RUKESHOMAJI_REFUSED_THICKNESS 14  /* thickness 0: layer, the first is 1; thicknesses that do not add up to 3,000 cm: 0 */
#define RUKESHOMAJI_REFUSED_LAYER 15      /* unknown kind of layer, or value out of range: layer */
#define RUKESHOMAJI_REFUSED_LINE 16       /* line of a sheet not as laid out: line, the first is 1 */
#define RUKESHOMAJI_REFUSED_SHEET 17      /* sheet over 4,096 bytes: 0 */
#define RUKESHOMAJI_REFUSED_ZONE 18       /* zone not 1 to 4: 0 */
#define RUKESHOMAJI_REFUSED_BASE_SHEAR 19 /* base shear of a distribution or of accidental moments out of range: 0 */
#define RUKESHOMAJI_REFUSED_PERIOD_HANDED 20  /* period of a distribution or of accidental moments out of range: 0 */
#define RUKESHOMAJI_REFUSED_STRETCH 21    /* of a row of a district: its stretch is outside the store: 0 */
#define RUKESHOMAJI_REFUSED_DISTRICT 22   /* of a whole district: over 256 jobs, lists of unequal length, or fewer rows than jobs: 0 */
#define RUKESHOMAJI_REFUSED_DISPLACEMENT 23  /* displacement out of range: level; of a torsion call: 0 */
#define RUKESHOMAJI_REFUSED_DRIFT_LIMIT 24   /* limit of a drift call out of range: 0 */
#define RUKESHOMAJI_REFUSED_AVERAGE 25    /* average displacement of a torsion call 0, or above the largest: 0 */
#define RUKESHOMAJI_REFUSED_DIMENSION 26  /* plan dimension out of range: 0 */

/* site classes */
#define RUKESHOMAJI_HARD 1
#define RUKESHOMAJI_NORMAL 2
#define RUKESHOMAJI_SOFT 3

/* kinds of frame */
#define RUKESHOMAJI_STEEL 1               /* steel moment frame */
#define RUKESHOMAJI_CONCRETE 2            /* RC or SRC moment frame */
#define RUKESHOMAJI_BRACED 3              /* eccentrically braced steel frame */
#define RUKESHOMAJI_OTHER 4
#define RUKESHOMAJI_NO_PERIOD 0           /* in place of a calculated period: none */

/* kinds of layer */
#define RUKESHOMAJI_MEASURED 1            /* its value is a velocity in dm/s */
#define RUKESHOMAJI_COHESIVE 2            /* its value is N */
#define RUKESHOMAJI_COHESIONLESS 3        /* its value is N */
#define RUKESHOMAJI_SOFT_CLAY 4           /* its value is q, the unconfined compression strength in 0.01 kgf/cm2; since 2.4.0 */

/* A site. V uses nad and nvd, V_M nam and nvm, V* none of them. With one pair for both hazard levels, set nam and nvm to the values of nad and
 * nvd; far from a fault all four are 100. */
typedef struct {
    uint64_t ssd;             /* S_S of the design level, 0.01 g: 50, 60, 70 or 80 */
    uint64_t s1d;             /* S_1 of the design level, 0.01 g: 30, 35, 40 or 45 */
    uint64_t ssm;             /* S_S of the MCE level, 0.01 g: 70, 80, 90 or 100 */
    uint64_t s1m;             /* S_1 of the MCE level, 0.01 g: 40, 45, 50 or 55 */
    uint64_t nad;             /* near-fault factor N_A of the design level, 0.01: 100 to 150 */
    uint64_t nvd;             /* near-fault factor N_V of the design level, 0.01: 100 to 200 */
    uint64_t nam;             /* near-fault factor N_A of the MCE level, 0.01: 100 to 150 */
    uint64_t nvm;             /* near-fault factor N_V of the MCE level, 0.01: 100 to 200 */
    uint64_t class_number;    /* site class: 1 hard, 2 normal, 3 soft */
} RukeshomajiSite;

typedef struct {
    uint64_t kind;            /* of frame: 1 steel, 2 RC or SRC, 3 eccentrically braced, 4 other */
    uint64_t calculated;      /* calculated period, ms: 1 to 60,000, or 0 for none */
    uint64_t r;               /* ductility R, 0.01: 100 to 600 */
    uint64_t i;               /* importance I, 0.01: 100, 125 or 150 */
    uint64_t alpha_y;         /* first-yield factor alpha-y, 0.01: 100 to 200 */
} RukeshomajiFrame;

typedef struct {
    uint64_t place;           /* of the refusal; 0 on success */
    uint64_t v;               /* V, N */
    uint64_t vm;              /* V_M, N */
    uint64_t star;            /* V*, N */
    uint64_t vd;              /* V_D, the design base shear, N: the largest of the three */
    uint64_t t;               /* T, the period in use, ms */
} RukeshomajiFigures;

typedef struct {
    uint64_t place;           /* of the refusal; 0 on success */
    uint64_t class_number;    /* 1 hard, 2 normal, 3 soft; 0 where data is refused */
} RukeshomajiClass;

typedef struct {
    uint64_t place;           /* of the refusal; 0 on success */
    uint64_t length;          /* of the listing, bytes: 1 to 4,610 */
} RukeshomajiListing;

/* A job of a district, since 2.5.0: a ground, a frame, and a stretch of the store of levels that the jobs of a call share. */
typedef struct {
    uint64_t basin;           /* 0: on the site, and the zone is not looked at; anything else: in the Taipei Basin, and the site is not looked at */
    uint64_t zone;            /* micro-zone of the Basin: 1 to 4 */
    RukeshomajiSite site;
    RukeshomajiFrame frame;
    uint64_t start;           /* of the stretch: its lowest level, counted from 0 in the store */
    uint64_t count;           /* of the stretch, levels: 1 to 50 */
} RukeshomajiDistrictJob;

/* A row of a district, since 2.5.0: the answer to one job. */
typedef struct {
    uint64_t number;          /* of the refusal; 0 on success */
    uint64_t place;           /* of the refusal; 0 on success */
    uint64_t v;               /* V, N */
    uint64_t vm;              /* V_M, N */
    uint64_t star;            /* V*, N */
    uint64_t vd;              /* V_D, N */
    uint64_t t;               /* T, ms */
} RukeshomajiRow;

/* The report of a district, since 2.5.0. W is the sum of the weights of a job's stretch, kN; so vd over W, N over kN, is in thousandths. */
typedef struct {
    uint64_t accepted;        /* jobs that were accepted */
    uint64_t refused;         /* jobs that were refused */
    uint64_t sum;             /* of the vd of all accepted jobs, N; exact */
    uint64_t by_v;            /* accepted jobs that V governs: vd is v */
    uint64_t by_vm;           /* that V_M governs: vd is vm, and v is less */
    uint64_t by_star;         /* that V* governs: vd is star, and v and vm are less */
    uint64_t cells[RUKESHOMAJI_CELLS];  /* cell k, from 0 on: accepted jobs with vd over W, rounded down, of 10*k to 10*k + 9 */
} RukeshomajiReport;

/* The answer to a torsion call, since 2.6.0. */
typedef struct {
    uint64_t place;           /* of the refusal; 0 on success */
    uint64_t factor;          /* A_x, thousandths: 695 to 3,000; 0 where data is refused */
} RukeshomajiTorsion;

/* The job: the base shear of one building in one horizontal direction, and its storeys, on a site outside the Taipei Basin.
 *
 * Given      site, frame     see above
 *            weights         of the levels, lowest first, kN: 1 to 20,000 each; 1 to 50 levels
 *            heights         of the levels above the base, lowest first, dm: 1 to 2,000, each above the one below; as many
 *            forces, shears, overturnings    buffers of at least as many cells
 * Returned   0, or the refusal
 * Refused    1 to 12
 * Written    figures: all fields. On success the first cells of the buffers, one per level, lowest first: forces in N, which add up to V_D;
 *            shears in N, each under its level; overturnings in N*dm, about the bottom of its storey. Other cells hold what they held
 * Reference  document 000 (1), (4) to (9), (12) to (14), (16) to (21), (23) without its factor. F_t of (21) is 0 for T up to 700 ms and at
 *            most V_D/4, rounded up. docs/DIFFERENCES.md says where else the rules depart from it
 * Moves      v, vm, star and vd as for rukeshomaji_shear_call, by the sum of the weights; nothing is said of forces,
 *            overturnings and the shears above level 1
 */
uint64_t rukeshomaji_job(const RukeshomajiSite *site, const RukeshomajiFrame *frame, const uint64_t *weights, uint64_t weight_count,
                         const uint64_t *heights, uint64_t height_count, uint64_t *forces, uint64_t force_cells, uint64_t *shears,
                         uint64_t shear_cells, uint64_t *overturnings, uint64_t overturning_cells, RukeshomajiFigures *figures);

/* The five figures of a job, without its storeys: those of rukeshomaji_job.
 *
 * Given      site, frame, weights, heights    as for rukeshomaji_job
 * Returned   0, or the refusal
 * Refused    1 to 12, with 2 for lists of unequal length alone
 * Written    figures: all fields
 * Reference  document 000 (1), (4) to (9), (12) to (14), (16) to (20)
 * Moves      as for rukeshomaji_shear_call, by the sum of the weights
 */
uint64_t rukeshomaji_figures(const RukeshomajiSite *site, const RukeshomajiFrame *frame, const uint64_t *weights, uint64_t weight_count,
                             const uint64_t *heights, uint64_t height_count, RukeshomajiFigures *figures);

/* The job in the Taipei Basin: rukeshomaji_job with a zone in place of the site.
 *
 * Given      zone            micro-zone of the Basin: 1 to 4
 *            frame           see above
 *            weights, heights, forces, shears, overturnings    as for rukeshomaji_job
 * Returned   0, or the refusal
 * Refused    1 to 4, 18, 8 to 12
 * Written    as for rukeshomaji_job
 * Reference  document 000, 2.1 after (4) for the period, (6) to (8), (10), (11), (15) to (21), Table 4, (23) without its factor.
 *            F_t of (21) as for rukeshomaji_job. docs/DIFFERENCES.md says where else the rules depart from it
 * Moves      as for rukeshomaji_job, with the same zone
 */
uint64_t rukeshomaji_basin_job(uint64_t zone, const RukeshomajiFrame *frame, const uint64_t *weights, uint64_t weight_count,
                               const uint64_t *heights, uint64_t height_count, uint64_t *forces, uint64_t force_cells, uint64_t *shears,
                               uint64_t shear_cells, uint64_t *overturnings, uint64_t overturning_cells, RukeshomajiFigures *figures);

/* The five figures of a job in the Taipei Basin, without its storeys: those of rukeshomaji_basin_job.
 *
 * Given      zone, frame, weights, heights    as for rukeshomaji_basin_job
 * Returned   0, or the refusal
 * Refused    1 to 4, 18, 8 to 12, with 2 for lists of unequal length alone
 * Written    figures: all fields
 * Reference  document 000, 2.1 after (4) for the period, (6) to (8), (10), (11), (15) to (20), Table 4
 * Moves      as for rukeshomaji_figures, with the same zone
 */
uint64_t rukeshomaji_basin_figures(uint64_t zone, const RukeshomajiFrame *frame, const uint64_t *weights, uint64_t weight_count,
                                   const uint64_t *heights, uint64_t height_count, RukeshomajiFigures *figures);

/* The shear call, since 2.2.0: the five figures of a building by its total weight and its top height, without levels, on a site outside the
 * Taipei Basin. With the site, the frame, the sum of the weights and the last height of an accepted job they are those of rukeshomaji_job.
 * With levels at hand rukeshomaji_figures judges them too.
 *
 * Given      site, frame     see above
 *            weight          total weight, kN: 1 to 1,000,000
 *            height          top height, dm: 1 to 2,000, that of the highest level above the base
 * Returned   0, or the refusal
 * Refused    3 and 4 at place 0, then 5 to 12
 * Written    figures: all fields
 * Reference  document 000 (1), (4) to (9), (12) to (14), (16) to (20). By its 3.4 V_D scales a dynamic analysis; docs/manual/shear_and_storeys.md
 * Towers     if n calls, and the call with the sum of their weights, have the same site and frame and get the same t, then their vd add up to
 *            the vd of that call, or to at most (n - 1) N more; docs/manual/towers.md
 * Moves      of two calls with the same site that get the same t: if the second has the same r, no smaller i and weight and no larger alpha_y,
 *            none of its v, vm, star and vd is lower; if it has the same i, alpha_y and weight and a larger r, none of its v, vm and vd is higher,
 *            and its star is not lower: star can rise; docs/manual/moves.md
 */
uint64_t rukeshomaji_shear_call(const RukeshomajiSite *site, const RukeshomajiFrame *frame, uint64_t weight, uint64_t height,
                                RukeshomajiFigures *figures);

/* The shear call in the Taipei Basin, since 2.2.0: rukeshomaji_shear_call with a zone in place of the site.
 *
 * Given      zone            micro-zone of the Basin: 1 to 4
 *            frame           see above
 *            weight, height  as for rukeshomaji_shear_call
 * Returned   0, or the refusal
 * Refused    3 and 4 at place 0, then 18, 8 to 12
 * Written    figures: all fields
 * Reference  document 000, 2.1 after (4) for the period, (6) to (8), (10), (11), (15) to (20), Table 4
 * Towers     as for rukeshomaji_shear_call, with the same zone
 * Moves      as for rukeshomaji_shear_call, with the same zone
 */
uint64_t rukeshomaji_basin_shear_call(uint64_t zone, const RukeshomajiFrame *frame, uint64_t weight, uint64_t height,
                                      RukeshomajiFigures *figures);

/* The distribution, since 2.2.0: a base shear that is handed in, over the storeys. With V_D, T, weights and heights of an accepted job it
 * writes what rukeshomaji_job writes to the buffers.
 *
 * Given      base_shear      what is shared among the levels, N: 1 to 1,200,000,000
 *            period          period, which decides the roof force, ms: 0 to 9,999
 *            weights, heights, forces, shears, overturnings    as for rukeshomaji_job
 * Returned   0, or the refusal
 * Refused    1 to 4 as for rukeshomaji_job, then 19, 20
 * Written    place: of the refusal; 0 on success. On success the first cells of the buffers, as for rukeshomaji_job: the forces add up to
 *            base_shear. Each shear is at least its exact figure from base_shear, and less than 2 N above it
 * Reference  document 000 (21) with base_shear for V_D and period for T, (23) without its factor. F_t of (21) is 0 for a period up to 700 ms
 *            and at most base_shear/4, rounded up
 */
uint64_t rukeshomaji_distribution(uint64_t base_shear, uint64_t period, const uint64_t *weights, uint64_t weight_count,
                                  const uint64_t *heights, uint64_t height_count, uint64_t *forces, uint64_t force_cells, uint64_t *shears,
                                  uint64_t shear_cells, uint64_t *overturnings, uint64_t overturning_cells, uint64_t *place);

/* The district, since 2.5.0: many jobs over one store of levels, a row for each and a report of all. A row has what rukeshomaji_figures, or in the
 * Basin rukeshomaji_basin_figures, returns and writes for that job on the levels of its stretch. No job changes the row of another.
 *
 * Given      jobs            see above: at most 256
 *            weights         of the levels of the store, kN
 *            heights         of the levels of the store, dm; as many. Only stretches are judged, each by itself, as the levels of rukeshomaji_job;
 *                            stretches may overlap or be the same, and levels of no stretch are not looked at
 *            rows            buffer of at least as many rows as there are jobs
 * Returned   0, or the refusal of the whole call; a refused row does not change it
 * Refused    22, at no place, as none is written. Of a row 21, then on a site 1, 3 to 12, in the Basin 1, 3, 4, 18, 8 to 12; 3 and 4 at their level
 *            of the stretch
 * Written    report: all fields, 0 where there is no job or the call is refused. On success the first rows, one per job, in their order: number
 *            and place, then the figures, 0 where the row is refused. Other rows hold what they held
 * Report     accepted and refused add up to the jobs. by_v, by_vm and by_star add up to accepted, and so do the cells: vd over W is at most 1,125
 *            thousandths, which is in the last cell
 * Reference  as for rukeshomaji_figures and rukeshomaji_basin_figures; docs/manual/district.md
 */
uint64_t rukeshomaji_district(const RukeshomajiDistrictJob *jobs, uint64_t job_count, const uint64_t *weights, uint64_t weight_count,
                              const uint64_t *heights, uint64_t height_count, RukeshomajiRow *rows, uint64_t row_count,
                              RukeshomajiReport *report);

/* The drift call, since 2.6.0: whether the drift angle of each storey is within a limit. The angle is the difference between the displacements
 * of the two ends of the storey over its own height; the base has height 0 and displacement 0. The verdict is yes exactly if the size of the
 * angle is at most the limit; in these units, if the size of the difference is at most the limit times the height. Nothing is rounded.
 *
 * Given      heights         of the levels above the base, lowest first, dm: 1 to 2,000, each above the one below, for each of 1 to 50 levels
 *            displacements   of the levels against the base, lowest first, 0.01 mm, each with its sign: at most 1,000,000 in size; as many. Every
 *                            int64_t is taken, and one out of range is refused, INT64_MIN too
 *            limit           of the angle, ten-thousandths: 1 to 10,000. The limit of document 000, 0.005, is 50
 *            verdicts        buffer of at least as many cells
 * Returned   0, or the refusal
 * Refused    1 for the heights, 2 for lists of unequal length or a buffer shorter than them, 4 at its level, 23 at its level, 24
 * Written    place: of the refusal; 0 on success. On success the first cells of verdicts, one per storey, lowest first: 1 yes, 0 no. Other
 *            cells hold what they held
 * Moves      if each displacement is given with the opposite sign, the answer is the same, and so is a refusal; a larger limit never turns a 1 into
 *            a 0
 * Reference  document 000, 2.5.4. The base shear of its (24), under which the displacements are to be found, is not worked out; docs/manual/drift.md
 */
uint64_t rukeshomaji_drift(const uint64_t *heights, uint64_t height_count, const int64_t *displacements, uint64_t displacement_count,
                           uint64_t limit, uint64_t *verdicts, uint64_t verdict_cells, uint64_t *place);

/* The torsion call, since 2.6.0: the amplification factor A_x of a floor, (largest / (1.2 * average)) squared, in thousandths, rounded up, and at
 * most 3,000. It is not below the smaller of the exact A_x and 3.0, and less than one thousandth above it. It is not raised to 1.0: equal
 * displacements get 695.
 *
 * Given      largest         displacement of the floor, without a sign, 0.01 mm: at most 1,000,000
 *            average         displacement of its extreme points, without a sign, 0.01 mm: at most 1,000,000; above 0, and not above the largest
 * Returned   0, or the refusal
 * Refused    23, 25, both at place 0
 * Written    reply: all fields
 * Reference  document 000 (22); docs/manual/drift.md
 */
uint64_t rukeshomaji_torsion(uint64_t largest, uint64_t average, RukeshomajiTorsion *reply);

/* The accidental moments, since 2.6.0: the force of each level times 5 % of the plan dimension, each way. The force is the one that
 * rukeshomaji_distribution writes for the same base shear, period, weights and heights.
 *
 * Given      base_shear, period, weights, heights    as for rukeshomaji_distribution
 *            dimension       of the building in plan, at a right angle to the forces, dm: 1 to 5,000
 *            positive, negative    buffers of at least as many cells as there are levels
 * Returned   0, or the refusal
 * Refused    1 to 4 as for rukeshomaji_job, with 2 also for either buffer, then 19, 20, 26
 * Written    place: of the refusal; 0 on success. On success the first cells of both buffers, one per level, lowest first, 0.01 N*dm: in positive
 *            the force in N times 5 times the dimension in dm, unrounded; in negative the same with the opposite sign. Other cells hold what they
 *            held
 * Reference  document 000, 2.5.2; its forces as for rukeshomaji_distribution. The moments are not multiplied by A_x; docs/manual/drift.md
 */
uint64_t rukeshomaji_accidental_moments(uint64_t base_shear, uint64_t period, const uint64_t *weights, uint64_t weight_count,
                                        const uint64_t *heights, uint64_t height_count, uint64_t dimension, int64_t *positive,
                                        uint64_t positive_cells, int64_t *negative, uint64_t negative_cells, uint64_t *place);

/* The site class of a soil log: the layers of the upper 30 m.
 *
 * Given      thicknesses     of the layers, cm: above 0, together 3,000; 1 to 40 layers
 *            kinds           1 measured, 2 cohesive, 3 cohesionless, 4 soft clay (N below 2, which is not checked); as many
 *            values          measured: velocity, dm/s: 500 to 30,000; cohesive: N: 2 to 25; cohesionless: N: 1 to 50;
 *                            soft clay: q, 0.01 kgf/cm2: 1 to 400; as many. A library before 2.4.0 refuses soft clay with 15
 * Returned   0, or the refusal
 * Refused    2, 13 to 15
 * Written    reply: all fields
 * Reference  document 000 (2), (3.a), (3.b), Table 3
 */
uint64_t rukeshomaji_site_class(const uint64_t *thicknesses, uint64_t thickness_count, const uint64_t *kinds, uint64_t kind_count,
                                const uint64_t *values, uint64_t value_count, RukeshomajiClass *reply);

/* What the program `shear` prints for a sheet: the listing of its job, or the one line of its refusal.
 *
 * Given      sheet           bytes: at most 4,096
 * Returned   0, or the refusal
 * Refused    17, 16, 1, 3 to 12 with a line `site`; 17, 16, 1, 3, 4, 18, 8 to 12 with a line `basin`
 * Written    listing: its first bytes, as many as reply's length says, with no NUL after them; the others hold what they held.
 *            reply: all fields. A refusal's line (`refused`, number, place) is a listing too, and has its length
 * Reference  docs/manual/sheet.md; else as for rukeshomaji_job and rukeshomaji_basin_job
 */
uint64_t rukeshomaji_sheet(const char *sheet, uint64_t byte_count, char listing[RUKESHOMAJI_LONGEST_LISTING], RukeshomajiListing *reply);

/* RUKESHOMAJI_VERSION, RUKESHOMAJI_EDITION and RUKESHOMAJI_SOURCE of the library that is linked. */
uint64_t rukeshomaji_version(void);
uint64_t rukeshomaji_edition(void);
uint64_t rukeshomaji_source(void);

#ifdef __cplusplus
}
#endif

#endif
