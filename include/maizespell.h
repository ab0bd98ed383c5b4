/* Maizespell, a detailed router over priced metal layers. For C99 and C++17, on x86-64 Linux.
 *
 * There are four calls: sizing says what slices a job needs, routing makes its plan, replay reads a plan
 * again, and report replays a plan and adds what it is made of to the wire report of many plans. Each may be
 * called with any bytes and slices of any length: it returns a result or a numbered refusal.
 *
 * Slices are lent as a pointer and a length.
 * - The length counts numbers of the pointer's type, and so many must be there. No call touches what lies
 *   outside its slices, or writes through a pointer to const.
 * - A slice of length 0 may have any pointer, null included: nothing is read or written through it.
 * - The pointer is aligned as its type asks: map to 2 bytes, work and report to 8.
 * - The slices of a call do not overlap, and nobody else writes them, or reads those that the call may write,
 *   before it returns.
 * - The caller owns them. No pointer is kept after a call returns, nothing is allocated, and there is no
 *   state from call to call: calls may run at once in several threads, with map, work, report and routing's
 *   plan of their own.
 *
 * A call takes its working memory from the caller's stack: see the constants below. */
#ifndef MAIZESPELL_H
#define MAIZESPELL_H

#include <stddef.h>
#include <stdint.h>

/* The version, which the package and the tool have from here. */
#define MAIZESPELL_VERSION_MAJOR 0
#define MAIZESPELL_VERSION_MINOR 6
#define MAIZESPELL_VERSION_PATCH 0
#define MAIZESPELL_VERSION "0.6.0"

#ifdef __cplusplus
extern "C" {
#endif

/* The numbers of refusals. The first broken rule in reading order is returned, with its place: 12 to 14 give
 * the need, 19 a layer, all others a bit position, counted from the most significant bit of the first byte,
 * 15 to 18 in the plan. 7 is retired: no call returns it. */
enum maizespell_refusal {
    MAIZESPELL_NOT_REFUSED = 0,
    MAIZESPELL_JOB_TOO_LONG = 1,                 /* job over 262,144 bytes; place 0 */
    MAIZESPELL_GROUP_NOT_WHOLE = 2,              /* first bit of the group */
    MAIZESPELL_EDITION_NOT_1 = 3,                /* place 0 */
    MAIZESPELL_TOO_MANY_VERTICES = 4,            /* vertices over 16,384; place 8 */
    MAIZESPELL_LAYER_LINE_RULE_BROKEN = 5,       /* the field */
    MAIZESPELL_OBSTACLE_OUTSIDE = 6,             /* any of it outside; the obstacle */
    MAIZESPELL_PIN_OUTSIDE_OR_ON_OBSTACLE = 8,   /* the pin */
    MAIZESPELL_PIN_ON_EARLIER_PIN = 9,           /* same vertex as an earlier pin; the pin */
    MAIZESPELL_BOX_CROSSED_OR_OUTSIDE = 10,      /* low above high, or outside; the box */
    MAIZESPELL_TAIL_BIT_SET_OR_MORE_BYTES = 11,  /* the bit after the last field */
    MAIZESPELL_MAP_SHORT = 12,                   /* the map numbers needed */
    MAIZESPELL_WORK_SHORT = 13,                  /* the work numbers needed */
    MAIZESPELL_PLAN_SHORT = 14,                  /* routing: the plan bytes needed */
    MAIZESPELL_PLAN_NOT_WHOLE_OR_TAIL_WRONG = 15, /* flag, start with count, move or cost not whole: its first bit;
                                                     tail wrong: the bit after the last record */
    MAIZESPELL_START_NOT_ON_TREE = 16,           /* the start */
    MAIZESPELL_MOVE_NOT_LEGAL = 17,              /* or it enters an unjoined pin early, or is the last and enters none:
                                                    the move; no move: the count */
    MAIZESPELL_COST_DIFFERS = 18,                /* the cost */
    MAIZESPELL_REPORT_SHORT_OR_OVER = 19         /* report, the plan accepted: fewer than 48 numbers: 8;
                                                    a count would pass 2^64 - 1: the lowest such layer */
};

/* What the map holds for a vertex; 1 to 255 are metal of that net alone. Vertices go by layer, row and
 * column. */
enum maizespell_map {
    MAIZESPELL_MAP_BARE = 0,
    MAIZESPELL_MAP_SEVERAL_NETS = 256,
    MAIZESPELL_MAP_OBSTACLE = 257
};

/* What the wire report counts of a plan. Number MAIZESPELL_REPORT_KINDS x layer + kind of the report counts a
 * kind at a layer. */
enum maizespell_report_kind {
    MAIZESPELL_REPORT_STEPS = 0,         /* wire steps, at their layer */
    MAIZESPELL_REPORT_VIAS = 1,          /* vias to the layer above, passed either way: at the lower layer */
    MAIZESPELL_REPORT_ADDED = 2,         /* added steps, at the layer of the segment that they lengthen */
    MAIZESPELL_REPORT_PENALISED = 3,     /* penalised segments, at their layer */
    MAIZESPELL_REPORT_GUIDE_ENTRIES = 4, /* vertices outside the guide and not taken, at the layer entered */
    MAIZESPELL_REPORT_SHORT_ENTRIES = 5, /* vertices that were taken, at the layer entered */
    MAIZESPELL_REPORT_KINDS = 6,
    MAIZESPELL_REPORT_LAYERS = 8,        /* for every job; also the place of 19 where the report is short */
    MAIZESPELL_REPORT_NEED = 48          /* numbers of a report: layers x kinds */
};

/* The stack that a call needs, in bytes. */
enum maizespell_stack {
    MAIZESPELL_SIZING_STACK = 18 * 1024,
    MAIZESPELL_REPLAY_STACK = 53 * 1024,
    MAIZESPELL_REPORT_STACK = 53 * 1024,
    MAIZESPELL_ROUTING_STACK = 74 * 1024
};

/* What sizing answers. Where the job is good, refusal and place are 0. Where it is refused, refusal is 1 to
 * 11 and vertices and work are 0. */
struct maizespell_sizing_result {
    uint64_t refusal;
    uint64_t place;
    uint64_t vertices; /* layers x rows x columns: the map's need */
    uint64_t work;     /* vertices x 4 x (largest M + 1): the work slice's need */
};

/* Reads a job's bytes. */
struct maizespell_sizing_result maizespell_sizing(const uint8_t *job, size_t job_len);

/* What routing answers. Where the plan fits, refusal and place are 0. On a refusal, 1 to 14, every number but
 * it and its place is 0. */
struct maizespell_routing_result {
    uint64_t refusal;
    uint64_t place;
    uint64_t bytes;     /* the plan's bytes, at the front of the plan slice */
    uint64_t cost;
    uint64_t added;     /* added steps: M - n for each extension */
    uint64_t penalties; /* penalised segments */
    uint64_t joined;    /* nets fully joined */
};

/* Routes a job. The needs of map and work are those that sizing gives. How many bytes the plan needs is known
 * only after routing. With joins the number of all pins less that of nets, and work as sizing answers, it has
 * at most (joins x (work + 78) + 7) / 8 bytes, most often far fewer. Lend a guess first, such as
 * 5 x job_len + vertices, which is enough for most jobs, and where it is refused by 14, call again with the
 * place's number of bytes.
 *
 * After success the needed part of the map holds the codes above, and the needed part of work is zero. After
 * 14 the needed parts of map and work and the whole plan slice are zero. After 1 to 13 every slice is as
 * found. What lies past the needs of map and work, and after success past the plan's bytes, is as found. */
struct maizespell_routing_result maizespell_routing(const uint8_t *job, size_t job_len, uint16_t *map, size_t map_len,
                                                    uint64_t *work, size_t work_len, uint8_t *plan, size_t plan_len);

/* What replay and report answer. Where the plan is accepted, refusal and place are 0. On a refusal, 1 to 13,
 * 15 to 18, and for report 19, every number but it and its place is 0. */
struct maizespell_replay_result {
    uint64_t refusal;
    uint64_t place;
    uint64_t cost;
    uint64_t added;
    uint64_t penalties;
    uint64_t joined;
};

/* Reads a plan against a job: the map and the totals of its records, if each is legal and rightly priced. It
 * does not ask whether they are cheapest. The needs are those that sizing gives. After success map and work
 * are as after routing; after 15 to 18 their needed parts are zero; after 1 to 13 both are as found, and so
 * is always what lies past their needs. */
struct maizespell_replay_result maizespell_replay(const uint8_t *job, size_t job_len, const uint8_t *plan,
                                                  size_t plan_len, uint16_t *map, size_t map_len, uint64_t *work,
                                                  size_t work_len);

/* Replays a plan and adds its counts to the report. It answers and leaves what replay does, but for 19 and
 * for the report. The report is added to and not begun: lend zeros for the first plan, and after many it has
 * the sum over those that were accepted. A plan's counts times its job's prices make exactly its cost: by
 * kind wire price, via price, wire price, area penalty, guide penalty and short penalty. An entry counts also
 * where its penalty is 0, and in one kind at most: a taken vertex outside the guide pays the short penalty
 * alone. The start of a join is no entry.
 *
 * A plan that replay accepts is refused by 19 where the report is short, or else where a count would pass
 * 2^64 - 1. Then every number but refusal and place is 0, map and work are as after success, and nothing was
 * added. After every refusal the report is as found, and so is always what lies past its need. */
struct maizespell_replay_result maizespell_report(const uint8_t *job, size_t job_len, const uint8_t *plan,
                                                  size_t plan_len, uint16_t *map, size_t map_len, uint64_t *work,
                                                  size_t work_len, uint64_t *report, size_t report_len);

#ifdef __cplusplus
}
#endif

#endif
