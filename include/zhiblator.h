/* Zhiblator for C and C++: the proved planners and the plan check over plain bytes.
 *
 * Build the library with `tools/build` (target/staticlib/libpanel.a) and link it. Every table and every area
 * gets an answer: `number` is 0 for an accepted call, else the number of the refusal; `place` is the offset of the
 * refused record for 1 to 6 and 0 otherwise. With a refusal the other fields are 0 and the area is as it was. Times
 * are ticks of 1 ms.
 *
 * What the caller owes, and what no proof can see:
 *   - Each pointer is good for its length: `table_len` bytes can be read at `table`, `plan_len` at `plan`, and
 *     `area_len` bytes can be read and written at `area`. No pointer is NULL, also not with a length of 0: give the
 *     address of any object then.
 *   - The area shares no byte with the table. Table and plan of the check are only read, and may lie anywhere.
 *   - Until a call returns, nobody else writes to what it reads, or touches its area.
 * The functions keep nothing between calls, use no heap and make no system call, so several threads may call them at
 * once. Of C's library they use memcpy and memset.
 *
 * Platform: x86-64 Linux, the System V calling convention. The archive is position independent, so it can also go into
 * a shared object.
 *
 * Stack below the caller, measured on tables of 0 to 33 jobs and not proved: zb_plan_free 33,736 bytes,
 * zb_least_deadline 33,608 (the work rows of 4,001 entries lie there), zb_check_plan 2,392, zb_plan_given 2,040.
 */
#ifndef ZHIBLATOR_H
#define ZHIBLATOR_H

#include <stddef.h>
#include <stdint.h>

#ifdef __cplusplus
extern "C" {
#endif

#define ZB_VERSION "0.1.0"

/* The longest plan: areas must have room for it. */
#define ZB_LONGEST_PLAN 65

/* The refusals. Planners refuse with 1 to 7 and 18, the least deadline with 1 to 7, the check with 1 to 6 and 8 to 11;
 * 12 to 17 are the frame runner's, which is not callable from C yet. D is the table's deadline. */
enum zb_refusal {
    ZB_SHORT = 1, /* bytes end inside a record or before the end record */
    ZB_KIND,      /* kind unknown or not allowed at this place */
    ZB_RANGE,     /* a time above 4,000, or D = 0 */
    ZB_MANY,      /* a 33rd job */
    ZB_TWICE,     /* id used before in the same file */
    ZB_AFTER,     /* bytes after the end record */
    ZB_NONE,      /* no timetable meets the deadline */
    ZB_STRANGER,  /* plan names an id that the table lacks */
    ZB_KEPT,      /* plan sends a here-only job away */
    ZB_LEFT,      /* plan lacks a job of the table */
    ZB_LATE,      /* plan run at full entries misses D */
    ZB_PHASE,     /* call not allowed in this phase */
    ZB_NUMBER,    /* at begin: frame number not above the last one begun; at return: not the open frame's */
    ZB_CLOCK,     /* time below that of the last accepted event */
    ZB_WHO,       /* id not the one allowed */
    ZB_VALUE,     /* value not a number, or infinite */
    ZB_EARLY,     /* close before D */
    ZB_ROOM       /* output area shorter than 65 bytes */
};

/* `length` bytes of plan at the front of the area; `busy` is the sum of the plan's spans, `last` its latest finish. */
struct zb_planned {
    uint64_t number, place, length, busy, last;
};

struct zb_least {
    uint64_t number, place, deadline;
};

/* A plan that passes: the last finish and the busy total of its run at full entries. */
struct zb_checked {
    uint64_t number, place, last, busy;
};

/* The free-order plan: of all choices that meet the deadline, the one that keeps the panel busy for the least time.
 * ROOM is judged first, then the table, then NONE; a place is one in the table. */
struct zb_planned zb_plan_free(const uint8_t *table, size_t table_len, uint8_t *area, size_t area_len);

/* The given-order plan: the jobs in table order. It is refused in the same order. */
struct zb_planned zb_plan_given(const uint8_t *table, size_t table_len, uint8_t *area, size_t area_len);

/* The least deadline from 1 to 4,000 that some timetable meets; the table's own deadline is ignored. A place is one in
 * the table. */
struct zb_least zb_least_deadline(const uint8_t *table, size_t table_len);

/* The plan check: any plan, from anybody's program, against its table. The table's refusals come first, then the
 * plan's, then 8 to 11, which are about the plan. So a refusal of 1 to 6 and its place are about the table exactly when
 * zb_least_deadline(table, table_len) is refused with 1 to 6, with the same number and place; else about the plan. */
struct zb_checked zb_check_plan(const uint8_t *table, size_t table_len, const uint8_t *plan, size_t plan_len);

#ifdef __cplusplus
}
#endif

#endif
