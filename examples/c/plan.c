/* Plans a table from standard input, prints the plan, and checks it: a small program over include/zhiblator.h.
 *
 *   tools/build
 *   cc -Iinclude examples/c/plan.c target/staticlib/libpanel.a -o target/plan
 *   target/plan < tables/e.table
 */
#include <stdio.h>

#include "zhiblator.h"

static const char *const words[] = {
    "",     "SHORT",    "KIND", "RANGE", "MANY", "TWICE", "AFTER",  "NONE",  "STRANGER", "KEPT",
    "LEFT", "LATE",     "PHASE", "NUMBER", "CLOCK", "WHO", "VALUE", "EARLY", "ROOM",
};

/* The number and the word; refusals 1 to 6 have a place. */
static int refused(uint64_t number, uint64_t place)
{
    printf("refused %d", (int)number);
    if (number <= ZB_AFTER)
        printf(" at %d", (int)place);
    printf(", %s\n", words[number]);
    return 1;
}

int main(void)
{
    uint8_t table[512], area[ZB_LONGEST_PLAN];
    size_t n = fread(table, 1, sizeof table, stdin);

    struct zb_least least = zb_least_deadline(table, n);
    if (least.number != 0)
        return refused(least.number, least.place);
    printf("least deadline %d\n", (int)least.deadline);

    struct zb_planned plan = zb_plan_free(table, n, area, sizeof area);
    if (plan.number != 0)
        return refused(plan.number, plan.place);
    for (size_t i = 0; i + 1 < plan.length; i += 2)
        printf("%s %d\n", area[i] == 0x21 ? "away" : "here", area[i + 1]);
    printf("busy %d last %d\n", (int)plan.busy, (int)plan.last);

    /* The plan might as well have come from anybody's program. */
    struct zb_checked check = zb_check_plan(table, n, area, plan.length);
    if (check.number != 0)
        return refused(check.number, check.place);
    printf("passes the check: last %d busy %d\n", (int)check.last, (int)check.busy);

    /* The same plan with its last step gone: a job of the table is left. */
    if (plan.length > 2) {
        area[plan.length - 3] = 0x2F;
        check = zb_check_plan(table, n, area, plan.length - 2);
        return check.number == ZB_LEFT ? 0 : 1;
    }
    return 0;
}
