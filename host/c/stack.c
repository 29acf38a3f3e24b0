/*
 * stack
 *
 * Measures the stack that zb_table_check and zb_trace_check use, for x86-64, on a painted stack (paint.h).
 *
 * Prints a line and exits with 0, or with 1 if a function uses more stack than the header says, or none, or if an answer is wrong.
 */
#define _XOPEN_SOURCE 700
#include "zbrojomir.h"

#define SLOTS 8
#define TRACE_LENGTH (4 + SLOTS * 10)
#define LAST_RECORD (TRACE_LENGTH - 10)

static uint8_t table[ZB_TABLE_LONGEST + 1], trace[TRACE_LENGTH + 1];

/* A call: of zb_table_check, or of zb_trace_check if `with_trace`; and the number that 01 gives to these bytes. */
struct asked {
    int with_trace;
    size_t table_length, trace_length;
    uint8_t number;
};

/* The call that is measured. */
static struct asked lent;

static inline __attribute__((always_inline)) uint64_t ask(void) {
    return lent.with_trace ? zb_trace_check(table, lent.table_length, trace, lent.trace_length) : zb_table_check(table, lent.table_length);
}

#include "paint.h"

static size_t depth_of(struct asked asked) {
    lent = asked;
    return depth(asked.number);
}

/* A full box: 8 cores, and 32 rows of 1/4, plain and early release in turn. */
static void fill_table(void) {
    static const uint8_t head[] = {1, 4, 0, 0, 0, 8, 0, 1, 2, 3, 4, 5, 6, 7, 32};
    uint8_t *next = table + sizeof head, tank;

    memcpy(table, head, sizeof head);
    for (tank = 0; tank < 32; tank++) {
        uint8_t row[9] = {0, 0, 1, 0, 4, 0, 0, 0, 0};
        row[0] = tank;
        row[8] = tank % 2;
        memcpy(next, row, sizeof row);
        next += sizeof row;
    }
}

/* A trace of the full box that passes: two cycles, in each slot the next eight rows. */
static void fill_trace(void) {
    uint8_t *next = trace + 4, slot, place;

    memset(trace, 0, sizeof trace);
    trace[0] = SLOTS;
    for (slot = 0; slot < SLOTS; slot++) {
        *next++ = 8;
        *next++ = 8;
        for (place = 0; place < 8; place++) {
            *next++ = (uint8_t)(slot % 4 * 8 + place);
        }
    }
}

/* A table or a trace with one byte changed, the rest of it cut or one byte added. */
struct refusal {
    size_t place;
    uint8_t byte;
    size_t length;
    uint8_t number;
};

static const struct refusal refusals[] = {
    {0, 1, 0, 10},
    {0, 3, ZB_TABLE_LONGEST, 11},
    {1, 0, ZB_TABLE_LONGEST, 12},
    {5, 9, ZB_TABLE_LONGEST, 13},
    {13, 6, ZB_TABLE_LONGEST, 14},
    {14, 33, ZB_TABLE_LONGEST, 15},
    {ZB_TABLE_LONGEST - 9, 30, ZB_TABLE_LONGEST, 16},
    {ZB_TABLE_LONGEST - 7, 0, ZB_TABLE_LONGEST, 17},
    {ZB_TABLE_LONGEST - 7, 5, ZB_TABLE_LONGEST, 18},
    {ZB_TABLE_LONGEST - 5, 3, ZB_TABLE_LONGEST, 19},
    {ZB_TABLE_LONGEST - 1, 2, ZB_TABLE_LONGEST, 20},
    {ZB_TABLE_LONGEST - 1, 0, ZB_TABLE_LONGEST - 1, 10},
    {ZB_TABLE_LONGEST, 0, ZB_TABLE_LONGEST + 1, 21},
    {ZB_TABLE_LONGEST - 7, 2, ZB_TABLE_LONGEST, 22},
    /* of a trace, as their numbers say */
    {0, SLOTS, 0, 40},
    {0, SLOTS, 3, 40},
    {0, SLOTS, LAST_RECORD + 1, 40},
    {0, SLOTS, TRACE_LENGTH - 1, 40},
    {0, SLOTS + 1, TRACE_LENGTH, 40},
    {LAST_RECORD, 9, TRACE_LENGTH, 41},
    {LAST_RECORD + 1, 9, TRACE_LENGTH, 42},
    {TRACE_LENGTH - 1, 32, TRACE_LENGTH, 43},
    {TRACE_LENGTH - 1, 29, TRACE_LENGTH, 43},
    {LAST_RECORD + 2, 22, TRACE_LENGTH, 44}, /* early release */
    {LAST_RECORD + 2, 23, TRACE_LENGTH, 44}, /* plain */
    {LAST_RECORD + 1, 7, TRACE_LENGTH - 1, 45},
    {TRACE_LENGTH, 0, TRACE_LENGTH + 1, 46},
    {3, 0x40, TRACE_LENGTH, 47},
};

#define FIRST_OF_TRACE 40

/* The call for the full box, which passes. */
static struct asked full(int with_trace) {
    struct asked asked = {0, ZB_TABLE_LONGEST, TRACE_LENGTH, ZB_DONE};

    fill_table();
    fill_trace();
    asked.with_trace = with_trace;
    return asked;
}

static struct asked refused(int with_trace, const struct refusal *refusal) {
    struct asked asked = full(with_trace);
    int of_trace = refusal->number >= FIRST_OF_TRACE;

    (of_trace ? trace : table)[refusal->place] = refusal->byte;
    *(of_trace ? &asked.trace_length : &asked.table_length) = refusal->length;
    asked.number = refusal->number;
    return asked;
}

/* The depths of a function: for the full box, and the most for what is refused. */
struct depths {
    size_t full, refused;
};

static struct depths depths_of(int with_trace) {
    struct depths depths = {depth_of(full(with_trace)), 0};
    size_t i;

    for (i = 0; i < sizeof refusals / sizeof *refusals; i++) {
        if (with_trace || refusals[i].number < FIRST_OF_TRACE) {
            size_t here = depth_of(refused(with_trace, &refusals[i]));
            depths.refused = here > depths.refused ? here : depths.refused;
        }
    }
    return depths;
}

/* Says how deep a function goes; 0 if that is more than the header says. */
static int within(const char *function, const char *limit, size_t said, struct depths depths, const char *end) {
    size_t most = depths.full > depths.refused ? depths.full : depths.refused, rounded = (most + 255) / 256 * 256;

    if (most > said) {
        printf("stack: %s uses %lu bytes; %s says %lu and has to be %lu\n", function, (unsigned long)most, limit, (unsigned long)said,
               (unsigned long)rounded);
        return 0;
    }
    printf("the stack of %s: %lu bytes for a full table, up to %lu for what is refused, rounded up %lu; the header says %lu%s", function,
           (unsigned long)depths.full, (unsigned long)depths.refused, (unsigned long)rounded, (unsigned long)said, end);
    return 1;
}

int main(void) {
    struct depths of_table = depths_of(0), of_trace = depths_of(1);

    return within("zb_table_check", "ZB_TABLE_CHECK_STACK", ZB_TABLE_CHECK_STACK, of_table, "; ") &&
                   within("zb_trace_check", "ZB_TRACE_CHECK_STACK", ZB_TRACE_CHECK_STACK, of_trace, "\n")
               ? 0
               : 1;
}
