/*
 * stack TABLE TRACE K SLOTS
 *
 * Measures the stack that zb_slots, zb_table_check and zb_trace_check use for these files, for x86-64, on a painted stack (c/paint.h). Prints
 * the three depths in bytes, return addresses included.
 */
#define _XOPEN_SOURCE 700
#include "../c/zbrojomir.h"

/* The crate slots_run. */
uint64_t zb_slots(const uint8_t *table, size_t length, uint8_t k, uint64_t slots, uint8_t *entry, size_t entry_length);

#define LONGEST 16777216

static uint8_t table[LONGEST], trace[LONGEST], entry[10], k;
static size_t table_length, trace_length;
static uint64_t slots;
static enum { SLOTS, TABLE_CHECK, TRACE_CHECK } asked;

static inline __attribute__((always_inline)) uint64_t ask(void) {
    switch (asked) {
    case SLOTS:
        return zb_slots(table, table_length, k, slots, entry, sizeof entry) != slots;
    case TABLE_CHECK:
        return zb_table_check(table, table_length);
    default:
        return zb_trace_check(table, table_length, trace, trace_length);
    }
}

#include "../c/paint.h"

static size_t read_file(const char *name, uint8_t *bytes) {
    FILE *file = fopen(name, "rb");
    size_t length;

    if (file == NULL) {
        fail("a file cannot be opened", 0);
    }
    length = fread(bytes, 1, LONGEST, file);
    fclose(file);
    return length;
}

int main(int words, char **word) {
    size_t depths[3];

    if (words != 5) {
        fail("usage: stack TABLE TRACE K SLOTS", 0);
    }
    table_length = read_file(word[1], table);
    trace_length = read_file(word[2], trace);
    k = (uint8_t)atoi(word[3]);
    slots = strtoull(word[4], NULL, 10);
    for (asked = SLOTS; asked <= TRACE_CHECK; asked++) {
        depths[asked] = depth(0);
    }
    printf("%lu %lu %lu\n", (unsigned long)depths[SLOTS], (unsigned long)depths[TABLE_CHECK], (unsigned long)depths[TRACE_CHECK]);
    return 0;
}
