/*
 * run WORD LENGTH
 *
 * What the crate desk_run answers, for a program that asks: WORD is `run` or `judge`. Standard input has a table, of LENGTH bytes, and behind it
 * - for `run` the number of free cores of each slot, a byte each: the answer is 20 bytes for each slot, as crates/desk_run/specs/Run.antt has them,
 *   up to the first slot that is not answered with 0;
 * - for `judge` a trace: the answer is the number (1), the row (1) and the time (8) of its check.
 * Exit status: 0 if all was read and written, else 2.
 */
#include "../c/bytes.h"

#include <errno.h>
#include <string.h>

/* The crate desk_run. */
uint64_t zb_run(const uint8_t *table, size_t table_length, const uint8_t *list, size_t list_length, uint8_t *entries, size_t entries_length);
uint8_t zb_judge(const uint8_t *table, size_t table_length, const uint8_t *trace, size_t trace_length, uint8_t *place, size_t place_length);

enum { ENTRY = 20, NUMBER_AT = 18, DONE = 0, TROUBLE = 2 };

static int trouble(const char *what) {
    fprintf(stderr, "run: %s: %s\n", what, errno != 0 ? strerror(errno) : "no room");
    return TROUBLE;
}

static int put(const uint8_t *bytes, size_t length) {
    errno = 0;
    return fwrite(bytes, 1, length, stdout) == length && fflush(stdout) == 0;
}

/* Of the entries those up to the first slot that is not done. */
static int run(const uint8_t *table, size_t table_length, const uint8_t *list, size_t slots) {
    uint8_t *entries = calloc(slots == 0 ? 1 : slots, ENTRY);
    size_t shown = 0;
    int done;

    if (entries == NULL) {
        return trouble("the slots");
    }
    zb_run(table, table_length, list, slots, entries, slots * ENTRY);
    while (shown < slots && entries[shown * ENTRY + NUMBER_AT] == DONE) {
        shown++;
    }
    if (shown < slots) {
        shown++;
    }
    done = put(entries, shown * ENTRY);
    free(entries);
    return done ? 0 : trouble("standard output");
}

static int judge(const uint8_t *table, size_t table_length, const uint8_t *trace, size_t trace_length) {
    uint8_t answer[1 + 1 + 8] = {0};

    answer[0] = zb_judge(table, table_length, trace, trace_length, answer + 1, sizeof answer - 1);
    return put(answer, sizeof answer) ? 0 : trouble("standard output");
}

int main(int count, char **words) {
    struct bytes input = {NULL, 0};
    unsigned long long length = count == 3 ? strtoull(words[2], NULL, 10) : 0;
    int status = TROUBLE;

    errno = 0;
    if (count != 3 || (strcmp(words[1], "run") != 0 && strcmp(words[1], "judge") != 0)) {
        fprintf(stderr, "usage: run run|judge LENGTH\n");
    } else if (!read_rest(stdin, &input)) {
        trouble("standard input");
    } else if (length > input.length) {
        fprintf(stderr, "run: the table is not wholly there\n");
    } else if (strcmp(words[1], "run") == 0) {
        status = run(input.start, (size_t)length, input.start + length, input.length - (size_t)length);
    } else {
        status = judge(input.start, (size_t)length, input.start + length, input.length - (size_t)length);
    }
    free(input.start);
    return status;
}
