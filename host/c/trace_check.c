/*
 * trace_check TABLE TRACE
 *
 * Checks a trace against its job table. TABLE and TRACE are files, where '-' is standard input for one of them. It prints a line
 *     FILE: NUMBER meaning
 * with the number that 01, the maker's paper, gives to the bytes of the two. FILE is the one that the number is about: TABLE with 10 to 22,
 * else TRACE. Exit status: 0 if the trace passes, 1 if it or the table is refused, 2 if a file cannot be read or the line not be written.
 */
#include "bytes.h"
#include "meaning.h"
#include "zbrojomir.h"

#include <errno.h>
#include <stdio.h>
#include <string.h>

enum status { PASSED = 0, REFUSED = 1, TROUBLE = 2 };

static enum status trouble(const char *name, const char *otherwise) {
    fprintf(stderr, "trace_check: %s: %s\n", name, errno != 0 ? strerror(errno) : otherwise);
    return TROUBLE;
}

static enum status unread(const char *name) {
    return trouble(strcmp(name, "-") == 0 ? "standard input" : name, "it cannot be read");
}

/* The whole of a file. */
static int read_file(const char *name, struct bytes *bytes) {
    int standard = strcmp(name, "-") == 0, done;
    FILE *file;

    errno = 0;
    file = standard ? stdin : fopen(name, "rb");
    if (file == NULL) {
        unread(name);
        return 0;
    }
    done = read_rest(file, bytes);
    if (!done) {
        unread(name);
    }
    if (!standard) {
        fclose(file);
    }
    return done;
}

static enum status check(const char *table_name, const char *trace_name) {
    struct bytes table = {NULL, 0}, trace = {NULL, 0};
    enum status status = TROUBLE;

    if (read_file(table_name, &table) && read_file(trace_name, &trace)) {
        uint8_t number = zb_trace_check(table.start, table.length, trace.start, trace.length);
        int of_table = number >= ZB_TABLE_CUT && number <= ZB_TABLE_OVERFULL;
        printf("%s: %u %s\n", of_table ? table_name : trace_name, (unsigned)number, meaning(number));
        status = number == ZB_DONE ? PASSED : REFUSED;
    }
    free(table.start);
    free(trace.start);
    return status;
}

int main(int count, char **words) {
    enum status status;

    if (count != 3 || (strcmp(words[1], "-") == 0 && strcmp(words[2], "-") == 0)) {
        fprintf(stderr, "usage: trace_check TABLE TRACE   ('-' is standard input, for one of them)\n");
        return TROUBLE;
    }
    status = check(words[1], words[2]);
    errno = 0;
    if (fflush(stdout) != 0 || ferror(stdout)) {
        return trouble("standard output", "it cannot be written");
    }
    return status;
}
