/*
 * table_check FILE..
 *
 * Checks job tables. For each FILE, where '-' is standard input, it prints a line
 *     FILE: NUMBER meaning
 * with the number that 01, the maker's paper, gives to the bytes of the file. Exit status: 0 if every table is taken, 1 if some table
 * is refused, 2 if some file cannot be read or a line not be written.
 */
#include "meaning.h"
#include "zbrojomir.h"

#include <errno.h>
#include <stdio.h>
#include <string.h>

enum status { TAKEN = 0, REFUSED = 1, TROUBLE = 2 };

static enum status trouble(const char *name, const char *otherwise) {
    fprintf(stderr, "table_check: %s: %s\n", name, errno != 0 ? strerror(errno) : otherwise);
    return TROUBLE;
}

static enum status unread(const char *name) {
    return trouble(strcmp(name, "-") == 0 ? "standard input" : name, "it cannot be read");
}

/*
 * Of a file longer than any table the first ZB_TABLE_LONGEST + 1 bytes are read, and the answer for them is the answer for the whole
 * file. Each field and row that a reader can ask for lies within the first ZB_TABLE_LONGEST bytes, so none is missing (10), and a fault
 * 11 to 20 is met there, in both or in neither. If none is met, the last row ends there too, and in both at least one byte comes after
 * it: 21, before the sum is looked at.
 */
static enum status check(const char *name) {
    uint8_t table[ZB_TABLE_LONGEST + 1], number;
    int standard = strcmp(name, "-") == 0;
    size_t length;
    FILE *file;

    errno = 0;
    file = standard ? stdin : fopen(name, "rb");
    if (file == NULL) {
        return unread(name);
    }
    length = fread(table, 1, sizeof table, file);
    if (ferror(file)) {
        enum status status = unread(name);
        if (!standard) {
            fclose(file);
        }
        return status;
    }
    if (!standard) {
        fclose(file);
    }
    number = zb_table_check(table, length);
    printf("%s: %u %s\n", name, (unsigned)number, meaning(number));
    return number == ZB_DONE ? TAKEN : REFUSED;
}

int main(int count, char **words) {
    enum status worst = TAKEN;
    int i;

    if (count < 2) {
        fprintf(stderr, "usage: table_check FILE..   ('-' is standard input)\n");
        return TROUBLE;
    }
    for (i = 1; i < count; i++) {
        enum status status = check(words[i]);
        if (status > worst) {
            worst = status;
        }
    }
    errno = 0;
    if (fflush(stdout) != 0 || ferror(stdout)) {
        return trouble("standard output", "it cannot be written");
    }
    return worst;
}
