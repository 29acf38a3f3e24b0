/*
 * bytes.h: all that a file holds, for the programs that have to hold it too: a trace has no longest length that memory could hold beforehand.
 */
#ifndef BYTES_H
#define BYTES_H

#include <stddef.h>
#include <stdint.h>
#include <stdio.h>
#include <stdlib.h>

struct bytes {
    uint8_t *start;
    size_t length;
};

/* Reads to the end. Returns 0 if it cannot; then `bytes` has what was read before. */
static int read_rest(FILE *file, struct bytes *bytes) {
    size_t room = 0, got;

    do {
        if (bytes->length == room) {
            size_t wider = room < 4096 ? 4096 : 2 * room;
            uint8_t *moved = wider > room ? realloc(bytes->start, wider) : NULL;
            if (moved == NULL) {
                return 0;
            }
            bytes->start = moved;
            room = wider;
        }
        got = fread(bytes->start + bytes->length, 1, room - bytes->length, file);
        bytes->length += got;
    } while (got > 0);
    return !ferror(file);
}

#endif
