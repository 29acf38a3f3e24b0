/*
 * zbrojomir.h: the proved checks, for the board's C firmware.
 *
 * Link libfirmware.a, which `host/build firmware` makes for x86-64. Its code is proved: for every input each function answers what
 * its comment says. It calls nothing of yours, and nothing of the C library but memcpy, memmove, memset and memcmp.
 *
 * What holds for every function here:
 * - It reads the bytes that are lent to it and writes none of them. It allocates no memory, and when it has returned it keeps no
 *   pointer to yours.
 * - It has no global state. It is re-entrant: tasks, cores and interrupts may call it at the same time, also on the same bytes, as
 *   long as nobody changes those bytes during the call. As other compiled C it follows the System V convention for x86-64, and may use
 *   vector registers and the red zone, which an interrupt routine has to save or to leave alone.
 * - It returns for every input, and says what it has to say by its number alone: no errno, no signal, no abort.
 *
 * The numbers and their meanings are those of 01, the maker's paper.
 */
#ifndef ZBROJOMIR_H
#define ZBROJOMIR_H

#include <stddef.h>
#include <stdint.h>

#ifdef __cplusplus
extern "C" {
#endif

/* What comes back, in 01's words. A table is taken, and a trace passes, with ZB_DONE; with every other number it is refused. */
enum zb_number {
    ZB_DONE = 0,            /* done */

    ZB_TABLE_CUT = 10,      /* table ends inside a field or row */
    ZB_TABLE_FORMAT = 11,   /* format is neither 1 nor 2 */
    ZB_TABLE_CYCLE = 12,    /* L outside 1 to 1,000,000 */
    ZB_TABLE_CORES = 13,    /* M outside 1 to 8 */
    ZB_TABLE_BOARDS = 14,   /* board numbers not rising */
    ZB_TABLE_ROWS = 15,     /* n above 32 */
    ZB_TABLE_TANKS = 16,    /* tanks not rising */
    ZB_TABLE_NO_COST = 17,  /* e = 0 */
    ZB_TABLE_COST = 18,     /* e above p */
    ZB_TABLE_PERIOD = 19,   /* p does not divide L */
    ZB_TABLE_KIND = 20,     /* kind above 1 */
    ZB_TABLE_LONG = 21,     /* bytes after the last row */
    ZB_TABLE_OVERFULL = 22, /* sum above M*L */

    ZB_TRACE_CUT = 40,      /* trace ends inside its count or a record */
    ZB_TRACE_FREE = 41,     /* k above M */
    ZB_TRACE_PICKED = 42,   /* c above k */
    ZB_TRACE_ROWS = 43,     /* row number not below n, or not rising */
    ZB_TRACE_EARLY = 44,    /* quantum before its row was ready */
    ZB_TRACE_LATE = 45,     /* row late */
    ZB_TRACE_LONG = 46,     /* bytes after the last record */
    ZB_TRACE_SLOTS = 47     /* slot count above 1,000,000,000 */
};

/* The bytes of the longest table that can be taken: 8 cores and 32 rows. */
#define ZB_TABLE_LONGEST (1 + 4 + 1 + 8 + 1 + 32 * 9)

/*
 * Checks a job table and answers 01's number for its bytes: ZB_DONE or one of ZB_TABLE_...
 *
 * A table, every number in it little-endian:
 *     format, 1 or 2                                           1 byte
 *     cycle L, 1 to 1,000,000                                  4 bytes
 *     core count M, 1 to 8                                     1 byte
 *     M board numbers, rising strictly                         1 byte each
 *     row count n, 0 to 32                                     1 byte
 *     n rows, each:                                            9 bytes
 *         tank, rising strictly from row to row                2 bytes
 *         cost e, from 1                                       2 bytes
 *         period p, not below e, a divisor of L                2 bytes
 *         phase f                                              2 bytes
 *         kind, 0 plain or 1 early release                     1 byte
 * and nothing after the last row. The sum of e * (L / p) over the rows is at most M * L; a full box, where they are equal, is taken.
 *
 * The bytes are read from the front. A field is tested as soon as its bytes are there, a row once all its nine are, and then in the
 * order of the numbers; after the last row come 21, then 22. The first fault met is answered.
 *
 * table, length: `length` bytes must be readable at `table`, which may have any alignment. A length of 0 is an empty table, which is
 * refused with ZB_TABLE_CUT; `table` is then not looked at and may be NULL.
 */
uint8_t zb_table_check(const uint8_t *table, size_t length);

/*
 * The bytes of stack that a call of zb_table_check uses, its return address included.
 * Measured on x86-64 (host/c/stack.c): the function runs on a painted stack of its own, for a full table of 8 cores and 32 rows and
 * for refused ones; the depth of the lowest byte written in any of these runs is rounded up to a multiple of 256. The tests measure
 * it again and fail if it is more. Bytes that are reserved and never written are not seen. The figure includes the memcpy of the
 * library that was linked for the measurement: yours may use more. A library for another processor has to be measured there.
 */
#define ZB_TABLE_CHECK_STACK 2304

/*
 * Checks a trace, whoever made it, against its table, and answers 01's number: ZB_DONE or one of ZB_TABLE_... and ZB_TRACE_...
 *
 * A trace, every number in it little-endian:
 *     slot count, at most 1,000,000,000                        4 bytes
 *     a record for each slot, slot 0 first:
 *         cores free k, at most M                              1 byte
 *         rows picked c, at most k                             1 byte
 *         c row numbers, below n and rising strictly           1 byte each
 * and nothing after the last record. Rows are numbered from 0, in the order of the table. A record that names a row gives it one
 * quantum in its slot. No row may have a quantum before it is ready, and none may be late at the end of a slot: a trace that passes
 * keeps every window, whichever of the ready rows it picks.
 *
 * The table is judged first, and its refusal is answered without reading the trace. Then the trace is read from the front: 40 for the
 * count, 47, and for each record 40 (its first two bytes), 41, 42, 40 (its rows), 43, 44, and 45 at the slot's end; last 46. The first
 * cause met is answered. The time of a call grows with the slots that are there, not with the slot count: a count that is too high ends
 * with 40 where the bytes end.
 *
 * table, table_length: as zb_table_check has them. An empty table, which may be NULL, is refused with ZB_TABLE_CUT.
 * trace, trace_length: `trace_length` bytes must be readable at `trace`, which may have any alignment. A length of 0 is an empty trace,
 * which is refused with ZB_TRACE_CUT if the table is taken; `trace` is then not looked at and may be NULL. Both may share bytes.
 */
uint8_t zb_trace_check(const uint8_t *table, size_t table_length, const uint8_t *trace, size_t trace_length);

/*
 * The bytes of stack that a call of zb_trace_check uses, measured as ZB_TABLE_CHECK_STACK is: for a full table of 8 cores and 32 rows
 * with a trace that passes and with refused ones, and for a refused table. The length of the trace does not matter.
 */
#define ZB_TRACE_CHECK_STACK 3072

#ifdef __cplusplus
}
#endif

#endif
