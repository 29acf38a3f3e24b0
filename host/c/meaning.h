/*
 * meaning.h: 01's words for each number that the checks answer, for the programs that print them.
 */
#ifndef MEANING_H
#define MEANING_H

#include "zbrojomir.h"

static const char *meaning(uint8_t number) {
    switch (number) {
    case ZB_DONE: return "done";
    case ZB_TABLE_CUT: return "table ends inside a field or row";
    case ZB_TABLE_FORMAT: return "format is neither 1 nor 2";
    case ZB_TABLE_CYCLE: return "L outside 1 to 1,000,000";
    case ZB_TABLE_CORES: return "M outside 1 to 8";
    case ZB_TABLE_BOARDS: return "board numbers not rising";
    case ZB_TABLE_ROWS: return "n above 32";
    case ZB_TABLE_TANKS: return "tanks not rising";
    case ZB_TABLE_NO_COST: return "e = 0";
    case ZB_TABLE_COST: return "e above p";
    case ZB_TABLE_PERIOD: return "p does not divide L";
    case ZB_TABLE_KIND: return "kind above 1";
    case ZB_TABLE_LONG: return "bytes after the last row";
    case ZB_TABLE_OVERFULL: return "sum above M*L";
    case ZB_TRACE_CUT: return "trace ends inside its count or a record";
    case ZB_TRACE_FREE: return "k above M";
    case ZB_TRACE_PICKED: return "c above k";
    case ZB_TRACE_ROWS: return "row number not below n, or not rising";
    case ZB_TRACE_EARLY: return "quantum before its row was ready";
    case ZB_TRACE_LATE: return "row late";
    case ZB_TRACE_LONG: return "bytes after the last record";
    case ZB_TRACE_SLOTS: return "slot count above 1,000,000,000";
    default: return "not a number that 01 gives to a table or a trace";
    }
}

#endif
