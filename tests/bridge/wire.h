/* SPDX-License-Identifier: EUPL-1.2 */

/*
 * What far.c and near.c send each other. A call is a struct call and then the bytes of its buffers. Its answer is a struct answer and then
 * the bytes of the table and of the outcomes, where the call may write them. Both machines write numbers with the lowest byte first.
 */

#ifndef WIRE_H
#define WIRE_H

#include <stdint.h>

/* The longest buffer that is carried. The differential test's flows come to some 126,000 bytes, its tables to some 99,000. */
#define LENT_MOST 1048576u

enum function {
    OPEN,
    CONVERT,
    FLOW,
    EXECUTE,
    REVERSE,
    TOTALS,
    JOURNAL,
    SALVAGE,
    CLOSE,
    FIELD_AT,
    FIRST_TARGET_DAY,
    DAYS_BETWEEN,
    MESSAGE_WRITE,
    MESSAGE_READ,
    MESSAGE_REWRITE,
    FUNCTIONS
};

/*
 * A call's buffers: the table, or what a call on a message writes; the input, which is the request, the old table, the flow, the message or
 * the body's code; the outcomes, which a flow writes and a message is written from, or a repair's report; and the caller's nine values for a message.
 */
enum buffer { TABLE, INPUT, OUTCOMES, FIRST_VALUE, VALUES = 9, BUFFERS = FIRST_VALUE + VALUES };

/* Whether a call may write the table, and the outcomes. */
static inline int writes_table(uint64_t function)
{
    return function != TOTALS && function != JOURNAL;
}
static inline int writes_outcomes(uint64_t function)
{
    return function != MESSAGE_WRITE;
}

struct call {
    uint64_t function;
    uint64_t lengths[BUFFERS];
    uint64_t numbers[7]; /* a notice's kind, esercizio, number, line, year, month and day; a flow's or message's edition; a field's place; a year; dates */
};

struct answer {
    uint64_t code;
    uint64_t results[5]; /* as the header lists them; a balance or a number of days as its 64 bits */
};

static const char *const function_names[FUNCTIONS] = {"hondivole_open", "hondivole_convert", "hondivole_flow", "hondivole_execute",
                                                      "hondivole_reverse", "hondivole_totals", "hondivole_journal", "hondivole_salvage",
                                                      "hondivole_close", "hondivole_field_at", "hondivole_first_target_day",
                                                      "hondivole_days_between",
                                                      "hondivole_message_write", "hondivole_message_read", "hondivole_message_rewrite"};

#endif
