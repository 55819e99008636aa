/* SPDX-License-Identifier: EUPL-1.2 */

/* The flows that are measured, and those that fill a table beforehand. */

#ifndef BENCH_FLOWS_H
#define BENCH_FLOWS_H

#include <stdint.h>

enum {
    LONGEST_FLOW = 32768,
    SLOTS = 512,         /* of the one body of the table */
    EARLIER_ORDERS = 448 /* how many of them a nearly full table has used: 64 are left, enough for any flow */
};

#define BANK "01234"
#define BODY "000471"

struct flow {
    uint8_t bytes[LONGEST_FLOW];
    unsigned length;
    unsigned edition; /* 1, or 2 with its header in testata_flusso, an Id and a zone */
    unsigned orders;
    unsigned lines;
    unsigned elements; /* all of them, the passed-over ones too */
};

enum shape { ONE_ORDER, MANY_ORDERS, EDITION_2, MOST_LINES, PASSED_OVER, SHAPES };

/* A shape's name, for a reader. */
const char *shape_name(enum shape shape);

/* Writes a flow of this shape. All its orders are new to a table that the earlier flows have filled, and to an empty one. */
void write_flow(struct flow *flow, enum shape shape);

/* Writes one of the flows that together fill EARLIER_ORDERS slots; false when there is no such flow any more. */
int write_earlier_flow(struct flow *flow, unsigned index);

#endif
