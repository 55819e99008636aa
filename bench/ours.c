/* SPDX-License-Identifier: EUPL-1.2 */

/* The library through its C interface. Every call checks the whole table first: that is within what is timed. */

#include <string.h>

#include "engine.h"
#include "hondivole.h"

static uint8_t table[HONDIVOLE_TABLE_BYTES(1, SLOTS)];
static uint8_t kept[sizeof table]; /* what restore copies back */

static const char REQUEST[] = BANK "\x06" BODY "\0\0\0\0\0\0\0\0\0\0" "\0" "\x02\x00";

static void restore(void)
{
    memcpy(table, kept, sizeof table);
}

static void prepare(int nearly_full)
{
    if (hondivole_open((const uint8_t *)REQUEST, sizeof REQUEST - 1, table, sizeof table) != HONDIVOLE_DONE)
        give_up("hondivole: the table isn't opened");
    if (nearly_full)
        take_earlier_flows(&hondivole_engine);
    memcpy(kept, table, sizeof table);
}

static unsigned take(const struct flow *flow)
{
    static uint8_t outcomes[HONDIVOLE_MOST_OUTCOME_BYTES];
    uint64_t place, orders, accepted, cause, steps;
    hondivole_flow(table, sizeof table, flow->edition, flow->bytes, flow->length, outcomes, sizeof outcomes, &place, &orders, &accepted, &cause,
                   &steps);
    return (unsigned)accepted;
}

const struct engine hondivole_engine = {"hondivole", prepare, restore, take};
