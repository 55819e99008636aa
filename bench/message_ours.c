/* SPDX-License-Identifier: EUPL-1.2 */

/* The library through its C interface. Writing reads the flow anew and holds the outcome bytes to it: that is within what is timed. */

#include <string.h>

#include "hondivole.h"
#include "message.h"

#define TEXT(text) (const uint8_t *)(text), sizeof(text) - 1

static unsigned write_message(const struct letter *letter, uint8_t *to)
{
    uint64_t length;
    hondivole_message_write(letter->flow.edition, letter->flow.bytes, letter->flow.length, letter->outcomes, sizeof letter->outcomes,
                            TEXT("2021-03-01T09:31:00+01:00"), TEXT("2021-03-01T09:30:30+01:00"), TEXT("UFABCD"),
                            TEXT("I.C. Giovanni Pascoli"), TEXT(""), TEXT("80012345678"), TEXT("A2A-12345678"), TEXT("A2A-87654321"),
                            TEXT("BT-238444"), to, LONGEST_MESSAGE, &length);
    return (unsigned)length;
}

static unsigned read_message(const struct letter *letter)
{
    static uint8_t values[HONDIVOLE_MOST_VALUES_BYTES];
    uint64_t entries, place, cause;
    hondivole_message_read(1, letter->message, letter->length, values, sizeof values, &entries, &place, &cause);
    return (unsigned)entries;
}

static unsigned rewrite_message(const struct letter *letter, uint8_t *to)
{
    uint64_t length;
    hondivole_message_rewrite(1, letter->message, letter->length, to, LONGEST_MESSAGE, &length);
    return (unsigned)length;
}

static void prepare(const struct letter *letter)
{
    (void)letter;
}

void make_letter(struct letter *letter, enum shape shape)
{
    static const char request[] = BANK "\x06" BODY "\0\0\0\0\0\0\0\0\0\0" "\0" "\x00\x20";
    static uint8_t table[HONDIVOLE_TABLE_BYTES(1, 32)];
    uint64_t place, orders, accepted, cause, steps;
    write_flow(&letter->flow, shape);
    if (hondivole_open((const uint8_t *)request, sizeof request - 1, table, sizeof table) != HONDIVOLE_DONE ||
        hondivole_flow(table, sizeof table, letter->flow.edition, letter->flow.bytes, letter->flow.length, letter->outcomes,
                       sizeof letter->outcomes, &place, &orders, &accepted, &cause, &steps) != HONDIVOLE_DONE)
        give_up("the flow of a message isn't taken");
    letter->length = write_message(letter, letter->message);
}

const struct message_engine hondivole_messages = {"hondivole", prepare, write_message, read_message, rewrite_message};
