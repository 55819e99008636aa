/* SPDX-License-Identifier: EUPL-1.2 */

/*
 * The outcome message of a flow: takes examples/run.xml, prints its message, which is that of examples/messages/run.xml, and what it says of each
 * order; then what refused calls answer.
 *
 * At the top of the repository, after `./library`:
 *
 *     cc -std=c11 -Wall -Wextra -Iinclude examples/c/message.c target/staticlib/libhondivole.a -o target/message && target/message
 */

#include <inttypes.h>
#include <stdio.h>
#include <string.h>

#include "hondivole.h"

static const struct hondivole_body bodies[] = {{"000471", 4}, {"471", 4}};
static uint8_t table[HONDIVOLE_TABLE_BYTES(2, 8)], outcomes[HONDIVOLE_MOST_OUTCOME_BYTES];
static uint8_t flow[HONDIVOLE_MOST_FLOW_BYTES + 1], message[HONDIVOLE_MOST_WRITTEN_BYTES], again[HONDIVOLE_MOST_WRITTEN_BYTES];
static uint8_t values[HONDIVOLE_MOST_VALUES_BYTES];
static size_t flow_len;

static void take_flow(void)
{
    uint8_t request[HONDIVOLE_REQUEST_BYTES(2)];
    uint64_t place, orders, accepted, cause, steps;
    FILE *file = fopen("examples/run.xml", "rb");
    flow_len = file == NULL ? 0 : fread(flow, 1, sizeof flow, file);
    if (file != NULL)
        fclose(file);
    hondivole_open(request, hondivole_request("01234", bodies, 2, request, sizeof request), table, sizeof table);
    uint64_t code = hondivole_flow(table, sizeof table, 1, flow, flow_len, outcomes, sizeof outcomes, &place, &orders, &accepted, &cause,
                                   &steps);
    printf("flow: code %" PRIu64 ", %" PRIu64 " of %" PRIu64 " orders accepted\n", code, accepted, orders);
}

#define TEXT(text) (const uint8_t *)(text), strlen(text)

/* Writes the message with this description of the school; the other values are always the same. */
static uint64_t write_message(const char *description, size_t room, uint64_t *length)
{
    return hondivole_message_write(1, flow, flow_len, outcomes, sizeof outcomes, TEXT("2021-03-01T09:31:00+01:00"),
                                   TEXT("2021-03-01T09:30:30+01:00"), TEXT("UFABCD"), TEXT(description), TEXT(""), TEXT("80012345678"),
                                   TEXT("A2A-12345678"), TEXT("A2A-87654321"), TEXT("BT-238444"), message, room, length);
}

static uint64_t number(const uint8_t *bytes, int length)
{
    uint64_t value = 0;
    for (int i = 0; i < length; i++)
        value = value << 8 | bytes[i];
    return value;
}

/* The text that a place and a length of the values name. */
static void print_text(const char *what, const uint8_t *pair)
{
    printf("%s%.*s", what, (int)number(pair + 4, 4), (const char *)message + number(pair, 4));
}

static void print_entry(const uint8_t *entry)
{
    printf("%s %" PRIu64 " of %" PRIu64 ", %" PRIu64 " cents", entry[0] == HONDIVOLE_MANDATO ? "mandato" : "reversale", number(entry + 8, 4),
           number(entry + 4, 2), number(entry + 16, 8));
    print_text(", flow ", entry + 24);
    print_text(", ", entry + 32);
    printf(": %s\n", hondivole_code_text(entry[2]));
}

int main(void)
{
    uint64_t length, again_length, entries, place, cause, code;

    take_flow();
    code = write_message("I.C. Giovanni Pascoli", sizeof message, &length);
    printf("written: code %" PRIu64 ", %" PRIu64 " bytes\n%.*s\n", code, length, (int)length, (const char *)message);

    code = hondivole_message_read(1, message, length, values, sizeof values, &entries, &place, &cause);
    printf("read: code %" PRIu64 ", %" PRIu64 " entries", code, entries);
    print_text(", bank ", values);
    print_text(", body ", values + 64);
    printf("\n");
    for (uint64_t i = 0; i < entries; i++)
        print_entry(values + HONDIVOLE_VALUES_BYTES(i));

    code = hondivole_message_rewrite(1, message, length, again, sizeof again, &again_length);
    int same = again_length == length && memcmp(message, again, length) == 0;
    printf("written again: code %" PRIu64 ", %s\n", code, same ? "the same bytes" : "other bytes");

    printf("a byte short: %s\n", hondivole_code_text(write_message("I.C. Giovanni Pascoli", length - 1, &again_length)));
    printf("a bare &: %s\n", hondivole_code_text(write_message("Rossi & Bianchi", sizeof message, &again_length)));
    message[length - 1] = ' ';
    code = hondivole_message_read(1, message, length, values, sizeof values, &entries, &place, &cause);
    printf("the last byte changed: code %" PRIu64 "\n", code);
    return 0;
}
