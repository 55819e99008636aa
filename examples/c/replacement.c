/* SPDX-License-Identifier: EUPL-1.2 */

/*
 * Replacement orders: takes document 01's run (examples/run.xml) and executes both lines of its mandato 12, then takes
 * examples/c/replacement.xml, whose mandato 13 replaces them and whose other orders are refused, and prints what became of lines and totals.
 *
 * At the top of the repository, after `./library`:
 *
 *     cc -std=c11 -Wall -Wextra -Iinclude examples/c/replacement.c target/staticlib/libhondivole.a -o target/replacement && target/replacement
 */

#include <inttypes.h>
#include <stdio.h>

#include "hondivole.h"

static uint8_t table[HONDIVOLE_TABLE_BYTES(2, 8)], outcomes[HONDIVOLE_MOST_OUTCOME_BYTES], flow[HONDIVOLE_MOST_FLOW_BYTES];
static const uint8_t body[] = {'0', '0', '0', '4', '7', '1'};

static void take(const char *name)
{
    FILE *file = fopen(name, "rb");
    size_t length = file == NULL ? 0 : fread(flow, 1, sizeof flow, file);
    uint64_t place, orders, accepted, cause, steps;
    uint64_t code = hondivole_flow(table, sizeof table, HONDIVOLE_EDITION_OIL, flow, length, outcomes, sizeof outcomes, &place, &orders,
                                   &accepted, &cause, &steps);
    if (file != NULL)
        fclose(file);
    printf("%s: code %" PRIu64 ", orders %" PRIu64 ", accepted %" PRIu64 "\n", name, code, orders, accepted);
    for (uint64_t i = 0; i < orders; i++) {
        const uint8_t *outcome = outcomes + 16 * i;
        printf("  %s %d: %2d, %s\n", outcome[0] == HONDIVOLE_MANDATO ? "mandato" : "reversale", outcome[7], outcome[2],
               hondivole_code_text(outcome[2]));
    }
}

static void execute(uint64_t number, uint64_t line)
{
    uint64_t cents;
    uint64_t code = hondivole_execute(table, sizeof table, body, sizeof body, HONDIVOLE_MANDATO, 2021, number, line, 2021, 3, 3, &cents);
    printf("execute line %" PRIu64 " of mandato %" PRIu64 ": %" PRIu64 ", %s\n", line, number, code, hondivole_code_text(code));
}

static void reverse(uint64_t number, uint64_t line)
{
    uint64_t cents;
    uint64_t code = hondivole_reverse(table, sizeof table, body, sizeof body, HONDIVOLE_MANDATO, 2021, number, line, 2021, 3, 8, &cents);
    printf("reverse line %" PRIu64 " of mandato %" PRIu64 ": %" PRIu64 ", %s\n", line, number, code, hondivole_code_text(code));
}

static void totals(void)
{
    uint64_t used, paid, collected;
    int64_t balance;
    hondivole_totals(table, sizeof table, body, sizeof body, &used, &paid, &collected, &balance);
    printf("000471: used %" PRIu64 ", paid %" PRIu64 ", collected %" PRIu64 "\n", used, paid, collected);
}

int main(void)
{
    static const struct hondivole_body bodies[] = {{"000471", 4}, {"471", 4}};
    uint8_t request[HONDIVOLE_REQUEST_BYTES(2)];
    size_t length = hondivole_request("01234", bodies, 2, request, sizeof request);

    printf("open: code %" PRIu64 "\n", hondivole_open(request, length, table, sizeof table));
    take("examples/run.xml");
    execute(12, 1);
    execute(12, 2);
    totals();
    take("examples/c/replacement.xml");
    totals();
    execute(12, 1);
    reverse(12, 1);
    reverse(13, 1);
    totals();
    return 0;
}
