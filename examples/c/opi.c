/* SPDX-License-Identifier: EUPL-1.2 */

/*
 * A flow of edition 2, as an OPI 1.2.2 program sends it but for signature and namespaces: reads examples/c/opi.xml, takes it, takes it once more
 * by the number of edition 1, which has no Id, and by a number of no edition, and then takes a flow of edition 1 for the same body.
 *
 * At the top of the repository, after `./library`:
 *
 *     cc -std=c11 -Wall -Wextra -Iinclude examples/c/opi.c target/staticlib/libhondivole.a -o target/opi && target/opi
 */

#include <inttypes.h>
#include <stdio.h>

#include "hondivole.h"

static uint8_t table[HONDIVOLE_TABLE_BYTES(2, 8)], outcomes[HONDIVOLE_MOST_OUTCOME_BYTES], flow[HONDIVOLE_MOST_FLOW_BYTES];

static void take(const char *name, uint64_t edition)
{
    FILE *file = fopen(name, "rb");
    size_t length = file == NULL ? 0 : fread(flow, 1, sizeof flow, file);
    uint64_t place, orders, accepted, cause, steps;
    uint64_t code = hondivole_flow(table, sizeof table, edition, flow, length, outcomes, sizeof outcomes, &place, &orders, &accepted,
                                   &cause, &steps);
    if (file != NULL)
        fclose(file);
    printf("%s in edition %" PRIu64 ": code %" PRIu64 ", %s; orders %" PRIu64 ", accepted %" PRIu64 "\n", name, edition, code,
           hondivole_code_text(code), orders, accepted);
    for (uint64_t i = 0; i < orders; i++) {
        const uint8_t *outcome = outcomes + 16 * i;
        printf("  order of kind %d, code %d: %s\n", outcome[0], outcome[2], hondivole_code_text(outcome[2]));
    }
}

int main(void)
{
    static const struct hondivole_body bodies[] = {{"000471", 4}, {"471", 4}};
    uint8_t request[HONDIVOLE_REQUEST_BYTES(2)];
    size_t length = hondivole_request("01234", bodies, 2, request, sizeof request);

    printf("open: code %" PRIu64 "\n", hondivole_open(request, length, table, sizeof table));
    take("examples/c/opi.xml", HONDIVOLE_EDITION_OPI);
    take("examples/c/opi.xml", HONDIVOLE_EDITION_OIL);
    take("examples/c/opi.xml", 257);
    take("examples/run.xml", HONDIVOLE_EDITION_OIL);
    take("examples/run.xml", HONDIVOLE_EDITION_OPI);
    return 0;
}
