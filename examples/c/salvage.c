/* SPDX-License-Identifier: EUPL-1.2 */

/*
 * A damaged table repaired: reads examples/table-2.bin, damages it as a disk fault might (a bit of a record, a record written again into
 * another slot, the cents that an entry keeps), repairs it, and says in words what the report holds.
 *
 * At the top of the repository, after `./library`:
 *
 *     cc -std=c11 -Wall -Wextra -Iinclude examples/c/salvage.c target/staticlib/libhondivole.a -o target/salvage && target/salvage
 */

#include <inttypes.h>
#include <stdio.h>
#include <string.h>

#include "hondivole.h"

enum { HEAD = 16, ENTRY = 48, SLOT = 96 };

static uint8_t table[HONDIVOLE_MOST_TABLE_BYTES], report[HONDIVOLE_MOST_REPORT_BYTES];
static size_t length;

/* The number that so many bytes write, the highest byte first. */
static uint64_t number_at(const uint8_t *bytes, size_t count)
{
    uint64_t number = 0;
    for (size_t i = 0; i < count; i++)
        number = number << 8 | bytes[i];
    return number;
}

static void print_totals(const char *body)
{
    uint64_t used, paid, collected;
    int64_t balance;
    uint64_t code = hondivole_totals(table, length, (const uint8_t *)body, strlen(body), &used, &paid, &collected, &balance);
    if (code == HONDIVOLE_DONE)
        printf("%s: used %" PRIu64 ", paid %" PRIu64 ", collected %" PRIu64 "\n", body, used, paid, collected);
    else
        printf("%s: %s\n", body, hondivole_code_text(code));
}

/* Says whose slot stood at the place. Head and entries of a repaired table are valid, so that they can be gone by. */
static void print_blanked(uint64_t place)
{
    size_t bodies = (size_t)number_at(table, 2);
    for (size_t i = 0; i < bodies; i++) {
        const uint8_t *entry = table + HEAD + ENTRY * i;
        uint64_t slots = number_at(entry + 18, 2), first = number_at(entry + 20, 4);
        if (place >= first && place < first + SLOT * slots)
            printf("  slot %" PRIu64 " of %.*s, at byte %" PRIu64 ", was blanked\n", (place - first) / SLOT + 1, (int)entry[0],
                   (const char *)entry + 1, place);
    }
}

/* Repairs the table with so many bytes of report, and says what came of it. */
static void repair(size_t room)
{
    uint64_t blanked;
    uint64_t code = hondivole_salvage(table, length, report, room, &blanked);
    printf("repair with %zu bytes of report: %" PRIu64 ", %s\n", room, code, hondivole_code_text(code));
    if (code != HONDIVOLE_DONE)
        return;
    size_t bodies = (size_t)number_at(table, 2);
    for (size_t i = 0; i < bodies; i++) {
        const uint8_t *entry = table + HEAD + ENTRY * i;
        printf("  records of %.*s that moved up: %" PRIu64 "\n", (int)entry[0], (const char *)entry + 1, number_at(report + 2 * i, 2));
    }
    for (uint64_t i = 0; i < blanked; i++)
        print_blanked(number_at(report + 2 * bodies + 4 * i, 4));
}

int main(void)
{
    FILE *file = fopen("examples/table-2.bin", "rb");
    if (file == NULL)
        return 1;
    length = fread(table, 1, sizeof table, file);
    fclose(file);
    print_totals("000471");
    print_totals("471");

    /* Body 000471 has its slots from 112 on, body 471 from 496 on. */
    table[112 + SLOT + 23] ^= 1;                      /* a bit of the total of 000471's second record */
    memcpy(table + 496 + 2 * SLOT, table + 496, SLOT); /* 471's record again in its third slot */
    memset(table + HEAD + ENTRY + 24, 0, 8);          /* what 471's entry keeps of cents paid */
    puts("after a disk fault:");
    print_totals("000471");
    print_totals("471");
    repair(HONDIVOLE_REPORT_BYTES(2, 1));
    repair(HONDIVOLE_REPORT_BYTES(2, 2));
    print_totals("000471");
    print_totals("471");
    repair(HONDIVOLE_MOST_REPORT_BYTES);

    table[HEAD] = 0; /* the length of the first body's code */
    puts("after another, in an entry:");
    repair(HONDIVOLE_MOST_REPORT_BYTES);
    return 0;
}
