/* SPDX-License-Identifier: EUPL-1.2 */

/*
 * A table of the old form converted: reads examples/table-1.bin, converts it, prints each body's totals, and says whether the bytes are
 * those of examples/table-2.bin.
 *
 * At the top of the repository, after `./library`:
 *
 *     cc -std=c11 -Wall -Wextra -Iinclude examples/c/convert.c target/staticlib/libhondivole.a -o target/convert && target/convert
 */

#include <inttypes.h>
#include <stdio.h>
#include <string.h>

#include "hondivole.h"

static uint8_t old[HONDIVOLE_MOST_TABLE_BYTES], table[HONDIVOLE_MOST_TABLE_BYTES], kept[HONDIVOLE_MOST_TABLE_BYTES];

static size_t read_file(const char *name, uint8_t *bytes)
{
    FILE *file = fopen(name, "rb");
    size_t length = file == NULL ? 0 : fread(bytes, 1, HONDIVOLE_MOST_TABLE_BYTES, file);
    if (file != NULL)
        fclose(file);
    return length;
}

static void print_totals(size_t length, const char *body)
{
    uint64_t used, paid, collected;
    int64_t balance;
    uint64_t code = hondivole_totals(table, length, (const uint8_t *)body, strlen(body), &used, &paid, &collected, &balance);
    printf("%s: code %" PRIu64 ", used %" PRIu64 ", paid %" PRIu64 ", collected %" PRIu64 ", balance %" PRId64 "\n", body, code, used, paid,
           collected, balance);
}

int main(void)
{
    size_t old_length = read_file("examples/table-1.bin", old);
    size_t length = HONDIVOLE_CONVERTED_BYTES(old_length, 2);
    printf("the old table has %zu bytes, the new one %zu\n", old_length, length);
    printf("converted: code %" PRIu64 "\n", hondivole_convert(old, old_length, table, length));
    print_totals(length, "000471");
    print_totals(length, "471");
    int same = read_file("examples/table-2.bin", kept) == length && memcmp(table, kept, length) == 0;
    printf("the bytes are %s\n", same ? "those of examples/table-2.bin" : "others");
    printf("converted again: code %" PRIu64 "\n", hondivole_convert(table, length, old, HONDIVOLE_CONVERTED_BYTES(length, 2)));
    return 0;
}
