#!/usr/bin/env bash
# The header compiles as C11 and as C++17 without a warning, README's C example compiles as it stands, and the header's version and kit are
# those of the bindings and of the file KIT.
set -eu
cd "$(dirname "$0")/.."
work=$(mktemp -d)
trap 'rm -rf "$work"' EXIT
strict=(-Wall -Wextra -Wconversion -pedantic -Werror -Iinclude)

cat > "$work/all.c" << 'END'
#include "hondivole.h"

uint64_t all(uint8_t *table, size_t length, const uint8_t *flow, uint64_t *numbers, int64_t *balance);

uint64_t all(uint8_t *table, size_t length, const uint8_t *flow, uint64_t *numbers, int64_t *balance)
{
    static const struct hondivole_body bodies[] = {{"000471", 4}, {"471", 4}};
    uint8_t request[HONDIVOLE_REQUEST_BYTES(2)];
    uint64_t code = hondivole_open(request, hondivole_request("01234", bodies, 2, request, sizeof request), table, length);
    code += hondivole_convert(flow, 0, table, length);
    code += hondivole_flow(table, length, HONDIVOLE_EDITION_OPI, flow, 0, request, 0, numbers, numbers + 1, numbers + 2, numbers + 3, numbers + 4);
    code += hondivole_execute(table, length, flow, 0, HONDIVOLE_MANDATO, 2021, 1, 1, 2021, 3, 3, numbers);
    code += hondivole_reverse(table, length, flow, 0, HONDIVOLE_REVERSALE, 2021, 1, 1, 2021, 3, 3, numbers);
    code += hondivole_totals(table, length, flow, 0, numbers, numbers + 1, numbers + 2, balance);
    code += hondivole_journal(table, length, flow, 0, flow, HONDIVOLE_MOVEMENT_BYTES * HONDIVOLE_MOST_MOVEMENTS);
    code += hondivole_salvage(table, HONDIVOLE_TABLE_BYTES(1, 1), table + HONDIVOLE_TABLE_BYTES(1, 1), HONDIVOLE_REPORT_BYTES(1, 1), numbers);
    code += hondivole_close(table, length, flow, 0, 2021, numbers);
    code += hondivole_first_target_day(2021, 4, 2, numbers, numbers + 1, numbers + 2) + HONDIVOLE_MOST_REPORT_BYTES;
    code += hondivole_days_between(2021, 4, 2, 2021, 4, 6, balance);
    hondivole_field_at(flow, 0, 0, numbers, numbers + 1, numbers + 2, numbers + 3);
    code += hondivole_message_write(1, flow, 0, flow, 0, flow, 0, flow, 0, flow, 0, flow, 0, flow, 0, flow, 0, flow, 0, flow, 0, flow, 0, table, length,
                                    numbers);
    code += hondivole_message_read(1, flow, HONDIVOLE_MOST_MESSAGE_BYTES, table, HONDIVOLE_VALUES_BYTES(1), numbers, numbers + 1, numbers + 2);
    code += hondivole_message_rewrite(1, flow, 0, table, HONDIVOLE_MOST_WRITTEN_BYTES, numbers);
    return code + (hondivole_table_bytes(bodies, 2) == HONDIVOLE_TABLE_BYTES(2, 8)) + (hondivole_code_text(code) == hondivole_version()) +
           (hondivole_cause_text(numbers[3]) == hondivole_version());
}
END
cp "$work/all.c" "$work/all.cpp"
cc -std=c11 "${strict[@]}" -c "$work/all.c" -o "$work/all.o"
c++ -std=c++17 "${strict[@]}" -c "$work/all.cpp" -o "$work/all.o"

awk '/^## / { from_c = $0 == "## From C" } from_c && /^    / { print substr($0, 5) } from_c && /^$/ { print "" }' README.md > "$work/readme.c"
grep -q hondivole_flow "$work/readme.c"
cc -std=c11 "${strict[@]}" -c "$work/readme.c" -o "$work/readme.o"

grep -qxF "#define HONDIVOLE_KIT \"$(cat KIT)\"" include/hondivole.h || { echo "HONDIVOLE_KIT is not what the file KIT says"; exit 1; }
version=$(sed -n 's/^version = "\(.*\)"/\1/p' bindings/rust/Cargo.toml)
grep -qxF "#define HONDIVOLE_VERSION \"$version\"" include/hondivole.h || { echo "HONDIVOLE_VERSION is not the bindings' version $version"; exit 1; }
echo "compiled as C11 and C++17, README's example too"
