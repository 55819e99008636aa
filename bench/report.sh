# The text of docs/BENCHMARK.md, with the tables of this run; read by bench/run, whose names it uses.
# shellcheck shell=bash disable=SC2154
cat <<TEXT
# Benchmark

Written by \`bench/run\`, which builds, measures and writes this page anew, and installs the peers only with --install. It is not a part of \`./test\`.

![time of one flow relative to libxml2 + SQLite](benchmark.svg)

## What is timed

One call that takes a flow, every order of it an INSERIMENTO that is accepted, on an empty table and on a nearly full one (one body of 512 slots, 448
of them used by orders of one to three lines).

$(part flows)

- **hondivole**: \`hondivole_flow\` through the C interface. The check of the whole table, which every call makes, is within the time.
- **libxml2 + SQLite**: what a team would build from parts. libxml2's SAX reader (one parser context for all flows, names compared as pointers of its
  dictionary) gathers each field's text and converts it; SQLite in memory keeps bodies, orders and lines, with primary keys, an index on body, kind,
  esercizio and number, prepared statements, no mutex and one transaction to a flow, its commit within the time. Each order is looked up and
  inserted with its lines. It checks line numbers and sums and what conversion needs; it validates nothing of its tables.
- **pugixml**: \`load_buffer\` with \`parse_default\` on the same bytes and nothing else, as the speed of light. It builds a tree; it checks, converts
  and keeps nothing.

## Results

$about

Microseconds of one call, and their ratios:

$(part times)

The same 64 orders in edition 2 and in edition 1, the time of the one over that of the other, both taken within one round:

$(part editions)

## Goals

By the ratios above:

$(part goals)

Where a goal is not met, why:

- **One order on a nearly full table.** The call checks the whole table first, 49,200 bytes of it, and the stack checks nothing: it reads and writes the rows of one
  order. That check is most of the call.
- **Large flows.** A bare parse reads each byte once. The call reads markup, structure and fields in one pass, with every character, name and end tag checked, and each
  order's fields once more for their values, while it judges and stores the orders. The names of passed-over elements are looked up, since no tag is expected for them, and the
  general markup reader reads what they hold. The second reading of the orders is the largest part that could be saved.

## Instructions

Of one call, by callgrind, after a first call to warm up.

$(part counts)

## Messages

An outcome message of a flow, half of whose orders are refused where there are more than one; microseconds, and instructions by callgrind. Both write
the same bytes, which is seen at every call.

- **hondivole**: \`hondivole_message_write\`, \`hondivole_message_read\` and \`hondivole_message_rewrite\`. Writing begins with the flow's bytes: it reads and checks the
  whole flow, and holds the outcome bytes to it.
- **libxml2**: \`xmlTextWriter\` into memory, from a struct that is at hand, so without the flow; \`xmlTextReader\` into such a struct, with numbers converted
  and little checked; and the one after the other. One reader and one buffer serve all calls.

$(cat "$to/messages.md")

## How it was measured

- The three and the flows take turns: a round makes five calls of each of the three on each flow in a row and keeps the quickest, every second round the
  other way about; the figure is the median of $rounds rounds, and of the two editions the median of the rounds' own ratios. Tables are
  restored before each call, outside the time: by copying the bytes, by deleting the new rows, by freeing the last tree.
- Every call of the first two is seen to accept all orders of its flow, and every call of pugixml to parse.
- The bench is compiled with \`cc -O2\`; peers are Debian's packages as they are: libxml2 $(version libxml2-dev), SQLite $(version libsqlite3-dev), pugixml
  $(version libpugixml-dev); valgrind $(version valgrind).
- The machine: $machine, processor $processor, $cores cores, load average $load when the run began.
TEXT
