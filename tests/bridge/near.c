/* SPDX-License-Identifier: EUPL-1.2 */

/*
 * The near side of the bridge: a program for x86-64 with the library in it. It makes the calls that come on standard input and answers
 * them on standard output, see wire.h. Whatever it lends lies between guards, and it ends where a call has touched one of them or has
 * written a const buffer.
 */

#include "hondivole.h"
#include "wire.h"

/* The kit has the C library without its headers. */
long read(int file, void *bytes, size_t length);
long write(int file, const void *bytes, size_t length);
unsigned alarm(unsigned seconds);
_Noreturn void _exit(int status);
void *mmap(void *address, size_t length, int protection, int flags, int file, long offset);
int mprotect(void *address, size_t length, int protection);
void *memcpy(void *to, const void *from, size_t length);
void *memset(void *bytes, int value, size_t length);
int memcmp(const void *left, const void *right, size_t length);
size_t strlen(const char *text);

enum { NO_ACCESS = 0, READ_AND_WRITE = 3, PRIVATE_AND_ANONYMOUS = 0x22 };

/* A multiple of every system's page, so that around each room there can be pages which may not be touched. */
#define PAGES 65536u
#define ROOM (LENT_MOST + PAGES)
#define GUARD_BYTES 1024u
#define GUARD 0x5A

/* What a result holds before the call. */
#define CANARY 0xC0DEC0DE5A5AA5A5u

/* The five results are lent as the buffers are. */
enum { FIRST_RESULT = BUFFERS, PENS = BUFFERS + 5 };

/* Memory that lends one thing at a time: right before or after the pages that may not be touched, with guard bytes on its other side. */
struct pen {
    uint8_t *room;
    uint8_t *lent;
    uint8_t *guards;
    size_t length;
    uint8_t kept[LENT_MOST]; /* what a buffer held before the call */
};

static struct pen pens[PENS];
static uint8_t guards[GUARD_BYTES];
static const char *const pen_names[PENS] = {
    "table or message", "input", "outcomes", "first value", "second value", "third value", "fourth value", "fifth value",
    "sixth value", "seventh value", "eighth value", "ninth value", "first result", "second result", "third result", "fourth result",
    "fifth result",
};

static void say(const char *text)
{
    if (write(2, text, strlen(text)) < 0)
        _exit(4);
}

/* Says these three in one line and ends. */
static _Noreturn void stop(const char *first, const char *second, const char *third)
{
    say("near: ");
    say(first);
    say(second);
    say(third);
    say("\n");
    _exit(3);
}

static void prepare(void)
{
    memset(guards, GUARD, GUARD_BYTES);
    for (int i = 0; i < PENS; i++) {
        uint8_t *all = mmap(NULL, PAGES + ROOM + PAGES, NO_ACCESS, PRIVATE_AND_ANONYMOUS, -1, 0);
        if (all == (void *)-1 || mprotect(all + PAGES, ROOM, READ_AND_WRITE) != 0)
            stop("there is no memory for the ", pen_names[i], "");
        pens[i].room = all + PAGES;
    }
}

/* Whether so many bytes came; where not one came, the calls are at their end. */
static int take(void *bytes, size_t length)
{
    for (size_t have = 0; have < length;) {
        long more = read(0, (uint8_t *)bytes + have, length - have);
        if (more == 0 && have == 0)
            return 0;
        if (more <= 0)
            stop("a call came only in part", "", "");
        have += (size_t)more;
    }
    return 1;
}

static void give(const void *bytes, size_t length)
{
    for (size_t given = 0; given < length;) {
        long more = write(1, (const uint8_t *)bytes + given, length - given);
        if (more <= 0)
            stop("an answer could not be written", "", "");
        given += (size_t)more;
    }
}

static void lend(struct pen *pen, size_t length, int at_end)
{
    pen->length = length;
    pen->lent = at_end ? pen->room + ROOM - length : pen->room;
    pen->guards = at_end ? pen->lent - GUARD_BYTES : pen->lent + length;
    memset(pen->guards, GUARD, GUARD_BYTES);
}

static void lend_all(const struct call *call, int at_end)
{
    for (int i = 0; i < BUFFERS; i++) {
        if (call->lengths[i] > LENT_MOST)
            stop("a call came with too long a buffer: ", pen_names[i], "");
        lend(&pens[i], call->lengths[i], at_end);
        if (!take(pens[i].lent, pens[i].length))
            stop("a call came without a buffer: ", pen_names[i], "");
        memcpy(pens[i].kept, pens[i].lent, pens[i].length);
    }
    for (int i = FIRST_RESULT; i < PENS; i++) {
        lend(&pens[i], sizeof(uint64_t), at_end);
        *(uint64_t *)pens[i].lent = CANARY;
    }
}

static void look_over(const struct call *call)
{
    const char *name = function_names[call->function];
    for (int i = 0; i < PENS; i++) {
        const struct pen *pen = &pens[i];
        if (memcmp(pen->guards, guards, GUARD_BYTES) != 0)
            stop(name, " wrote beside the ", pen_names[i]);
        int is_const = i == INPUT || (i == TABLE && !writes_table(call->function)) || (i == OUTCOMES && !writes_outcomes(call->function)) ||
                       (i >= FIRST_VALUE && i < BUFFERS);
        if (is_const && memcmp(pen->lent, pen->kept, pen->length) != 0)
            stop(name, " wrote the const ", pen_names[i]);
    }
}

/* Writes a message from what the pens hold. */
static uint64_t write_message(uint64_t edition, uint64_t *length)
{
    const struct pen *p = pens, *v = pens + FIRST_VALUE;
    return hondivole_message_write(edition, p[INPUT].lent, p[INPUT].length, p[OUTCOMES].lent, p[OUTCOMES].length, v[0].lent, v[0].length, v[1].lent,
                                   v[1].length, v[2].lent, v[2].length, v[3].lent, v[3].length, v[4].lent, v[4].length, v[5].lent,
                                   v[5].length, v[6].lent, v[6].length, v[7].lent, v[7].length, v[8].lent, v[8].length, p[TABLE].lent,
                                   p[TABLE].length, length);
}

static uint64_t make(const struct call *call)
{
    uint8_t *table = pens[TABLE].lent, *input = pens[INPUT].lent, *outcomes = pens[OUTCOMES].lent;
    size_t table_len = pens[TABLE].length, input_len = pens[INPUT].length, outcomes_len = pens[OUTCOMES].length;
    const uint64_t *n = call->numbers;
    uint64_t *results[5];
    for (int i = 0; i < 5; i++)
        results[i] = (uint64_t *)pens[FIRST_RESULT + i].lent;

    switch (call->function) {
    case OPEN:
        return hondivole_open(input, input_len, table, table_len);
    case CONVERT:
        return hondivole_convert(input, input_len, table, table_len);
    case FLOW:
        return hondivole_flow(table, table_len, n[0], input, input_len, outcomes, outcomes_len, results[0], results[1], results[2],
                              results[3], results[4]);
    case EXECUTE:
        return hondivole_execute(table, table_len, input, input_len, n[0], n[1], n[2], n[3], n[4], n[5], n[6],
                                 results[0]);
    case REVERSE:
        return hondivole_reverse(table, table_len, input, input_len, n[0], n[1], n[2], n[3], n[4], n[5], n[6],
                                 results[0]);
    case TOTALS:
        return hondivole_totals(table, table_len, input, input_len, results[0], results[1], results[2], (int64_t *)results[3]);
    case JOURNAL:
        return hondivole_journal(table, table_len, input, n[0], input + n[0], input_len - n[0]);
    case SALVAGE:
        return hondivole_salvage(table, table_len, outcomes, outcomes_len, results[0]);
    case CLOSE:
        return hondivole_close(table, table_len, input, input_len, n[0], results[0]);
    case FIELD_AT:
        hondivole_field_at(input, input_len, n[0], results[0], results[1], results[2], results[3]);
        return 0;
    case FIRST_TARGET_DAY:
        return hondivole_first_target_day(n[0], n[1], n[2], results[0], results[1], results[2]);
    case DAYS_BETWEEN:
        return hondivole_days_between(n[0], n[1], n[2], n[3], n[4], n[5], (int64_t *)results[0]);
    case MESSAGE_WRITE:
        return write_message(n[0], results[0]);
    case MESSAGE_READ:
        return hondivole_message_read(n[0], input, input_len, table, table_len, results[0], results[1], results[2]);
    case MESSAGE_REWRITE:
        return hondivole_message_rewrite(n[0], input, input_len, table, table_len, results[0]);
    default:
        stop("a call came of no known function", "", "");
    }
}

static void serve(const struct call *call, int at_end)
{
    lend_all(call, at_end);
    /* A call that doesn't end would outlive the tests. */
    alarm(60);
    struct answer answer = {.code = make(call)};
    alarm(0);
    look_over(call);

    for (int i = 0; i < 5; i++)
        answer.results[i] = *(uint64_t *)pens[FIRST_RESULT + i].lent;
    give(&answer, sizeof answer);
    if (writes_table(call->function))
        give(pens[TABLE].lent, pens[TABLE].length);
    if (writes_outcomes(call->function))
        give(pens[OUTCOMES].lent, pens[OUTCOMES].length);
}

int main(void)
{
    struct call call;
    prepare();
    for (int at_end = 1; take(&call, sizeof call); at_end = !at_end)
        serve(&call, at_end);
    return 0;
}
