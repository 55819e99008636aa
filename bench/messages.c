/* SPDX-License-Identifier: EUPL-1.2 */

/*
 * Measures messages written, read and written again by each engine, of one entry and of 64.
 *
 *     messages time ROUNDS   writes a line for each message and one for each measure, in nanoseconds, fields parted by tabs
 *     messages count         for callgrind: makes each call once and has its instructions written to a file of their own
 */

#include <stdio.h>
#include <stdlib.h>
#include <string.h>
#include <time.h>
#include <valgrind/callgrind.h>

#include "message.h"

static const struct message_engine *const ENGINES[] = {&hondivole_messages, &libxml2_messages};
enum { COUNT = sizeof ENGINES / sizeof ENGINES[0], CALLS = 5, MOST_ROUNDS = 10000 };
enum work { WRITE, READ, REWRITE, WORKS };
static const char *const WORK_NAMES[WORKS] = {"write", "read", "read and write again"};
static const struct {
    enum shape shape;
    const char *name;
    unsigned entries;
} LETTERS[] = {{ONE_ORDER, "one entry", 1}, {MANY_ORDERS, "64 entries", 64}};

static uint8_t written[LONGEST_MESSAGE];

void give_up(const char *message)
{
    fprintf(stderr, "messages: %s\n", message);
    exit(1);
}

static double now(void)
{
    struct timespec time;
    clock_gettime(CLOCK_MONOTONIC, &time);
    return 1e9 * (double)time.tv_sec + (double)time.tv_nsec;
}

static unsigned make(const struct message_engine *engine, enum work work, const struct letter *letter)
{
    if (work == WRITE)
        return engine->write(letter, written);
    return work == READ ? engine->read(letter) : engine->rewrite(letter, written);
}

/* The nanoseconds of one call; every call is seen to write the very message, or to read all its entries. */
static double time_call(const struct message_engine *engine, enum work work, const struct letter *letter, unsigned entries)
{
    memset(written, 0, letter->length);
    double start = now();
    unsigned answer = make(engine, work, letter);
    double end = now();
    if (work == READ ? answer != entries : answer != letter->length || memcmp(written, letter->message, answer) != 0)
        give_up(engine->name);
    return end - start;
}

static double time_round(const struct message_engine *engine, enum work work, const struct letter *letter, unsigned entries)
{
    double best = time_call(engine, work, letter, entries);
    for (int call = 1; call < CALLS; call++) {
        double again = time_call(engine, work, letter, entries);
        best = again < best ? again : best;
    }
    return best;
}

static int ascending(const void *left, const void *right)
{
    double difference = *(const double *)left - *(const double *)right;
    return (difference > 0) - (difference < 0);
}

/* The engines take turns, so that whatever else the machine does meets all of them alike. */
static void time_case(const struct letter *letter, unsigned entries, const char *name, enum work work, unsigned rounds)
{
    static double times[COUNT][MOST_ROUNDS];
    for (unsigned round = 0; round < rounds; round++)
        for (unsigned i = 0; i < COUNT; i++)
            times[i][round] = time_round(ENGINES[i], work, letter, entries);
    for (unsigned i = 0; i < COUNT; i++) {
        qsort(times[i], rounds, sizeof times[i][0], ascending);
        printf("time\t%s\t%s\t%s\t%.0f\t%.0f\n", name, WORK_NAMES[work], ENGINES[i]->name, times[i][rounds / 2], times[i][0]);
    }
    fflush(stdout);
}

/* Makes the call once to warm up and once to be counted. */
static void count_case(const struct letter *letter, unsigned entries, const char *name, enum work work)
{
    for (unsigned i = 0; i < COUNT; i++) {
        char label[100];
        snprintf(label, sizeof label, "%s\t%s\t%s", name, WORK_NAMES[work], ENGINES[i]->name);
        time_call(ENGINES[i], work, letter, entries);
        CALLGRIND_ZERO_STATS;
        CALLGRIND_TOGGLE_COLLECT;
        make(ENGINES[i], work, letter);
        CALLGRIND_TOGGLE_COLLECT;
        CALLGRIND_DUMP_STATS_AT(label);
    }
}

int main(int argc, char **argv)
{
    static struct letter letter;
    int timing = argc == 3 && strcmp(argv[1], "time") == 0;
    unsigned rounds = timing ? (unsigned)atoi(argv[2]) : 0;
    if ((!timing && (argc != 2 || strcmp(argv[1], "count") != 0)) || (timing && (rounds < 1 || rounds > MOST_ROUNDS)))
        give_up("usage: messages time ROUNDS, or messages count");
    for (unsigned i = 0; i < sizeof LETTERS / sizeof LETTERS[0]; i++) {
        make_letter(&letter, LETTERS[i].shape);
        printf("message\t%s\t%u\n", LETTERS[i].name, letter.length);
        for (unsigned engine = 0; engine < COUNT; engine++)
            ENGINES[engine]->prepare(&letter);
        for (int work = 0; work < WORKS; work++) {
            if (timing)
                time_case(&letter, LETTERS[i].entries, LETTERS[i].name, (enum work)work, rounds);
            else
                count_case(&letter, LETTERS[i].entries, LETTERS[i].name, (enum work)work);
        }
    }
    return 0;
}
