/* SPDX-License-Identifier: EUPL-1.2 */

/*
 * Measures one call of each engine for each flow, on an empty and on a nearly full table.
 *
 *     measure time ROUNDS   writes a line for each flow and one for each measure, in nanoseconds, fields parted by tabs
 *     measure count         for callgrind: makes each call once and has its instructions written to a file of their own
 */

#include <stdio.h>
#include <stdlib.h>
#include <string.h>
#include <time.h>
#include <valgrind/callgrind.h>

#include "engine.h"

static const struct engine *const ENGINES[] = {
    &hondivole_engine,
#ifndef ONLY_OURS
    &stack_engine,
    &pugixml_engine,
#endif
};
enum { COUNT = sizeof ENGINES / sizeof ENGINES[0], CALLS = 5, MOST_ROUNDS = 10000 };

static const char *const TABLES[] = {"empty", "nearly full"};

void give_up(const char *message)
{
    fprintf(stderr, "measure: %s\n", message);
    exit(1);
}

void take_earlier_flows(const struct engine *engine)
{
    static struct flow flow;
    for (unsigned index = 0; write_earlier_flow(&flow, index); index++)
        if (engine->take(&flow) != flow.orders)
            give_up("an earlier flow isn't taken");
}

static double now(void)
{
    struct timespec time;
    clock_gettime(CLOCK_MONOTONIC, &time);
    return 1e9 * (double)time.tv_sec + (double)time.tv_nsec;
}

/* The nanoseconds of one call; every call is seen to accept all orders. */
static double time_call(const struct engine *engine, const struct flow *flow)
{
    engine->restore();
    double start = now();
    unsigned accepted = engine->take(flow);
    double end = now();
    if (accepted != flow->orders)
        give_up("an order isn't accepted");
    return end - start;
}

/* A round of one engine: the quickest of a few calls in a row, so that its code and data are in the caches as at a busy desk. */
static double time_round(const struct engine *engine, const struct flow *flow)
{
    double best = time_call(engine, flow);
    for (int call = 1; call < CALLS; call++) {
        double again = time_call(engine, flow);
        best = again < best ? again : best;
    }
    return best;
}

static int ascending(const void *left, const void *right)
{
    double difference = *(const double *)left - *(const double *)right;
    return (difference > 0) - (difference < 0);
}

static double middle(double *values, unsigned count)
{
    qsort(values, count, sizeof *values, ascending);
    return values[count / 2];
}

/* A round of every engine on every flow. Each second round goes the other way, so that none is always behind the same other. */
static void time_all(const struct flow *flows, unsigned round, double times[SHAPES][COUNT][MOST_ROUNDS])
{
    enum { ALL = (int)SHAPES * (int)COUNT };
    for (unsigned step = 0; step < ALL; step++) {
        unsigned at = round % 2 ? ALL - 1 - step : step;
        unsigned shape = at / COUNT, engine = at % COUNT;
        times[shape][engine][round] = time_round(ENGINES[engine], &flows[shape]);
    }
}

/*
 * Engines and flows take turns within each round, so that whatever else the machine does meets all of them alike. A flow's time is the
 * median of its rounds; how edition 2 stands to edition 1 is the median of the rounds' own ratios.
 */
static void time_table(const struct flow *flows, const char *table, unsigned rounds)
{
    static double times[SHAPES][COUNT][MOST_ROUNDS], ratios[MOST_ROUNDS];
    for (unsigned round = 0; round < rounds; round++)
        time_all(flows, round, times);
    for (unsigned i = 0; i < COUNT; i++) {
        for (unsigned round = 0; round < rounds; round++)
            ratios[round] = times[EDITION_2][i][round] / times[MANY_ORDERS][i][round];
        printf("editions\t%s\t%s\t%.4f\n", table, ENGINES[i]->name, middle(ratios, rounds));
    }
    for (unsigned shape = 0; shape < SHAPES; shape++)
        for (unsigned i = 0; i < COUNT; i++) {
            double half = middle(times[shape][i], rounds);
            printf("time\t%s\t%s\t%s\t%.0f\t%.0f\n", shape_name(shape), table, ENGINES[i]->name, half, times[shape][i][0]);
        }
    fflush(stdout);
}

/* Makes the call once to warm up and once to be counted. */
static void count_case(const struct flow *flow, const char *shape, const char *table)
{
    for (unsigned i = 0; i < COUNT; i++) {
        char label[100];
        snprintf(label, sizeof label, "%s\t%s\t%s", shape, table, ENGINES[i]->name);
        time_call(ENGINES[i], flow);
        ENGINES[i]->restore();
        CALLGRIND_ZERO_STATS;
        CALLGRIND_TOGGLE_COLLECT;
        ENGINES[i]->take(flow);
        CALLGRIND_TOGGLE_COLLECT;
        CALLGRIND_DUMP_STATS_AT(label);
    }
}

int main(int argc, char **argv)
{
    static struct flow flows[SHAPES];
    int timing = argc == 3 && strcmp(argv[1], "time") == 0;
    unsigned rounds = timing ? (unsigned)atoi(argv[2]) : 0;
    if ((!timing && (argc != 2 || strcmp(argv[1], "count") != 0)) || (timing && (rounds < 1 || rounds > MOST_ROUNDS)))
        give_up("usage: measure time ROUNDS, or measure count");
    for (unsigned shape = 0; shape < SHAPES; shape++) {
        struct flow *flow = &flows[shape];
        write_flow(flow, (enum shape)shape);
        printf("flow\t%s\t%u\t%u\t%u\t%u\n", shape_name(shape), flow->length, flow->orders, flow->lines, flow->elements);
    }
    for (int table = 0; table < 2; table++) {
        for (unsigned i = 0; i < COUNT; i++)
            ENGINES[i]->prepare(table);
        if (timing)
            time_table(flows, TABLES[table], rounds);
        else
            for (unsigned shape = 0; shape < SHAPES; shape++)
                count_case(&flows[shape], shape_name(shape), TABLES[table]);
    }
    return 0;
}
