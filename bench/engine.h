/* SPDX-License-Identifier: EUPL-1.2 */

/* What is measured: the same flows by each of these. */

#ifndef BENCH_ENGINE_H
#define BENCH_ENGINE_H

#include "flows.h"

#ifdef __cplusplus
extern "C" {
#endif

struct engine {
    const char *name;

    /* Makes an empty table of one body and, where `nearly_full`, takes the earlier flows. What `restore` comes back to. */
    void (*prepare)(int nearly_full);

    /* Brings the table back to what `prepare` left. Never timed. */
    void (*restore)(void);

    /* Takes a flow: what is timed. Answers how many orders were accepted. */
    unsigned (*take)(const struct flow *flow);
};

extern const struct engine hondivole_engine; /* the library through its C interface */
extern const struct engine stack_engine;     /* libxml2's SAX reader and SQLite in memory */
extern const struct engine pugixml_engine;   /* pugixml's bare parse: it keeps no table, and accepts what it parses */

/* Takes the earlier flows with an engine that is being prepared. */
void take_earlier_flows(const struct engine *engine);

/* Ends the program with a message. */
void give_up(const char *message);

#ifdef __cplusplus
}
#endif

#endif
