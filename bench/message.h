/* SPDX-License-Identifier: EUPL-1.2 */

/* What is measured of messages: the same message written and read by each of these. */

#ifndef BENCH_MESSAGE_H
#define BENCH_MESSAGE_H

#include "flows.h"

enum { LONGEST_MESSAGE = 65536 };

/* A message, and what it is written from. */
struct letter {
    struct flow flow;
    uint8_t outcomes[1024];
    uint8_t message[LONGEST_MESSAGE];
    unsigned length;
};

struct message_engine {
    const char *name;

    /* Takes over what the letter's message says, for an engine that writes from values of its own. Never timed. */
    void (*prepare)(const struct letter *letter);

    /* Each answers how many bytes it wrote, or how many entries it read; 0 where it failed. */
    unsigned (*write)(const struct letter *letter, uint8_t *to);
    unsigned (*read)(const struct letter *letter);
    unsigned (*rewrite)(const struct letter *letter, uint8_t *to);
};

extern const struct message_engine hondivole_messages; /* the library through its C interface */
extern const struct message_engine libxml2_messages;   /* libxml2's xmlTextWriter and xmlTextReader */

/* Makes the letter of a flow of which half the orders are refused; with one order it is accepted. */
void make_letter(struct letter *letter, enum shape shape);

/* Ends the program with a message. */
void give_up(const char *message);

#endif
