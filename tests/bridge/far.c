/* SPDX-License-Identifier: EUPL-1.2 */

/*
 * The far side of the bridge: the functions of hondivole.h for programs of this machine. Each call goes to the program of near.c, which
 * has the library in it; SERVE is the command that runs it under the emulator. Where that program is gone there is no answer to give,
 * and the caller's program is stopped.
 */

#define _POSIX_C_SOURCE 200809L

#include <pthread.h>
#include <signal.h>
#include <spawn.h>
#include <stdio.h>
#include <stdlib.h>
#include <string.h>
#include <sys/socket.h>
#include <sys/wait.h>
#include <unistd.h>

#include "hondivole.h"
#include "wire.h"

extern char **environ;

/* One call at a time, whichever thread makes it. */
static pthread_mutex_t lock = PTHREAD_MUTEX_INITIALIZER;
static pid_t near;
static int wire = -1;
static uint8_t message[sizeof(struct call) + BUFFERS * LENT_MOST];

/* The outcomes of calls that have none. */
static uint8_t none[1];

/* abort and not exit: the differential test then says which case it was. */
static _Noreturn void stop(const char *name, const char *what)
{
    fprintf(stderr, "bridge: %s %s\n", name, what);
    abort();
}

static _Noreturn void gone(const char *name)
{
    int status = 0;
    close(wire);
    waitpid(near, &status, 0);
    int by = WIFSIGNALED(status) ? WTERMSIG(status) : 0;
    if (by == SIGSEGV || by == SIGBUS)
        stop(name, "touched memory that was not lent to it");
    if (by == SIGALRM)
        stop(name, "did not end");
    stop(name, "has no answer: the program with the library is gone");
}

static void start(const char *name)
{
    int ends[2];
    char *command[] = {SERVE, NULL};
    posix_spawn_file_actions_t actions;
    /* A socket and not pipes: it can be written without a signal when nobody reads it any more. */
    if (socketpair(AF_UNIX, SOCK_STREAM | SOCK_CLOEXEC, 0, ends) != 0 || posix_spawn_file_actions_init(&actions) != 0 ||
        posix_spawn_file_actions_adddup2(&actions, ends[1], 0) != 0 || posix_spawn_file_actions_adddup2(&actions, ends[1], 1) != 0 ||
        posix_spawn(&near, SERVE, &actions, NULL, command, environ) != 0)
        stop(name, "has no answer: the program with the library cannot be started: " SERVE);
    posix_spawn_file_actions_destroy(&actions);
    close(ends[1]);
    wire = ends[0];
}

/* Sends so many bytes of the message and receives so many in their place. */
static void exchange(const char *name, size_t out, size_t back)
{
    for (size_t sent = 0; sent < out;) {
        ssize_t more = send(wire, message + sent, out - sent, MSG_NOSIGNAL);
        if (more <= 0)
            gone(name);
        sent += (size_t)more;
    }
    for (size_t got = 0; got < back;) {
        ssize_t more = recv(wire, message + got, back - got, 0);
        if (more <= 0)
            gone(name);
        got += (size_t)more;
    }
}

/* Makes a call over there. `written` is the table, `outcomes` are the outcomes, where the call may write them. */
static struct answer carry(const struct call *call, const uint8_t *const lent[BUFFERS], uint8_t *written, uint8_t *outcomes)
{
    const char *name = function_names[call->function];
    size_t written_len = writes_table(call->function) ? call->lengths[TABLE] : 0;
    size_t outcomes_len = writes_outcomes(call->function) ? call->lengths[OUTCOMES] : 0;
    size_t out = sizeof *call;
    struct answer answer;

    pthread_mutex_lock(&lock);
    if (wire < 0)
        start(name);
    memcpy(message, call, sizeof *call);
    for (int i = 0; i < BUFFERS; i++) {
        if (call->lengths[i] > LENT_MOST)
            stop(name, "is lent a buffer of more bytes than the bridge carries, LENT_MOST in wire.h");
        if (call->lengths[i] > 0)
            memcpy(message + out, lent[i], call->lengths[i]);
        out += call->lengths[i];
    }
    exchange(name, out, sizeof answer + written_len + outcomes_len);
    memcpy(&answer, message, sizeof answer);
    memcpy(written, message + sizeof answer, written_len);
    memcpy(outcomes, message + sizeof answer + written_len, outcomes_len);
    pthread_mutex_unlock(&lock);
    return answer;
}

/* Makes a call that has a table, an input and outcomes at most. */
static struct answer forward(const struct call *call, uint8_t *table, const uint8_t *input, uint8_t *outcomes)
{
    const uint8_t *lent[BUFFERS] = {table, input, outcomes};
    return carry(call, lent, table, outcomes);
}

uint64_t hondivole_open(const uint8_t *request, size_t request_len, uint8_t *table, size_t table_len)
{
    struct call call = {.function = OPEN, .lengths = {table_len, request_len, 0}};
    return forward(&call, table, request, none).code;
}

uint64_t hondivole_convert(const uint8_t *old, size_t old_len, uint8_t *table, size_t table_len)
{
    struct call call = {.function = CONVERT, .lengths = {table_len, old_len, 0}};
    return forward(&call, table, old, none).code;
}

uint64_t hondivole_flow(uint8_t *table, size_t table_len, uint64_t edition, const uint8_t *flow, size_t flow_len, uint8_t *outcomes,
                        size_t outcomes_len, uint64_t *place, uint64_t *orders, uint64_t *accepted, uint64_t *cause, uint64_t *steps)
{
    struct call call = {.function = FLOW, .lengths = {table_len, flow_len, outcomes_len}, .numbers = {edition}};
    struct answer answer = forward(&call, table, flow, outcomes);
    *place = answer.results[0];
    *orders = answer.results[1];
    *accepted = answer.results[2];
    *cause = answer.results[3];
    *steps = answer.results[4];
    return answer.code;
}

uint64_t hondivole_execute(uint8_t *table, size_t table_len, const uint8_t *body, size_t body_len, uint64_t kind, uint64_t esercizio,
                           uint64_t number, uint64_t line, uint64_t year, uint64_t month, uint64_t day, uint64_t *cents)
{
    struct call call = {.function = EXECUTE,
                        .lengths = {table_len, body_len, 0},
                        .numbers = {kind, esercizio, number, line, year, month, day}};
    struct answer answer = forward(&call, table, body, none);
    *cents = answer.results[0];
    return answer.code;
}

uint64_t hondivole_reverse(uint8_t *table, size_t table_len, const uint8_t *body, size_t body_len, uint64_t kind, uint64_t esercizio,
                           uint64_t number, uint64_t line, uint64_t year, uint64_t month, uint64_t day, uint64_t *cents)
{
    struct call call = {.function = REVERSE,
                        .lengths = {table_len, body_len, 0},
                        .numbers = {kind, esercizio, number, line, year, month, day}};
    struct answer answer = forward(&call, table, body, none);
    *cents = answer.results[0];
    return answer.code;
}

uint64_t hondivole_totals(const uint8_t *table, size_t table_len, const uint8_t *body, size_t body_len, uint64_t *used, uint64_t *paid,
                          uint64_t *collected, int64_t *balance)
{
    struct call call = {.function = TOTALS, .lengths = {table_len, body_len, 0}};
    const uint8_t *lent[BUFFERS] = {table, body, none};
    struct answer answer = carry(&call, lent, none, none);
    *used = answer.results[0];
    *paid = answer.results[1];
    *collected = answer.results[2];
    *balance = (int64_t)answer.results[3];
    return answer.code;
}

/* Body and movements go as one input; the first number says where the body ends. */
uint64_t hondivole_journal(const uint8_t *table, size_t table_len, const uint8_t *body, size_t body_len, const uint8_t *movements,
                           size_t movements_len)
{
    struct call call = {.function = JOURNAL, .lengths = {table_len, body_len + movements_len, 0}, .numbers = {body_len}};
    uint8_t *both = malloc(body_len + movements_len + 1);
    if (both == NULL)
        abort();
    memcpy(both, body, body_len);
    memcpy(both + body_len, movements, movements_len);
    const uint8_t *lent[BUFFERS] = {table, both, none};
    struct answer answer = carry(&call, lent, none, none);
    free(both);
    return answer.code;
}

uint64_t hondivole_salvage(uint8_t *table, size_t table_len, uint8_t *report, size_t report_len, uint64_t *blanked)
{
    struct call call = {.function = SALVAGE, .lengths = {table_len, 0, report_len}};
    struct answer answer = forward(&call, table, none, report);
    *blanked = answer.results[0];
    return answer.code;
}

uint64_t hondivole_close(uint8_t *table, size_t table_len, const uint8_t *body, size_t body_len, uint64_t year, uint64_t *removed)
{
    struct call call = {.function = CLOSE, .lengths = {table_len, body_len, 0}, .numbers = {year}};
    struct answer answer = forward(&call, table, body, none);
    *removed = answer.results[0];
    return answer.code;
}

void hondivole_field_at(const uint8_t *flow, size_t flow_len, uint64_t place, uint64_t *name, uint64_t *name_len, uint64_t *text,
                        uint64_t *text_len)
{
    struct call call = {.function = FIELD_AT, .lengths = {0, flow_len, 0}, .numbers = {place}};
    struct answer answer = forward(&call, none, flow, none);
    *name = answer.results[0];
    *name_len = answer.results[1];
    *text = answer.results[2];
    *text_len = answer.results[3];
}

uint64_t hondivole_first_target_day(uint64_t year, uint64_t month, uint64_t day, uint64_t *first_year, uint64_t *first_month,
                                    uint64_t *first_day)
{
    struct call call = {.function = FIRST_TARGET_DAY, .numbers = {year, month, day}};
    struct answer answer = forward(&call, none, none, none);
    *first_year = answer.results[0];
    *first_month = answer.results[1];
    *first_day = answer.results[2];
    return answer.code;
}

uint64_t hondivole_days_between(uint64_t year, uint64_t month, uint64_t day, uint64_t to_year, uint64_t to_month, uint64_t to_day,
                                int64_t *days)
{
    struct call call = {.function = DAYS_BETWEEN, .numbers = {year, month, day, to_year, to_month, to_day}};
    struct answer answer = forward(&call, none, none, none);
    *days = (int64_t)answer.results[0];
    return answer.code;
}

uint64_t hondivole_message_write(uint64_t edition, const uint8_t *flow, size_t flow_len, const uint8_t *outcomes, size_t outcomes_len,
                                 const uint8_t *created, size_t created_len, const uint8_t *outcome, size_t outcome_len, const uint8_t *codice_ente,
                                 size_t codice_ente_len, const uint8_t *descrizione_ente, size_t descrizione_ente_len,
                                 const uint8_t *codice_istat_ente, size_t codice_istat_ente_len, const uint8_t *codice_fiscale_ente,
                                 size_t codice_fiscale_ente_len, const uint8_t *codice_tramite_ente, size_t codice_tramite_ente_len,
                                 const uint8_t *codice_tramite_BT, size_t codice_tramite_BT_len, const uint8_t *identificativo_flusso_BT,
                                 size_t identificativo_flusso_BT_len, uint8_t *written, size_t written_len, uint64_t *length)
{
    struct call call = {.function = MESSAGE_WRITE,
                        .lengths = {written_len, flow_len, outcomes_len, created_len, outcome_len, codice_ente_len, descrizione_ente_len,
                                    codice_istat_ente_len, codice_fiscale_ente_len, codice_tramite_ente_len, codice_tramite_BT_len,
                                    identificativo_flusso_BT_len},
                        .numbers = {edition}};
    const uint8_t *lent[BUFFERS] = {written, flow, outcomes, created, outcome, codice_ente, descrizione_ente, codice_istat_ente,
                                    codice_fiscale_ente, codice_tramite_ente, codice_tramite_BT, identificativo_flusso_BT};
    struct answer answer = carry(&call, lent, written, none);
    *length = answer.results[0];
    return answer.code;
}

uint64_t hondivole_message_read(uint64_t edition, const uint8_t *read, size_t read_len, uint8_t *values, size_t values_len, uint64_t *entries,
                                uint64_t *place, uint64_t *cause)
{
    struct call call = {.function = MESSAGE_READ, .lengths = {values_len, read_len, 0}, .numbers = {edition}};
    struct answer answer = forward(&call, values, read, none);
    *entries = answer.results[0];
    *place = answer.results[1];
    *cause = answer.results[2];
    return answer.code;
}

uint64_t hondivole_message_rewrite(uint64_t edition, const uint8_t *read, size_t read_len, uint8_t *again, size_t again_len,
                                   uint64_t *length)
{
    struct call call = {.function = MESSAGE_REWRITE, .lengths = {again_len, read_len, 0}, .numbers = {edition}};
    struct answer answer = forward(&call, again, read, none);
    *length = answer.results[0];
    return answer.code;
}
