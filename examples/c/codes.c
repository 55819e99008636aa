/* SPDX-License-Identifier: EUPL-1.2 */

/*
 * Each code of opening, notices, totals and journals, and those of flows and orders that no flow alone can show (1, 8, 18): a script of calls on one
 * table, each printed with its code in words. (The flows of examples/ have the other codes of flows and orders, but for 23, which opi.c has, 24 and 26, which replacement.c has, and 36, which close.c has.)
 *
 * At the top of the repository, after `./library`:
 *
 *     cc -std=c11 -Wall -Wextra -Iinclude examples/c/codes.c target/staticlib/libhondivole.a -o target/codes && target/codes
 */

#include <inttypes.h>
#include <stdio.h>
#include <string.h>

#include "hondivole.h"

static uint8_t table[HONDIVOLE_TABLE_BYTES(1, 4)];

static void print(uint64_t code, const char *what)
{
    printf("%2" PRIu64 "  %s: %s\n", code, what, hondivole_code_text(code));
}

/* Sends a flow of one mandato with one line, lending so many outcome bytes, and prints the order's code, or the flow's where it is refused. */
static void order(const char *operation, unsigned number, size_t room, const char *what)
{
    char flow[2048];
    uint8_t outcomes[16];
    uint64_t place, orders, accepted, cause, steps;
    int length = snprintf(flow, sizeof flow,
                          "<flusso_ordinativi><codice_ABI_BT>01234</codice_ABI_BT><identificativo_flusso>A1</identificativo_flusso>"
                          "<data_ora_creazione_flusso>2021-03-01T09:30:00</data_ora_creazione_flusso>"
                          "<codice_ente_BT>000471</codice_ente_BT><esercizio>2021</esercizio>"
                          "<mandato><tipo_operazione>%s</tipo_operazione><numero_mandato>%u</numero_mandato>"
                          "<data_mandato>2021-03-01</data_mandato><importo_mandato>20.00</importo_mandato>"
                          "<informazioni_beneficiario><progressivo_beneficiario>1</progressivo_beneficiario>"
                          "<importo_beneficiario>20.00</importo_beneficiario>"
                          "<beneficiario><anagrafica_beneficiario>Rossi</anagrafica_beneficiario></beneficiario>"
                          "</informazioni_beneficiario></mandato></flusso_ordinativi>",
                          operation, number);
    uint64_t code = hondivole_flow(table, sizeof table, HONDIVOLE_EDITION_OIL, (const uint8_t *)flow, (size_t)length, outcomes, room, &place,
                                   &orders, &accepted, &cause, &steps);
    print(code == HONDIVOLE_DONE ? outcomes[2] : code, what);
}

static void execute(const char *body, uint64_t kind, uint64_t number, uint64_t line, const char *what)
{
    uint64_t cents;
    print(hondivole_execute(table, sizeof table, (const uint8_t *)body, strlen(body), kind, 2021, number, line, 2021, 3, 3, &cents), what);
}

static void execute_on(uint64_t month, uint64_t day, const char *what)
{
    uint64_t cents;
    print(hondivole_execute(table, sizeof table, (const uint8_t *)"000471", 6, HONDIVOLE_MANDATO, 2021, 1, 1, 2021, month, day, &cents), what);
}

static void reverse(uint64_t number, uint64_t line, const char *what)
{
    uint64_t cents;
    print(hondivole_reverse(table, sizeof table, (const uint8_t *)"000471", 6, HONDIVOLE_MANDATO, 2021, number, line, 2021, 3, 3, &cents), what);
}

static void totals(const char *body, const char *what)
{
    uint64_t used, paid, collected;
    int64_t balance;
    print(hondivole_totals(table, sizeof table, (const uint8_t *)body, strlen(body), &used, &paid, &collected, &balance), what);
}

/* A journal of the first bytes of two movements, both of one line of mandato 1. */
static void journal(uint8_t line, uint8_t cents, size_t length, const char *what)
{
    uint8_t movements[2 * HONDIVOLE_MOVEMENT_BYTES] = {0};
    for (size_t at = 0; at < sizeof movements; at += HONDIVOLE_MOVEMENT_BYTES) {
        movements[at] = HONDIVOLE_MANDATO;
        movements[at + 1] = line;
        movements[at + 2] = 2021 >> 8;
        movements[at + 3] = 2021 & 255;
        movements[at + 7] = 1;
        movements[at + 14] = 2000 >> 8;
        movements[at + 15] = cents;
    }
    print(hondivole_journal(table, sizeof table, (const uint8_t *)"000471", 6, movements, length), what);
}

int main(void)
{
    static const struct hondivole_body bodies[] = {{"000471", 4}};
    uint8_t request[HONDIVOLE_REQUEST_BYTES(1)];
    size_t length = hondivole_request("01234", bodies, 1, request, sizeof request);

    print(hondivole_open(request, length, table, sizeof table - 1), "open in a buffer one byte short");
    print(hondivole_open(request, length - 1, table, sizeof table), "open with a request one byte short");
    print(hondivole_open(request, length, table, sizeof table), "open for 000471 with four slots");

    order("INSERIMENTO", 1, 15, "INSERIMENTO of mandato 1, with 15 outcome bytes");
    order("INSERIMENTO", 1, 16, "INSERIMENTO of mandato 1, one line of 20.00");
    reverse(1, 1, "reverse its line before it is executed");
    execute("471", HONDIVOLE_MANDATO, 1, 1, "execute a line of body 471");
    execute("000471", HONDIVOLE_REVERSALE, 1, 1, "execute a line of reversale 1");
    execute("000471", HONDIVOLE_MANDATO, 1, 2, "execute line 2 of mandato 1");
    execute_on(2, 30, "execute line 1 on 30 February");
    execute_on(4, 2, "execute line 1 on Good Friday");
    execute("000471", HONDIVOLE_MANDATO, 1, 1, "execute line 1 of mandato 1");
    execute("000471", HONDIVOLE_MANDATO, 1, 1, "execute it again");
    journal(1, 2000 & 255, 16, "journal of line 1 of mandato 1");
    journal(1, 2000 & 255, 15, "journal of 15 bytes");
    journal(2, 2000 & 255, 16, "journal of line 2 of mandato 1");
    journal(1, 1999 & 255, 16, "journal of line 1 with a cent fewer");
    journal(1, 2000 & 255, 32, "journal of line 1 twice");
    journal(1, 2000 & 255, 0, "journal of nothing");
    order("ANNULLO", 1, 16, "ANNULLO of mandato 1, whose line is executed");
    order("VARIAZIONE", 1, 16, "VARIAZIONE of mandato 1, whose line is executed");
    reverse(1, 1, "reverse line 1 of mandato 1");
    order("ANNULLO", 1, 16, "ANNULLO of mandato 1");
    execute("000471", HONDIVOLE_MANDATO, 1, 1, "execute line 1 of mandato 1");
    totals("000471", "totals of 000471");
    totals("0471", "totals of 0471");
    table[0] = 1;
    order("INSERIMENTO", 2, 16, "INSERIMENTO of mandato 2, a byte of the table damaged");
    totals("000471", "totals of 000471 in that table");
    execute("000471", HONDIVOLE_MANDATO, 1, 1, "execute a line in that table");
    return 0;
}
