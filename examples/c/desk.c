/* SPDX-License-Identifier: EUPL-1.2 */

/*
 * A day at the desk: opens a table for bodies 000471 and 471, takes a flow of 000471, executes a line, reverses it, executes another,
 * and prints the totals of both bodies.
 *
 * At the top of the repository, after `./library`:
 *
 *     cc -std=c11 -Wall -Wextra -Iinclude examples/c/desk.c target/staticlib/libhondivole.a -o target/desk && target/desk
 */

#include <inttypes.h>
#include <stdio.h>
#include <string.h>

#include "hondivole.h"

/* Two bodies with four slots each. */
static uint8_t table[HONDIVOLE_TABLE_BYTES(2, 8)];

static const struct hondivole_body bodies[] = {{"000471", 4}, {"471", 4}};

static const char flow[] =
    "<flusso_ordinativi>"
    "<codice_ABI_BT>01234</codice_ABI_BT>"
    "<identificativo_flusso>A1</identificativo_flusso>"
    "<data_ora_creazione_flusso>2021-03-01T09:30:00</data_ora_creazione_flusso>"
    "<codice_ente_BT>000471</codice_ente_BT>"
    "<esercizio>2021</esercizio>"
    "<mandato>"
    "<tipo_operazione>INSERIMENTO</tipo_operazione>"
    "<numero_mandato>0012</numero_mandato>"
    "<data_mandato>2021-03-01</data_mandato>"
    "<importo_mandato>150.00</importo_mandato>"
    "<informazioni_beneficiario>"
    "<progressivo_beneficiario>1</progressivo_beneficiario>"
    "<importo_beneficiario>100.00</importo_beneficiario>"
    "<beneficiario><anagrafica_beneficiario>Rossi</anagrafica_beneficiario></beneficiario>"
    "</informazioni_beneficiario>"
    "<informazioni_beneficiario>"
    "<progressivo_beneficiario>2</progressivo_beneficiario>"
    "<importo_beneficiario>50.00</importo_beneficiario>"
    "<beneficiario><anagrafica_beneficiario>Bianchi</anagrafica_beneficiario></beneficiario>"
    "</informazioni_beneficiario>"
    "</mandato>"
    "<reversale>"
    "<tipo_operazione>INSERIMENTO</tipo_operazione>"
    "<numero_reversale>12</numero_reversale>"
    "<data_reversale>2021-03-01</data_reversale>"
    "<importo_reversale>20.00</importo_reversale>"
    "<informazioni_versante>"
    "<progressivo_versante>1</progressivo_versante>"
    "<importo_versante>20.01</importo_versante>"
    "<versante><anagrafica_versante>Verdi</anagrafica_versante></versante>"
    "</informazioni_versante>"
    "</reversale>"
    "</flusso_ordinativi>";

/* The number that so many outcome bytes write, the highest byte first. */
static uint64_t number_at(const uint8_t *bytes, size_t count)
{
    uint64_t value = 0;
    for (size_t i = 0; i < count; i++)
        value = value << 8 | bytes[i];
    return value;
}

static void print_totals(const char *body)
{
    uint64_t used, paid, collected;
    int64_t balance;
    uint64_t code = hondivole_totals(table, sizeof table, (const uint8_t *)body, strlen(body), &used, &paid, &collected, &balance);
    printf("totals of %s: code %" PRIu64 ", used %" PRIu64 ", paid %" PRIu64 ", collected %" PRIu64 ", balance %" PRId64 "\n", body, code,
           used, paid, collected, balance);
}

int main(void)
{
    static const uint8_t body[] = {'0', '0', '0', '4', '7', '1'};
    uint8_t request[HONDIVOLE_REQUEST_BYTES(2)], outcomes[HONDIVOLE_MOST_OUTCOME_BYTES];
    uint64_t place, orders, accepted, cause, steps, cents;

    size_t length = hondivole_request("01234", bodies, 2, request, sizeof request);
    uint64_t code = hondivole_open(request, length, table, sizeof table);
    printf("open: code %" PRIu64 "\n", code);
    if (code != HONDIVOLE_DONE)
        return 1;

    /* A string literal ends with a zero that is no part of the flow. */
    code = hondivole_flow(table, sizeof table, HONDIVOLE_EDITION_OIL, (const uint8_t *)flow, sizeof flow - 1, outcomes, sizeof outcomes, &place, &orders,
                          &accepted, &cause, &steps);
    printf("flow: code %" PRIu64 ", place %" PRIu64 ", orders %" PRIu64 ", accepted %" PRIu64 ", steps %" PRIu64 "\n", code, place, orders, accepted,
           steps);
    for (uint64_t i = 0; i < orders; i++) {
        const uint8_t *outcome = outcomes + 16 * i;
        printf("  order: kind %d, operation %d, number %" PRIu64 ", lines %d, total %" PRIu64 ", code %d\n", outcome[0], outcome[1],
               number_at(outcome + 4, 4), outcome[3], number_at(outcome + 8, 8), outcome[2]);
    }

    code = hondivole_execute(table, sizeof table, body, sizeof body, HONDIVOLE_MANDATO, 2021, 12, 1, 2021, 3, 3, &cents);
    printf("execute line 1: code %" PRIu64 ", cents %" PRIu64 "\n", code, cents);
    code = hondivole_reverse(table, sizeof table, body, sizeof body, HONDIVOLE_MANDATO, 2021, 12, 1, 2021, 3, 3, &cents);
    printf("reverse line 1: code %" PRIu64 ", cents %" PRIu64 "\n", code, cents);
    code = hondivole_execute(table, sizeof table, body, sizeof body, HONDIVOLE_MANDATO, 2021, 12, 2, 2021, 3, 3, &cents);
    printf("execute line 2: code %" PRIu64 ", cents %" PRIu64 "\n", code, cents);

    print_totals("000471");
    print_totals("471");
    return 0;
}
