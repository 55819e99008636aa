/* SPDX-License-Identifier: EUPL-1.2 */

/*
 * A year closed: a body of two slots is full with orders of 2020 and 2021. Its order of 2020 is paid, the year is closed, and the slot that
 * this frees takes an order of 2021. What can't be closed yet is said in words.
 *
 * At the top of the repository, after `./library`:
 *
 *     cc -std=c11 -Wall -Wextra -Iinclude examples/c/close.c target/staticlib/libhondivole.a -o target/close && target/close
 */

#include <inttypes.h>
#include <stdio.h>
#include <string.h>

#include "hondivole.h"

static const struct hondivole_body bodies[] = {{"000471", 2}};
static uint8_t table[HONDIVOLE_TABLE_BYTES(1, 2)];
static const uint8_t body[] = {'0', '0', '0', '4', '7', '1'};

/* Sends a mandato of one line, of 100.00, that is new in the year. */
static void send(unsigned year, unsigned number)
{
    char flow[1024];
    uint8_t outcome[16];
    uint64_t place, orders, accepted, cause, steps;
    int length = snprintf(flow, sizeof flow,
                          "<flusso_ordinativi><codice_ABI_BT>01234</codice_ABI_BT><identificativo_flusso>A1</identificativo_flusso>"
                          "<data_ora_creazione_flusso>2021-03-01T09:30:00</data_ora_creazione_flusso><codice_ente_BT>000471</codice_ente_BT>"
                          "<esercizio>%u</esercizio><mandato><tipo_operazione>INSERIMENTO</tipo_operazione>"
                          "<numero_mandato>%u</numero_mandato><data_mandato>2021-03-01</data_mandato>"
                          "<importo_mandato>100.00</importo_mandato><informazioni_beneficiario>"
                          "<progressivo_beneficiario>1</progressivo_beneficiario><importo_beneficiario>100.00</importo_beneficiario>"
                          "<beneficiario><anagrafica_beneficiario>Rossi</anagrafica_beneficiario></beneficiario>"
                          "</informazioni_beneficiario></mandato></flusso_ordinativi>",
                          year, number);
    uint64_t code = hondivole_flow(table, sizeof table, HONDIVOLE_EDITION_OIL, (const uint8_t *)flow, (size_t)length, outcome, sizeof outcome,
                                   &place, &orders, &accepted, &cause, &steps);
    if (code == HONDIVOLE_DONE)
        code = outcome[2];
    printf("mandato %u of %u: %" PRIu64 ", %s\n", number, year, code, hondivole_code_text(code));
}

static void execute(unsigned year, unsigned number)
{
    uint64_t cents;
    uint64_t code = hondivole_execute(table, sizeof table, body, sizeof body, HONDIVOLE_MANDATO, year, number, 1, 2021, 3, 3, &cents);
    printf("execute mandato %u of %u: %" PRIu64 ", %s\n", number, year, code, hondivole_code_text(code));
}

static void close_year(unsigned year)
{
    uint64_t removed;
    uint64_t code = hondivole_close(table, sizeof table, body, sizeof body, year, &removed);
    printf("close %u: %" PRIu64 ", %s; removed %" PRIu64 "\n", year, code, hondivole_code_text(code), removed);
}

static void print_totals(void)
{
    uint64_t used, paid, collected;
    int64_t balance;
    if (hondivole_totals(table, sizeof table, body, sizeof body, &used, &paid, &collected, &balance) == HONDIVOLE_DONE)
        printf("totals: used %" PRIu64 ", paid %" PRIu64 "; bytes 40 and 41 of the entry say %u\n", used, paid,
               (unsigned)table[16 + 40] << 8 | table[16 + 41]);
}

int main(void)
{
    uint8_t request[HONDIVOLE_REQUEST_BYTES(1)];
    if (hondivole_open(request, hondivole_request("01234", bodies, 1, request, sizeof request), table, sizeof table) != HONDIVOLE_DONE)
        return 1;
    send(2020, 1);
    send(2021, 1);
    send(2021, 2);
    print_totals();
    close_year(0);
    close_year(1999);
    close_year(2100);
    close_year(65536 + 2021);
    close_year(2021);
    close_year(2020);
    execute(2020, 1);
    print_totals();
    close_year(2020);
    print_totals();
    close_year(2020);
    send(2021, 2);
    send(2020, 2);
    execute(2020, 1);
    return 0;
}
