/* SPDX-License-Identifier: EUPL-1.2 */

#include "flows.h"

#include <stdarg.h>
#include <stdio.h>
#include <string.h>

/* What an order is made of. */
struct order {
    const char *kind;  /* mandato or reversale */
    const char *party; /* beneficiario or versante */
    unsigned number;
    unsigned lines;
    int passed_over; /* with the elements of the standards that the desk doesn't read */
};

#define DECLARATION "<?xml version=\"1.0\" encoding=\"UTF-8\"?>"
#define FOUR(zone) \
    "<codice_ABI_BT>" BANK "</codice_ABI_BT><identificativo_flusso>A1</identificativo_flusso>" \
    "<data_ora_creazione_flusso>2021-03-01T09:30:00" zone "</data_ora_creazione_flusso><codice_ente_BT>" BODY "</codice_ente_BT>"

/* By edition. */
static const char *const HEADERS[] = {
    "",
    DECLARATION "<flusso_ordinativi>" FOUR("") "<esercizio>2021</esercizio>",
    DECLARATION "<flusso_ordinativi Id=\"F_1\"><testata_flusso>" FOUR("+01:00") "</testata_flusso><esercizio>2021</esercizio>",
};
static const char FOOTER[] = "</flusso_ordinativi>";

/* Names as they come: most are plain, one has a reference, one a letter of two bytes. */
static const char *const NAMES[] = {"Rossi", "Bianchi", "Verdi &amp; figli", "Nicol\xC3\xB2 Neri"};

const char *shape_name(enum shape shape)
{
    static const char *const names[SHAPES] = {"one order", "64 orders", "64 orders, edition 2", "most lines", "passed-over elements"};
    return names[shape];
}

/* Adds text to the flow; nothing at all where it doesn't fit any more (see put_order). */
static void put(struct flow *flow, const char *format, ...)
{
    size_t room = LONGEST_FLOW - flow->length;
    va_list values;
    va_start(values, format);
    int length = vsnprintf((char *)flow->bytes + flow->length, room, format, values);
    va_end(values);
    flow->length = (size_t)length < room ? flow->length + (unsigned)length : LONGEST_FLOW;
    for (const char *byte = format; *byte != 0; byte++)
        flow->elements += byte[0] == '<' && byte[1] == '/';
}

/* The cents of a line. */
static unsigned cents_of(const struct order *order, unsigned line)
{
    return 1000 + (order->number * 731 + line * 97) % 90000;
}

static void put_line(struct flow *flow, const struct order *order, unsigned line)
{
    const char *party = order->party;
    unsigned cents = cents_of(order, line);
    const char *name = NAMES[(order->number + line) % 4];

    put(flow, "<informazioni_%s><progressivo_%s>%u</progressivo_%s>", party, party, line, party);
    put(flow, "<importo_%s>%u.%02u</importo_%s>", party, cents / 100, cents % 100, party);
    if (order->passed_over) {
        put(flow, "<classificazione><codice_cge>%u</codice_cge><importo>%u.%02u</importo></classificazione>", 1200 + line, cents / 100,
            cents % 100);
        put(flow, "<classificazione><codice_cup>B%u</codice_cup><importo>0.00</importo></classificazione>", order->number);
        put(flow, "<bollo><assoggettamento_bollo>ESENTE</assoggettamento_bollo></bollo>");
    }
    put(flow, "<%s><anagrafica_%s>%s</anagrafica_%s>", party, party, name, party);
    if (order->passed_over)
        put(flow, "<indirizzo_%s>Via Roma %u</indirizzo_%s>", party, order->number, party);
    put(flow, "</%s></informazioni_%s>", party, party);
}

/* Adds an order; false, with the flow as it was, where it doesn't fit. */
static int put_order(struct flow *flow, const struct order *order)
{
    unsigned before = flow->length, elements_before = flow->elements, total = 0;
    const char *kind = order->kind;

    for (unsigned line = 1; line <= order->lines; line++)
        total += cents_of(order, line);
    put(flow, "<%s><tipo_operazione>INSERIMENTO</tipo_operazione><numero_%s>%u</numero_%s>", kind, kind, order->number, kind);
    put(flow, "<data_%s>2021-03-01</data_%s><importo_%s>%u.%02u</importo_%s>", kind, kind, kind, total / 100, total % 100, kind);
    if (order->passed_over) {
        put(flow, "<conto_evidenza>%07u</conto_evidenza>", 1 + order->number % 3);
        put(flow, "<estremi_provvedimento_autorizzativo>Determina %u</estremi_provvedimento_autorizzativo>", order->number);
    }
    for (unsigned line = 1; line <= order->lines; line++)
        put_line(flow, order, line);
    put(flow, "</%s>", kind);
    if (flow->length + strlen(FOOTER) >= LONGEST_FLOW) {
        flow->length = before;
        flow->elements = elements_before;
        return 0;
    }
    flow->orders++;
    flow->lines += order->lines;
    return 1;
}

static void begin(struct flow *flow, unsigned edition)
{
    memset(flow, 0, sizeof *flow);
    flow->edition = edition;
    put(flow, HEADERS[edition]);
}

/* Order number `index` of the table's life: mandati and reversali in turn, each with numbers of their own, as desks number them. */
static struct order order_at(unsigned index, unsigned lines)
{
    struct order order = {"mandato", "beneficiario", 1 + index / 2, lines, 0};
    if (index % 2 == 1) {
        order.kind = "reversale";
        order.party = "versante";
    }
    return order;
}

/* As many lines as there is room for: reversali, whose names are shorter, of eight lines, and at last one of fewer. */
static void put_most_lines(struct flow *flow)
{
    unsigned lines = 8;
    for (unsigned index = EARLIER_ORDERS + 1; lines > 0; index += 2) {
        struct order order = order_at(index, lines);
        while (order.lines > 0 && !put_order(flow, &order))
            order.lines--;
        lines = order.lines == lines ? lines : 0;
    }
}

void write_flow(struct flow *flow, enum shape shape)
{
    begin(flow, shape == EDITION_2 ? 2 : 1);
    if (shape == MOST_LINES) {
        put_most_lines(flow);
    } else {
        unsigned most = shape == ONE_ORDER ? 1 : 64;
        struct order order = order_at(EARLIER_ORDERS, 1);
        order.passed_over = shape == PASSED_OVER;
        while (flow->orders < most && put_order(flow, &order)) {
            order = order_at(EARLIER_ORDERS + flow->orders, 1);
            order.passed_over = shape == PASSED_OVER;
        }
    }
    put(flow, FOOTER);
}

int write_earlier_flow(struct flow *flow, unsigned index)
{
    enum { ORDERS = 16 };
    if (index >= EARLIER_ORDERS / ORDERS)
        return 0;
    begin(flow, 1);
    for (unsigned i = 0; i < ORDERS; i++) {
        struct order order = order_at(ORDERS * index + i, 1 + i % 3);
        put_order(flow, &order);
    }
    put(flow, FOOTER);
    return 1;
}
