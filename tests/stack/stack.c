/* SPDX-License-Identifier: EUPL-1.2 */

/*
 * A program for x86-64: each call of hondivole.h is made on a stack of exactly as many bytes as the header states for it, above pages that
 * may not be touched, so that a call which needs more ends the program. Before that it is made on a large stack, and what it needs is
 * measured and printed. Under the kit's emulator the stack is the same, since the code is.
 */

#include "hondivole.h"

/* The kit has the C library without its headers. */
long write(int file, const void *bytes, size_t length);
void *mmap(void *address, size_t length, int protection, int flags, int file, long offset);
int mprotect(void *address, size_t length, int protection);
void *memcpy(void *to, const void *from, size_t length);
void *memset(void *bytes, int value, size_t length);
size_t strlen(const char *text);

enum { NO_ACCESS = 0, READ_AND_WRITE = 3, PRIVATE_AND_ANONYMOUS = 0x22 };

#define PAGES 65536u
#define LARGE 1048576u
#define PAINT 0xA5

static uint8_t *stack; /* its lowest byte; below it lie pages that may not be touched */
static uint8_t table[HONDIVOLE_MOST_TABLE_BYTES], old[HONDIVOLE_MOST_TABLE_BYTES], outcomes[HONDIVOLE_MOST_OUTCOME_BYTES];
static uint8_t flow[HONDIVOLE_MOST_FLOW_BYTES + 1];
static size_t flow_len;
static uint8_t message[HONDIVOLE_MOST_MESSAGE_BYTES], again[HONDIVOLE_MOST_MESSAGE_BYTES], values[HONDIVOLE_MOST_VALUES_BYTES];
static uint8_t report[HONDIVOLE_MOST_REPORT_BYTES];
static uint64_t code, results[5], message_len;
static int64_t balance;
static uint8_t request[HONDIVOLE_REQUEST_BYTES(16)];
static size_t request_len, table_len, old_len;
static const uint8_t body[] = {'0', '0', '0', '4', '7', '1'};

static void say(const char *text)
{
    (void)!write(1, text, strlen(text));
}

static void say_number(uint64_t number)
{
    char text[21];
    int at = 20;
    text[at] = 0;
    do
        text[--at] = (char)('0' + number % 10);
    while ((number /= 10) != 0);
    say(text + at);
}

static void add(const char *text)
{
    size_t length = strlen(text);
    if (flow_len + length <= sizeof flow) {
        memcpy(flow + flow_len, text, length);
        flow_len += length;
    }
}

static void header(void)
{
    flow_len = 0;
    add("<flusso_ordinativi><codice_ABI_BT>01234</codice_ABI_BT><identificativo_flusso>A1</identificativo_flusso>"
        "<data_ora_creazione_flusso>2021-03-01T09:30:00</data_ora_creazione_flusso><codice_ente_BT>000471</codice_ente_BT>"
        "<esercizio>2021</esercizio>");
}

static void order(const char *number, int lines)
{
    add("<mandato><tipo_operazione>INSERIMENTO</tipo_operazione><numero_mandato>");
    add(number);
    add("</numero_mandato><data_mandato>2021-03-01</data_mandato><importo_mandato>0.00</importo_mandato>");
    for (int line = 1; line <= lines; line++) {
        const char progressivo[] = {(char)('0' + line), 0};
        add("<informazioni_beneficiario><progressivo_beneficiario>");
        add(progressivo);
        add("</progressivo_beneficiario><importo_beneficiario>0.00</importo_beneficiario><beneficiario>"
            "<anagrafica_beneficiario>A</anagrafica_beneficiario></beneficiario></informazioni_beneficiario>");
    }
    add("</mandato>");
}

/* Elements that the desk passes over, down to the greatest depth. */
static void deep(void)
{
    for (int level = 2; level <= 12; level++)
        add("<a>");
    for (int level = 2; level <= 12; level++)
        add("</a>");
}

/* The flows that go furthest: many orders, many lines, the greatest depth, the greatest length, and one that breaks at its last field. */
static void many_orders(void)
{
    header();
    for (int i = 0; i < 64; i++) {
        const char number[] = {(char)('1' + i / 10), (char)('0' + i % 10), 0};
        order(number, 1);
    }
    deep();
    add("</flusso_ordinativi>");
    while (flow_len < HONDIVOLE_MOST_FLOW_BYTES)
        flow[flow_len++] = ' ';
}

static void many_lines(void)
{
    header();
    deep();
    for (int i = 0; i < 12; i++) {
        const char number[] = {'9', (char)('0' + i / 10), (char)('0' + i % 10), 0};
        order(number, 8);
    }
    add("</flusso_ordinativi>");
}

/* An order whose operation stands after elements so many levels deep: they are read once before it is known which rows it has. */
static void late_operation(int levels)
{
    header();
    add("<mandato>");
    for (int level = 0; level < levels; level++)
        add("<a>");
    for (int level = 0; level < levels; level++)
        add("</a>");
    add("<tipo_operazione>INSERIMENTO</tipo_operazione><numero_mandato>8000</numero_mandato><data_mandato>2021-03-01</data_mandato>"
        "<importo_mandato>0.00</importo_mandato><informazioni_beneficiario><progressivo_beneficiario>1</progressivo_beneficiario>"
        "<importo_beneficiario>0.00</importo_beneficiario><beneficiario><anagrafica_beneficiario>A</anagrafica_beneficiario></beneficiario>"
        "</informazioni_beneficiario></mandato></flusso_ordinativi>");
    while (flow_len < HONDIVOLE_MOST_FLOW_BYTES)
        flow[flow_len++] = ' ';
}

/* Replaces line 1 of mandato 10, which is executed by then. */
static void replacement(void)
{
    header();
    add("<mandato><tipo_operazione>SOSTITUZIONE</tipo_operazione><numero_mandato>999</numero_mandato><data_mandato>2021-03-01</data_mandato>"
        "<importo_mandato>0.00</importo_mandato><informazioni_beneficiario><progressivo_beneficiario>1</progressivo_beneficiario>"
        "<importo_beneficiario>0.00</importo_beneficiario><beneficiario><anagrafica_beneficiario>A</anagrafica_beneficiario></beneficiario>"
        "<sostituzione_mandato><numero_mandato_da_sostituire>10</numero_mandato_da_sostituire>"
        "<progressivo_beneficiario_da_sostituire>1</progressivo_beneficiario_da_sostituire>"
        "<esercizio_mandato_da_sostituire>2021</esercizio_mandato_da_sostituire></sostituzione_mandato>"
        "</informazioni_beneficiario></mandato></flusso_ordinativi>");
}

static void late_field(void)
{
    many_lines();
    for (size_t i = flow_len - 1; i > 0; i--)
        if (flow[i] == '0' && flow[i - 1] == '0' && flow[i - 2] == '.') {
            flow[i] = 'x';
            break;
        }
}

static void call_open(void) { code = hondivole_open(request, request_len, table, table_len); }
static void call_convert(void) { code = hondivole_convert(old, old_len, table, table_len); }
static void call_flow(void)
{
    code = hondivole_flow(table, table_len, HONDIVOLE_EDITION_OIL, flow, flow_len, outcomes, sizeof outcomes, &results[0], &results[1], &results[2],
                          &results[3], &results[4]);
}
static void call_execute(void)
{
    code = hondivole_execute(table, table_len, body, sizeof body, HONDIVOLE_MANDATO, 2021, 10, 1, 2021, 3, 3, &results[0]);
}
static void call_reverse(void)
{
    code = hondivole_reverse(table, table_len, body, sizeof body, HONDIVOLE_MANDATO, 2021, 10, 1, 2021, 3, 3, &results[0]);
}
static void call_totals(void)
{
    code = hondivole_totals(table, table_len, body, sizeof body, &results[0], &results[1], &results[2], &balance);
}
static void call_journal(void)
{
    code = hondivole_journal(table, table_len, body, sizeof body, table, 0);
}
static void call_salvage(void) { code = hondivole_salvage(table, table_len, report, sizeof report, &results[0]); }
static uint64_t close_year = 2021;
static void call_close(void) { code = hondivole_close(table, table_len, body, sizeof body, close_year, &results[0]); }
static void call_field_at(void)
{
    hondivole_field_at(flow, flow_len, 0, &results[0], &results[1], &results[2], &results[3]);
    code = results[1] == 0;
}


/* The caller's texts are as long as they may be, and the message has all its entries refused. */
static void call_message_write(void)
{
    static const uint8_t time[] = "2021-03-01T09:30:30+01:00";
    static uint8_t text[140];
    size_t time_len = sizeof time - 1, text_len = sizeof text;
    memset(text, 'x', sizeof text);
    code = hondivole_message_write(1, flow, flow_len, outcomes, sizeof outcomes, time, time_len, time, time_len, text, text_len, text, text_len,
                                   text, text_len, text, text_len, text, text_len, text, text_len, text, text_len, message, sizeof message,
                                   &message_len);
}
static void call_message_read(void)
{
    code = hondivole_message_read(1, message, message_len, values, sizeof values, &results[0], &results[1], &results[2]);
}
static void call_message_rewrite(void)
{
    code = hondivole_message_rewrite(1, message, message_len, again, sizeof again, &results[0]);
}

/* The message brought to the greatest length, and in it elements that are passed over down to the greatest depth. */
static void long_message(void)
{
    static const char root[] = "<messaggi_esito_applicativo>";
    size_t at = sizeof root - 1, deep_len;
    flow_len = 0;
    deep();
    deep_len = flow_len;
    for (size_t i = message_len; i > at; i--)
        message[i - 1 + deep_len] = message[i - 1];
    memcpy(message + at, flow, deep_len);
    message_len += deep_len;
    while (message_len < HONDIVOLE_MOST_MESSAGE_BYTES)
        message[message_len++] = ' ';
}

/* The table of two bodies as a table 1: entries of 32 bytes, the places that go with them, and the number 1. */
static void make_old(void)
{
    old_len = table_len - 32;
    memcpy(old, table, 16);
    memcpy(old + 80, table + 112, table_len - 112);
    old[3] = 1;
    old[6] = (uint8_t)(old_len >> 8);
    old[7] = (uint8_t)old_len;
    for (int i = 0; i < 2; i++) {
        uint8_t *entry = old + 16 + 32 * i;
        memcpy(entry, table + 16 + 48 * i, 24);
        size_t place = (size_t)entry[22] * 256 + entry[23] - 32;
        entry[22] = (uint8_t)(place >> 8);
        entry[23] = (uint8_t)place;
    }
}

static void on(uint8_t *top, void (*call)(void))
{
    __asm__ volatile("movq %%rsp, %%rbx\n\tmovq %0, %%rsp\n\tcallq *%1\n\tmovq %%rbx, %%rsp"
                     :
                     : "r"(top), "r"(call)
                     : "rbx", "rax", "rcx", "rdx", "rsi", "rdi", "r8", "r9", "r10", "r11", "xmm0", "xmm1",
                       "xmm2", "xmm3", "xmm4", "xmm5", "xmm6", "xmm7", "xmm8", "xmm9", "xmm10", "xmm11", "xmm12", "xmm13", "xmm14",
                       "xmm15", "memory", "cc");
}

static int wrong;

/* Makes a call twice, from the same table, and holds both answers to the code that is due. */
static void hold(const char *name, void (*call)(void), uint64_t due, size_t stated)
{
    static uint8_t before[sizeof table];
    size_t untouched = 0;
    memcpy(before, table, sizeof table);
    memset(stack, PAINT, LARGE);
    on(stack + LARGE, call);
    while (untouched < LARGE && stack[untouched] == PAINT)
        untouched++;
    say(name);
    say(": needs ");
    say_number(LARGE - untouched);
    say(" bytes, the header states ");
    say_number(stated);
    say("\n");
    int right = code == due;

    memcpy(table, before, sizeof table);
    on(stack + stated, call);
    if (!right || code != due) {
        say("  answered ");
        say_number(code);
        say("\n");
        wrong = 1;
    }
}

int main(void)
{
    static const struct hondivole_body bodies[] = {{"000471", 300}, {"471", 300}};
    uint8_t *all = mmap(NULL, PAGES + LARGE, NO_ACCESS, PRIVATE_AND_ANONYMOUS, -1, 0);
    if (all == (void *)-1 || mprotect(all + PAGES, LARGE, READ_AND_WRITE) != 0)
        return 2;
    stack = all + PAGES;
    request_len = hondivole_request("01234", bodies, 2, request, sizeof request);
    table_len = hondivole_table_bytes(bodies, 2);

    hold("open", call_open, 0, HONDIVOLE_OPEN_STACK);
    flow_len = 0;
    hold("flow, empty", call_flow, 3, HONDIVOLE_FLOW_STACK);
    late_field();
    hold("flow, its last field breaks", call_flow, 5, HONDIVOLE_FLOW_STACK);
    hold("field_at", call_field_at, 0, HONDIVOLE_FIELD_AT_STACK);
    late_operation(10);
    hold("flow, twelve levels before an operation", call_flow, 0, HONDIVOLE_FLOW_STACK);
    late_operation(100);
    hold("flow, too many of them", call_flow, 3, HONDIVOLE_FLOW_STACK);
    hold("message_write, the same flow", call_message_write, 3, HONDIVOLE_MESSAGE_WRITE_STACK);
    many_lines();
    hold("flow, 12 orders of 8 lines", call_flow, 0, HONDIVOLE_FLOW_STACK);
    many_orders();
    hold("flow, 64 orders", call_flow, 0, HONDIVOLE_FLOW_STACK);
    hold("flow, the same again", call_flow, 0, HONDIVOLE_FLOW_STACK);
    hold("field_at", call_field_at, 0, HONDIVOLE_FIELD_AT_STACK);
    hold("message_write, 64 entries", call_message_write, 0, HONDIVOLE_MESSAGE_WRITE_STACK);
    hold("message_read, 64 entries", call_message_read, 0, HONDIVOLE_MESSAGE_READ_STACK);
    hold("message_rewrite, 64 entries", call_message_rewrite, 0, HONDIVOLE_MESSAGE_REWRITE_STACK);
    long_message();
    hold("message_read, 65,536 bytes", call_message_read, 0, HONDIVOLE_MESSAGE_READ_STACK);
    hold("message_rewrite, 65,536 bytes", call_message_rewrite, 0, HONDIVOLE_MESSAGE_REWRITE_STACK);
    message[message_len - 1] = '<';
    hold("message_read, its last byte breaks", call_message_read, 3, HONDIVOLE_MESSAGE_READ_STACK);
    hold("execute", call_execute, 0, HONDIVOLE_NOTICE_STACK);
    hold("reverse", call_reverse, 0, HONDIVOLE_NOTICE_STACK);
    hold("totals", call_totals, 0, HONDIVOLE_TOTALS_STACK);
    hold("journal", call_journal, 0, HONDIVOLE_JOURNAL_STACK);
    make_old();
    hold("convert", call_convert, 0, HONDIVOLE_CONVERT_STACK);
    hold("totals of the converted table", call_totals, 0, HONDIVOLE_TOTALS_STACK);
    hold("execute, once more", call_execute, 0, HONDIVOLE_NOTICE_STACK);
    replacement();
    hold("flow, a replacement", call_flow, 0, HONDIVOLE_FLOW_STACK);
    if (outcomes[2] != 0)
        wrong = 1;
    /* Two bodies' entries end at 112: the first slot's third byte, and a byte of the last slot, which is empty. */
    table[112 + 3] = 1;
    table[table_len - 1] = 1;
    hold("salvage of two slots", call_salvage, 0, HONDIVOLE_SALVAGE_STACK);
    hold("salvage of a valid table", call_salvage, 0, HONDIVOLE_SALVAGE_STACK);
    hold("totals of the repaired table", call_totals, 0, HONDIVOLE_TOTALS_STACK);
    hold("close of a year that waits", call_close, 39, HONDIVOLE_CLOSE_STACK);
    /* Every order of the first body annulled, its state being byte 1 of its slot, its line states bytes 24 to 31; all amounts are 0. */
    for (size_t at = 112; at < 112 + 96 * 300 && table[at] != 0; at += 96) {
        table[at + 1] = 2;
        for (size_t line = 0; line < table[at + 2]; line++)
            table[at + 24 + line] = 1;
    }
    close_year = 2020;
    hold("close of a year without orders", call_close, 0, HONDIVOLE_CLOSE_STACK);
    close_year = 2021;
    hold("close of a year", call_close, 0, HONDIVOLE_CLOSE_STACK);
    if (results[0] == 0)
        wrong = 1;
    hold("close once more", call_close, 36, HONDIVOLE_CLOSE_STACK);
    hold("flow of a closed year", call_flow, 36, HONDIVOLE_FLOW_STACK);
    hold("totals of what is left", call_totals, 0, HONDIVOLE_TOTALS_STACK);
    table[3] = 1;
    hold("salvage of a damaged head", call_salvage, 34, HONDIVOLE_SALVAGE_STACK);
    say(wrong ? "a call answered otherwise\n" : "each call is made on the stack that the header states\n");
    return wrong;
}
