/* SPDX-License-Identifier: EUPL-1.2 */

/*
 * What a team would build from parts: libxml2's SAX reader, and SQLite in memory with prepared statements and one transaction to a flow.
 * It gathers each field's text, converts it, looks the order up and inserts it with its lines. It checks of the fields what conversion
 * needs, of an order its line numbers and its sum, and nothing of the tables.
 *
 * The quickest of the ways that libxml2 offers is taken: one parser context for all flows, whose dictionary keeps the names, so that
 * names are compared as pointers; and handlers of the older interface, which spare it the name spaces.
 */

#include <libxml/parser.h>
#include <sqlite3.h>
#include <stdint.h>
#include <string.h>

#include "engine.h"

static const char SCHEMA[] =
    "CREATE TABLE body(id INTEGER PRIMARY KEY, code TEXT NOT NULL UNIQUE, slots INTEGER NOT NULL);"
    "CREATE TABLE orders(id INTEGER PRIMARY KEY, body INTEGER NOT NULL REFERENCES body, kind INTEGER NOT NULL,"
    " esercizio INTEGER NOT NULL, number INTEGER NOT NULL, state INTEGER NOT NULL, date TEXT NOT NULL, total INTEGER NOT NULL,"
    " UNIQUE(body, kind, esercizio, number));"
    "CREATE TABLE lines(order_id INTEGER NOT NULL REFERENCES orders, position INTEGER NOT NULL, state INTEGER NOT NULL,"
    " amount INTEGER NOT NULL, PRIMARY KEY(order_id, position)) WITHOUT ROWID;"
    "INSERT INTO body(code, slots) VALUES('" BODY "', 512);";

enum { BEGIN, COMMIT, ROLLBACK, FIND_BODY, FIND_ORDER, ADD_ORDER, ADD_LINE, DROP_LINES, DROP_ORDERS, STATEMENTS };

static const char *const SQL[STATEMENTS] = {
    "BEGIN",
    "COMMIT",
    "ROLLBACK",
    "SELECT id FROM body WHERE code = ?1",
    "SELECT id FROM orders WHERE body = ?1 AND kind = ?2 AND esercizio = ?3 AND number = ?4",
    "INSERT INTO orders(body, kind, esercizio, number, state, date, total) VALUES(?1, ?2, ?3, ?4, 1, ?5, ?6)",
    "INSERT INTO lines(order_id, position, state, amount) VALUES(?1, ?2, 1, ?3)",
    "DELETE FROM lines WHERE order_id > ?1",
    "DELETE FROM orders WHERE id > ?1",
};

static sqlite3 *database;
static sqlite3_stmt *statements[STATEMENTS];
static sqlite3_int64 kept; /* the last order that restore keeps */

/* Runs a bound statement that gives no row. */
static int run(int statement)
{
    int result = sqlite3_step(statements[statement]);
    sqlite3_reset(statements[statement]);
    return result == SQLITE_DONE;
}

/* The number that a bound statement finds; -1 where it finds none. */
static sqlite3_int64 find(int statement)
{
    sqlite3_int64 found = -1;
    if (sqlite3_step(statements[statement]) == SQLITE_ROW)
        found = sqlite3_column_int64(statements[statement], 0);
    sqlite3_reset(statements[statement]);
    return found;
}

/* ---- what a flow's elements are ---- */

enum level { OUTSIDE, ROOT, ORDER, LINE, PARTY };

enum field {
    NO_FIELD, BANK_CODE, IDENTIFIER, CREATED, BODY_CODE, ESERCIZIO, OPERATION, NUMBER, DATE, TOTAL, POSITION, AMOUNT, PARTY_NAME
};

/* An element that is read: the level it stands at, and either its field or, with no field, the level that it opens. */
static struct element {
    const char *name;
    enum level at;
    enum field field;
    int kind;              /* of an order */
    const xmlChar *pooled; /* the name in the parser's dictionary */
} elements[] = {
    {"flusso_ordinativi", OUTSIDE, NO_FIELD, 0, NULL},
    {"testata_flusso", ROOT, NO_FIELD, 0, NULL}, /* edition 2's: it opens no level, its fields are read as the root's */
    {"codice_ABI_BT", ROOT, BANK_CODE, 0, NULL},
    {"identificativo_flusso", ROOT, IDENTIFIER, 0, NULL},
    {"data_ora_creazione_flusso", ROOT, CREATED, 0, NULL},
    {"codice_ente_BT", ROOT, BODY_CODE, 0, NULL},
    {"esercizio", ROOT, ESERCIZIO, 0, NULL},
    {"mandato", ROOT, NO_FIELD, 1, NULL},
    {"reversale", ROOT, NO_FIELD, 2, NULL},
    {"tipo_operazione", ORDER, OPERATION, 0, NULL},
    {"numero_mandato", ORDER, NUMBER, 0, NULL},
    {"numero_reversale", ORDER, NUMBER, 0, NULL},
    {"data_mandato", ORDER, DATE, 0, NULL},
    {"data_reversale", ORDER, DATE, 0, NULL},
    {"importo_mandato", ORDER, TOTAL, 0, NULL},
    {"importo_reversale", ORDER, TOTAL, 0, NULL},
    {"informazioni_beneficiario", ORDER, NO_FIELD, 0, NULL},
    {"informazioni_versante", ORDER, NO_FIELD, 0, NULL},
    {"progressivo_beneficiario", LINE, POSITION, 0, NULL},
    {"progressivo_versante", LINE, POSITION, 0, NULL},
    {"importo_beneficiario", LINE, AMOUNT, 0, NULL},
    {"importo_versante", LINE, AMOUNT, 0, NULL},
    {"beneficiario", LINE, NO_FIELD, 0, NULL},
    {"versante", LINE, NO_FIELD, 0, NULL},
    {"anagrafica_beneficiario", PARTY, PARTY_NAME, 0, NULL},
    {"anagrafica_versante", PARTY, PARTY_NAME, 0, NULL},
};
enum { ELEMENTS = sizeof elements / sizeof elements[0] };

/* The places of each level's elements in the list above. */
static const unsigned LEVELS[] = {0, 1, 9, 18, 24, ELEMENTS};
enum { TESTATA = 1 };

/* ---- a flow that is being read ---- */

enum { MOST_LINES_OF_ORDER = 8 };

static struct reading {
    enum level level;
    enum field field;
    unsigned passed_over; /* how deep in elements that aren't read */
    int broken;
    unsigned accepted;
    char text[1024]; /* of the field; longer than any may be */
    unsigned length;
    sqlite3_int64 body, esercizio;
    int kind, inserts;
    int64_t number, total;
    char date[10];
    unsigned lines; /* whole ones so far; the one that is being read stands after them */
    int64_t positions[MOST_LINES_OF_ORDER + 1], amounts[MOST_LINES_OF_ORDER + 1];
} reading;

static xmlParserCtxtPtr parser;

/* A number of decimal digits; a text that is none breaks the flow. */
static int64_t number_of(const char *text, unsigned length)
{
    int64_t number = 0;
    reading.broken |= length == 0 || length > 9;
    for (unsigned i = 0; i < length && i < 9; i++) {
        reading.broken |= text[i] < '0' || text[i] > '9';
        number = 10 * number + (text[i] - '0');
    }
    return number;
}

/* An amount with two decimals, in cents. */
static int64_t cents_of(const char *text, unsigned length)
{
    if (length < 4 || text[length - 3] != '.') {
        reading.broken = 1;
        return 0;
    }
    return 100 * number_of(text, length - 3) + number_of(text + length - 2, 2);
}

/* A date is kept as text, as SQLite keeps dates; its form is looked at. */
static void read_date(const char *text, unsigned length)
{
    if (length != 10 || text[4] != '-' || text[7] != '-') {
        reading.broken = 1;
        return;
    }
    number_of(text, 4);
    reading.broken |= (uint64_t)number_of(text + 5, 2) - 1 > 11 || (uint64_t)number_of(text + 8, 2) - 1 > 30;
    memcpy(reading.date, text, 10);
}

static void read_body(const char *text, unsigned length)
{
    reading.broken |= length < 1 || length > 16;
    sqlite3_bind_text(statements[FIND_BODY], 1, text, (int)length, SQLITE_STATIC);
    reading.body = find(FIND_BODY);
    reading.broken |= reading.body < 0;
}

static int is(const char *text)
{
    return reading.length == strlen(text) && memcmp(reading.text, text, reading.length) == 0;
}

/* How many characters a text in UTF-8 has. */
static unsigned characters_of(const char *text, unsigned length)
{
    unsigned count = 0;
    for (unsigned i = 0; i < length; i++)
        count += ((unsigned char)text[i] & 0xC0) != 0x80;
    return count;
}

/* The end of a field: its text is whole. */
static void read_field(enum field field)
{
    const char *text = reading.text;
    unsigned length = reading.length;
    switch (field) {
    case BANK_CODE: reading.broken |= !is(BANK); break;
    case IDENTIFIER: reading.broken |= length < 1 || length > 35; break;
    case CREATED: reading.broken |= length != 19 && length != 25; break;
    case BODY_CODE: read_body(text, length); break;
    case ESERCIZIO: reading.esercizio = number_of(text, length); break;
    case OPERATION: reading.inserts = is("INSERIMENTO"); break;
    case NUMBER: reading.number = number_of(text, length); break;
    case DATE: read_date(text, length); break;
    case TOTAL: reading.total = cents_of(text, length); break;
    case POSITION: reading.positions[reading.lines] = number_of(text, length); break;
    case AMOUNT: reading.amounts[reading.lines] = cents_of(text, length); break;
    case PARTY_NAME: reading.broken |= length < 1 || characters_of(text, length) > 140; break;
    case NO_FIELD: break;
    }
}

static void end_line(void)
{
    if (reading.lines == MOST_LINES_OF_ORDER)
        reading.broken = 1;
    else
        reading.lines++;
}

/* Whether lines are numbered 1, 2, 3 and so on and their amounts sum to the total. */
static int lines_stand(void)
{
    int64_t sum = 0;
    int numbered = 1;
    for (unsigned i = 0; i < reading.lines; i++) {
        numbered &= reading.positions[i] == i + 1;
        sum += reading.amounts[i];
    }
    return numbered && sum == reading.total;
}

static void bind_key(int statement)
{
    sqlite3_bind_int64(statements[statement], 1, reading.body);
    sqlite3_bind_int(statements[statement], 2, reading.kind);
    sqlite3_bind_int64(statements[statement], 3, reading.esercizio);
    sqlite3_bind_int64(statements[statement], 4, reading.number);
}

/* The end of an order: it is looked up and, where it is new, inserted with its lines. */
static void serve_order(void)
{
    if (!reading.inserts || !lines_stand())
        return;
    bind_key(FIND_ORDER);
    if (find(FIND_ORDER) >= 0)
        return;
    bind_key(ADD_ORDER);
    sqlite3_bind_text(statements[ADD_ORDER], 5, reading.date, 10, SQLITE_STATIC);
    sqlite3_bind_int64(statements[ADD_ORDER], 6, reading.total);
    int done = run(ADD_ORDER);
    sqlite3_int64 order = sqlite3_last_insert_rowid(database);
    for (unsigned i = 0; i < reading.lines; i++) {
        sqlite3_bind_int64(statements[ADD_LINE], 1, order);
        sqlite3_bind_int(statements[ADD_LINE], 2, (int)i + 1);
        sqlite3_bind_int64(statements[ADD_LINE], 3, reading.amounts[i]);
        done &= run(ADD_LINE);
    }
    reading.broken |= !done;
    reading.accepted += (unsigned)done;
}

/* ---- libxml2's calls ---- */

static void on_start(void *context, const xmlChar *name, const xmlChar **attributes)
{
    (void)context;
    (void)attributes;
    if (reading.passed_over > 0 || reading.field != NO_FIELD) {
        reading.passed_over++;
        return;
    }
    for (unsigned i = LEVELS[reading.level]; i < LEVELS[reading.level + 1]; i++) {
        if (elements[i].pooled != name)
            continue;
        if (i == TESTATA)
            return;
        reading.field = elements[i].field;
        reading.length = 0;
        if (reading.field == NO_FIELD)
            reading.level++;
        if (elements[i].kind != 0) {
            reading.kind = elements[i].kind;
            reading.lines = 0;
        }
        return;
    }
    reading.passed_over = 1;
}

static void on_text(void *context, const xmlChar *text, int length)
{
    (void)context;
    if (reading.field == NO_FIELD || reading.passed_over > 0)
        return;
    if (reading.length + (unsigned)length > sizeof reading.text) {
        reading.broken = 1;
        return;
    }
    memcpy(reading.text + reading.length, text, (unsigned)length);
    reading.length += (unsigned)length;
}

static void on_end(void *context, const xmlChar *name)
{
    (void)context;
    if (reading.passed_over > 0) {
        reading.passed_over--;
    } else if (reading.field != NO_FIELD) {
        read_field(reading.field);
        reading.field = NO_FIELD;
    } else if (reading.level == ROOT && name == elements[TESTATA].pooled) {
        return;
    } else {
        if (reading.level == LINE)
            end_line();
        else if (reading.level == ORDER)
            serve_order();
        reading.level--;
    }
}

/* ---- the engine ---- */

static void start_parser(void)
{
    static xmlSAXHandler handler = {.startElement = on_start, .endElement = on_end, .characters = on_text, .initialized = 1};
    parser = xmlNewParserCtxt();
    if (parser == NULL)
        give_up("libxml2 gives no parser");
    *parser->sax = handler;
    for (unsigned i = 0; i < ELEMENTS; i++)
        elements[i].pooled = xmlDictLookup(parser->dict, (const xmlChar *)elements[i].name, -1);
}

static void restore(void)
{
    sqlite3_bind_int64(statements[DROP_LINES], 1, kept);
    sqlite3_bind_int64(statements[DROP_ORDERS], 1, kept);
    if (!run(BEGIN) || !run(DROP_LINES) || !run(DROP_ORDERS) || !run(COMMIT))
        give_up("SQLite doesn't restore its tables");
}

static void prepare(int nearly_full)
{
    if (parser == NULL)
        start_parser();
    for (unsigned i = 0; i < STATEMENTS; i++)
        sqlite3_finalize(statements[i]);
    sqlite3_close(database);
    /* No mutex: one thread, as with the library. */
    int flags = SQLITE_OPEN_READWRITE | SQLITE_OPEN_CREATE | SQLITE_OPEN_NOMUTEX;
    if (sqlite3_open_v2(":memory:", &database, flags, NULL) != SQLITE_OK || sqlite3_exec(database, SCHEMA, NULL, NULL, NULL) != SQLITE_OK)
        give_up("SQLite doesn't open");
    for (unsigned i = 0; i < STATEMENTS; i++)
        if (sqlite3_prepare_v3(database, SQL[i], -1, SQLITE_PREPARE_PERSISTENT, &statements[i], NULL) != SQLITE_OK)
            give_up(sqlite3_errmsg(database));
    if (nearly_full)
        take_earlier_flows(&stack_engine);
    kept = nearly_full ? sqlite3_last_insert_rowid(database) : 0;
}

static unsigned take(const struct flow *flow)
{
    reading = (struct reading){.level = OUTSIDE};
    if (!run(BEGIN))
        return 0;
    xmlCtxtReadMemory(parser, (const char *)flow->bytes, (int)flow->length, NULL, NULL, 0);
    if (!parser->wellFormed || reading.broken) {
        run(ROLLBACK);
        return 0;
    }
    return run(COMMIT) ? reading.accepted : 0;
}

const struct engine stack_engine = {"libxml2 + SQLite", prepare, restore, take};
