/* SPDX-License-Identifier: EUPL-1.2 */

/*
 * Hondivole: the order tables of a treasury house's order desk.
 *
 * Six functions open an order table, convert one of the old form, take a body's flow of payment and collection orders, take the bank's
 * notices of execution and reversal, and report a body's totals. A seventh checks the bank's cash journal against a body's executed lines,
 * an eighth closes a year of a body's books, a ninth repairs a damaged table. Two answer questions about dates. Three write the outcome
 * message of a flow for the school, read one, and write again what was read. Each answers with a code: 0, or the number of a refusal in the
 * list below. A fifteenth shows the field that a flow was refused for.
 * Each checks its own inputs: tables, flows, messages, journals, requests, codes and numbers may be any bytes and any values. Each writes
 * all its results on every path. What stands below them, written in C and not proved, says codes in words and lays out a request.
 * None reads or writes anything but the buffers and results it is lent, and none keeps anything from one call to the next, so that
 * calls on different tables may be made at the same time.
 *
 * What a caller keeps to:
 *
 *  - Every pointer is good for the length that follows it: so many bytes can be read there, and written where it isn't const. A
 *    pointer to a number is good for one number. No pointer is null, not even where its length is 0.
 *  - Buffers and results of one call don't overlap.
 *  - While a call runs, nothing else writes what is lent to it, and nothing else reads what it may write.
 *
 * Codes are byte strings, never numbers: bodies 000471 and 471 are two bodies. Amounts are in cents.
 */

#ifndef HONDIVOLE_H
#define HONDIVOLE_H

#include <stddef.h>
#include <stdint.h>

/* The library's version, and the identity of the kit that proves it, which is also in the file KIT. */
#define HONDIVOLE_VERSION_MAJOR 0
#define HONDIVOLE_VERSION_MINOR 1
#define HONDIVOLE_VERSION_PATCH 0
#define HONDIVOLE_VERSION "0.1.0"
#define HONDIVOLE_KIT "rattle-kit-13f logic dac8208d650f15bf"

#ifdef __cplusplus
extern "C" {
#endif

/* The codes: of calls (1 to 10, 16, 17, 20 to 23, 27 to 41) and of orders (12 to 19, 24 to 26). 11 is given no more. */
enum hondivole_code {
    HONDIVOLE_DONE = 0,                 /* nothing is refused */
    HONDIVOLE_TABLE_NOT_VALID = 1,      /* the table isn't valid */
    HONDIVOLE_FLOW_TOO_LONG = 2,        /* the flow is longer than 32,768 bytes */
    HONDIVOLE_MARKUP_BREAKS = 3,        /* the flow's markup breaks */
    HONDIVOLE_STRUCTURE_BREAKS = 4,     /* the flow's structure breaks */
    HONDIVOLE_FIELD_BREAKS = 5,         /* a field of the flow breaks */
    HONDIVOLE_OTHER_BANK = 6,           /* the flow's codice_ABI_BT isn't the table's */
    HONDIVOLE_NO_SUCH_BODY = 7,         /* no body has this code */
    HONDIVOLE_OUTCOMES_TOO_SHORT = 8,   /* the outcome buffer has under 16 bytes per order */
    HONDIVOLE_REQUEST_WRONG = 9,        /* the request to open a table is wrong */
    HONDIVOLE_BUFFER_LENGTH_WRONG = 10, /* the buffer to open or convert a table in hasn't the needed length */
    HONDIVOLE_LINES_MISNUMBERED = 12,   /* the order's lines aren't numbered 1, 2, 3 and so on */
    HONDIVOLE_LINES_DONT_SUM = 13,      /* the order's line amounts don't sum to its total */
    HONDIVOLE_ORDER_EXISTS = 14,        /* INSERIMENTO, SOSTITUZIONE: the body already has this order */
    HONDIVOLE_NO_EMPTY_SLOT = 15,       /* INSERIMENTO, SOSTITUZIONE: the body has no empty slot */
    HONDIVOLE_NO_SUCH_ORDER = 16,       /* the body has no such order */
    HONDIVOLE_ORDER_ANNULLED = 17,      /* the order is annulled */
    HONDIVOLE_LINE_EXECUTED = 18,       /* a line of the order is executed or replaced */
    HONDIVOLE_RECORD_DIFFERS = 19,      /* ANNULLO: the total or the lines differ from the record */
    HONDIVOLE_NO_SUCH_LINE = 20,        /* the order has no such line */
    HONDIVOLE_ALREADY_EXECUTED = 21,    /* execution: the line is already executed, or replaced */
    HONDIVOLE_NOT_EXECUTED = 22,        /* reversal: the line isn't executed, or it is replaced */
    HONDIVOLE_NO_SUCH_EDITION = 23,     /* the number names no edition of a flow */
    HONDIVOLE_NAMED_LINE_ABSENT = 24,   /* SOSTITUZIONE: the body has no such line */
    HONDIVOLE_NAMED_LINE_NOT_EXECUTED = 25, /* SOSTITUZIONE: the named line isn't executed, or it is replaced, also earlier in this order */
    HONDIVOLE_NAMED_LINE_OTHER_AMOUNT = 26, /* SOSTITUZIONE: the named line has another amount */
    HONDIVOLE_NO_DATE_SERVED = 27,      /* no date, or outside the years 2002 to 2099 */
    HONDIVOLE_CLOSING_DAY = 28,         /* the date is no TARGET day */
    HONDIVOLE_MOVEMENTS_WRONG = 29,     /* journal: over 4,096 or not whole movements */
    HONDIVOLE_NOT_AN_EXECUTED_LINE = 30, /* journal: no such executed line */
    HONDIVOLE_OTHER_CENTS = 31,         /* journal: other cents than the line's */
    HONDIVOLE_LISTED_BEFORE = 32,       /* journal: the line is listed before */
    HONDIVOLE_LINE_MISSING = 33,        /* journal: an executed line is missing */
    HONDIVOLE_CONTENTS_NOT_VALID = 34,  /* salvage: the table's head or entries aren't valid */
    HONDIVOLE_REPORT_TOO_SHORT = 35,    /* salvage: the report doesn't fit */
    HONDIVOLE_YEAR_CLOSED = 36,         /* flow, close: the body has closed this year, or a later one */
    HONDIVOLE_NO_YEAR_SERVED = 37,      /* close: not a year of 2000 to 2099 */
    HONDIVOLE_EARLIER_YEAR_REMAINS = 38, /* close: a record of an earlier year remains */
    HONDIVOLE_LINE_WAITING = 39,        /* close: an acquired order of the year has a waiting line */
    HONDIVOLE_BUFFER_TOO_SHORT = 40,    /* the buffer is shorter than the message or its values */
    HONDIVOLE_VALUES_WRONG = 41         /* the outcome bytes aren't this flow's, or a caller's value has a wrong form */
};

/* What is wrong with the field of code 5: the first of these that applies. */
enum hondivole_cause {
    HONDIVOLE_NO_CAUSE = 0,       /* every other code */
    HONDIVOLE_EMPTY = 1,          /* empty */
    HONDIVOLE_LONG = 2,           /* longer than the longest allowed text */
    HONDIVOLE_MISFORMED = 3,      /* wrong form */
    HONDIVOLE_OUT_OF_RANGE = 4    /* right form but a value outside its range */
};

/* The editions of a flow. */
enum {
    HONDIVOLE_EDITION_OIL = 1, /* the flat header of OIL, no attributes, a creation time without zone */
    HONDIVOLE_EDITION_OPI = 2  /* the header of OPI 1.2.2: testata_flusso; an Id may stand on the root; a creation time with its zone */
};

enum {
    HONDIVOLE_MANDATO = 1,   /* the kind of a payment order */
    HONDIVOLE_REVERSALE = 2  /* the kind of a collection order */
};

/* The bytes of the opened table for so many bodies and, over all of them, so many slots. */
#define HONDIVOLE_TABLE_BYTES(bodies, slots) (16u + 48u * (bodies) + 96u * (slots))

/* A table is at most so long. */
#define HONDIVOLE_MOST_TABLE_BYTES 65792u

/* The bytes of the table that a table 1 of so many bytes and bodies is converted to. */
#define HONDIVOLE_CONVERTED_BYTES(old, bodies) ((old) + 16u * (bodies))

/* The bytes of the request to open a table for so many bodies. */
#define HONDIVOLE_REQUEST_BYTES(bodies) (5u + 20u * (bodies))

/* A flow is at most so long. */
#define HONDIVOLE_MOST_FLOW_BYTES 32768u

/* The bytes of a cash journal's movement, and the most movements of one. */
#define HONDIVOLE_MOVEMENT_BYTES 16u
#define HONDIVOLE_MOST_MOVEMENTS 4096u

/* The bytes of a repair's report, of so many bodies and blanked slots, and those that are enough for any table. */
#define HONDIVOLE_REPORT_BYTES(bodies, blanked) (2u * (bodies) + 4u * (blanked))
#define HONDIVOLE_MOST_REPORT_BYTES 2740u

/* The outcome bytes that are enough for any flow: 64 orders of 16 bytes. */
#define HONDIVOLE_MOST_OUTCOME_BYTES 1024u

/* A message that is written is at most so long; one that is read may have more. */
#define HONDIVOLE_MOST_WRITTEN_BYTES 35122u
#define HONDIVOLE_MOST_MESSAGE_BYTES 65536u

/* The bytes of the values of a message of so many entries, and those that are enough for any message. */
#define HONDIVOLE_VALUES_BYTES(entries) (80u + 48u * (entries))
#define HONDIVOLE_MOST_VALUES_BYTES 3152u

/*
 * How many bytes of stack a call takes on x86-64, its arguments among them, whatever it is lent: the thread that makes it needs so many
 * beside its own. tests/stack makes each of these calls on a stack of exactly so many bytes. Of the two over dates nothing is stated.
 */
#define HONDIVOLE_OPEN_STACK 1024u
#define HONDIVOLE_CONVERT_STACK 8192u
#define HONDIVOLE_FLOW_STACK 49152u
#define HONDIVOLE_NOTICE_STACK 8192u
#define HONDIVOLE_TOTALS_STACK 8192u
#define HONDIVOLE_JOURNAL_STACK 32768u
#define HONDIVOLE_SALVAGE_STACK 16384u
#define HONDIVOLE_CLOSE_STACK 8192u
#define HONDIVOLE_FIELD_AT_STACK 8192u
#define HONDIVOLE_MESSAGE_WRITE_STACK 49152u
#define HONDIVOLE_MESSAGE_READ_STACK 73728u
#define HONDIVOLE_MESSAGE_REWRITE_STACK 81920u

/*
 * Opens a table. The request is five ABI digits and then 20 bytes per body: the code's length, the code in 16 bytes with zeros after it,
 * a zero, and the number of slots (1 to 512) in two bytes, the higher first: hondivole_request lays it out. 1 to 16 bodies, codes of 1 to
 * 16 letters and digits, all distinct. The table buffer has exactly the needed length, see HONDIVOLE_TABLE_BYTES, at most 65,792. It
 * answers 0 and fills the whole buffer, every slot empty, whatever the buffer held; or 9 when the request is wrong, or 10 when the buffer's
 * length is. It never changes a byte with 9 or 10.
 */
uint64_t hondivole_open(const uint8_t *request, size_t request_len, uint8_t *table, size_t table_len);

/*
 * Converts a table 1, of entries of 32 bytes and the number 1 in its head, into a table 2, in a second buffer of exactly the length that
 * HONDIVOLE_CONVERTED_BYTES says. It answers 0 and fills the whole second buffer, whatever it held, with the same bank, bodies and records,
 * each entry keeping the cents paid and collected of its body's records and no closed year; or 1 when the old table isn't a valid table 1,
 * or 10 when the second buffer's length isn't right. It never changes the old table, and no byte with 1 or 10. Every other call takes tables
 * 2 alone.
 */
uint64_t hondivole_convert(const uint8_t *old, size_t old_len, uint8_t *table, size_t table_len);

/*
 * Takes a body's flow of the edition of that number, 1 or 2; a body may mix editions. It answers 0 when the flow is taken: its orders are
 * then served as written, each on the table the one before left; *orders is how many it holds (1 to 64) and *accepted how many of them got
 * outcome code 0; *place and *cause are 0. *steps is how many slots the searches for its orders looked at, together: each up to and
 * including the slot found, or all the body's used slots when there is none, and none for an order answered 12 or 13; at most *orders times
 * the body's slots. A SOSTITUZIONE is a new order whose lines each name an executed line of the same kind and body, of equal amount: that
 * one becomes replaced, for good, and the new one is executed at once, so that no cash moves. Each order has written 16 outcome bytes: 0
 * kind, 1 operation (1 INSERIMENTO, 2 VARIAZIONE, 3 ANNULLO, 4 SOSTITUZIONE), 2 code (0, 12 to 19, 24 to 26), 3 lines, 4-7 number, 8-15
 * total, numbers with the highest byte first. Otherwise it answers the first code of 1, 23, 2 to 7, 36 (the body has closed the flow's
 * esercizio, or a later year) and 8 that applies, with *orders, *accepted and *steps 0, and *place and *cause 0 but for code 5, where *place
 * is the byte of `<` of the first element whose field breaks, counted from 0, and *cause what is wrong with that field, 1 to 4:
 * hondivole_cause_text says it in words. It never changes table or outcomes with a code other than 0, never changes the record of a refused
 * order or of another body, and never writes outcome bytes past the last order's.
 */
uint64_t hondivole_flow(uint8_t *table, size_t table_len, uint64_t edition, const uint8_t *flow, size_t flow_len, uint8_t *outcomes,
                        size_t outcomes_len, uint64_t *place, uint64_t *orders, uint64_t *accepted, uint64_t *cause, uint64_t *steps);

/*
 * Takes the bank's notice that a line is executed. It names the body by its code, the order by kind (1 mandato, 2 reversale), esercizio and
 * number, and the line, counted from 1; year, month and day are its date, which has to be a TARGET day. It answers 0 and sets the line
 * executed, *cents being the line's amount; or the first of 1 (table not valid), 27 (no date, or outside 2002 to 2099), 28 (closing day), 7
 * (no such body), 16 (no such order), 17 (annulled), 20 (no such line) and 21 (already executed, or replaced) that applies, *cents being 0.
 * It changes the line's state and the cents that the body's entry keeps, and no other byte, and none on a refusal.
 */
uint64_t hondivole_execute(uint8_t *table, size_t table_len, const uint8_t *body, size_t body_len, uint64_t kind, uint64_t esercizio,
                           uint64_t number, uint64_t line, uint64_t year, uint64_t month, uint64_t day, uint64_t *cents);

/*
 * Takes the bank's notice that an executed line is reversed (storno). It names a line and has a date as hondivole_execute does. It answers 0
 * and sets the line waiting again, so that it may be executed again, *cents being the line's amount; or the first of 1, 27, 28, 7, 16, 17,
 * 20 and 22 (not executed, or replaced) that applies, *cents being 0. It changes the line's state and the cents that the body's entry keeps,
 * and no other byte, and none on a refusal.
 */
uint64_t hondivole_reverse(uint8_t *table, size_t table_len, const uint8_t *body, size_t body_len, uint64_t kind, uint64_t esercizio,
                           uint64_t number, uint64_t line, uint64_t year, uint64_t month, uint64_t day, uint64_t *cents);

/*
 * The first TARGET day on or after a date of the years 2002 to 2099: no Saturday, Sunday, 1 January, Good Friday, Easter Monday, 1 May, 25 or
 * 26 December. It answers 0 with that day, at most four days later and never outside these years; or 27 (no date, or outside the years),
 * the three results being 0.
 */
uint64_t hondivole_first_target_day(uint64_t year, uint64_t month, uint64_t day, uint64_t *first_year, uint64_t *first_month,
                                    uint64_t *first_day);

/*
 * The number of days from the first date to the second, below zero when the second is earlier. It answers 0; or 27 where one of them is no
 * date or outside the years 2002 to 2099, *days being 0.
 */
uint64_t hondivole_days_between(uint64_t year, uint64_t month, uint64_t day, uint64_t to_year, uint64_t to_month, uint64_t to_day,
                                int64_t *days);

/*
 * Reports a body's totals. It answers 0 with *used, the body's used slots (an annulled order keeps its slot), *paid and *collected, the
 * cents of executed lines of its mandati and of its reversali, replaced ones not counted, and *balance, collected less paid, which may be
 * below zero; they speak of the orders that are in the table, so that those of a year fall away when it is closed; or 1 (table not valid) or
 * 7 (no such body), all four being 0. It never changes the table.
 */
uint64_t hondivole_totals(const uint8_t *table, size_t table_len, const uint8_t *body, size_t body_len, uint64_t *used, uint64_t *paid,
                          uint64_t *collected, int64_t *balance);

/*
 * Checks the movements of the bank's cash journal (giornale di cassa) against a body's executed lines. A movement has 16 bytes: kind, line,
 * esercizio in two, number in four, cents in eight, numbers with the highest byte first. It answers 0 exactly when every executed line of
 * the body is listed once, with its cents, and nothing else is listed (no replaced line either), in any order; or the first of 1 (table not
 * valid), 7 (no such body), 29 (over 4,096 or not whole movements), then movement by movement 30 (no such executed line), 31 (other cents)
 * and 32 (listed before), the first bad movement deciding, and then 33 (an executed line is missing). It never changes the table. Its cost
 * is close to linear in slots and movements: 4,096 movements of a full body of 512 orders take under three times what the check that the
 * table is valid takes, that check among it, in any order. Only where many orders' keys share their places in its index does a movement cost
 * a search of the body's slots.
 */
uint64_t hondivole_journal(const uint8_t *table, size_t table_len, const uint8_t *body, size_t body_len, const uint8_t *movements,
                           size_t movements_len);

/*
 * Closes a year of a body's books: the body's orders of that esercizio are removed, the others move up in their order, and the freed slots are
 * used by later orders. The entry holds the year, and what it keeps of cents is that of the orders still there. From then on a flow of that
 * or an earlier esercizio is answered 36, and notices, replacement lines and journals that name one of its orders find none (16, 24, 30). It
 * answers 0, *removed being how many orders were removed, annulled ones among them; or the first of 1 (table not valid), 7 (no such body), 37
 * (not a year of 2000 to 2099), 36 (not later than the last one closed), 38 (an order of an earlier year remains, an annulled one too) and 39
 * (an acquired order of that year has a waiting line) that applies, *removed being 0. It changes the body's slots and bytes 24 to 41 of its
 * entry, and no other byte, and none on a refusal. A year that is closed is never opened again.
 */
uint64_t hondivole_close(uint8_t *table, size_t table_len, const uint8_t *body, size_t body_len, uint64_t year, uint64_t *removed);

/*
 * Repairs a table that every call answers with 1, as far as its head and entries are valid but for the cents that the entries keep. Of each
 * body's slots, in order, it keeps those whose record is valid by itself, is of a year later than the one that the body closed last, and has
 * a key (kind, esercizio, number) that hasn't been kept earlier in that body; it blanks the others, moves the kept ones up to the body's
 * first slots in their order, and sets the kept cents anew. It answers 0 with *blanked, how many slots were blanked; a slot that was all
 * zero isn't blanked. The table is then valid, and a valid one comes out the same. The report, whose bytes past it stay, says what was lost:
 * first for each body, in the order of the entries, two bytes with how many of its kept records stand in another slot now; then for each
 * blanked slot, in the order of the table, four bytes with the place in the table where it stood; numbers have the highest byte first. Or it
 * answers 34 when the head or an entry isn't valid, or else 35 when the report is shorter than HONDIVOLE_REPORT_BYTES of the bodies and what
 * would be blanked; *blanked is then 0, and neither table nor report is changed. HONDIVOLE_MOST_REPORT_BYTES are enough for any table.
 */
uint64_t hondivole_salvage(uint8_t *table, size_t table_len, uint8_t *report, size_t report_len, uint64_t *blanked);

/*
 * Shows the field that a flow was refused for with code 5: where the name and the text stand, in the flow, of the element whose `<` stands
 * at the place. *name and *text are places counted from 0, *name_len and *text_len are lengths in bytes; all four are 0 where no element
 * stands at the place. A text is shown as it stands in the flow, its references not replaced.
 */
void hondivole_field_at(const uint8_t *flow, size_t flow_len, uint64_t place, uint64_t *name, uint64_t *name_len, uint64_t *text,
                        uint64_t *text_len);

/*
 * Writes the outcome message ("messaggio di esito applicativo") of a flow and its outcome bytes; the edition is the flow's, and the message
 * is the same of both. The caller gives the time of the message's creation and the time of outcome, each as YYYY-MM-DDThh:mm:ss and then Z
 * or a sign and hh:mm to 23:59, and seven texts of 1 to 140 bytes, written as given: XML's characters in UTF-8, no <, no ]]>, & only as one
 * of the five references. An empty ISTAT code is left out. All reversali stand before all mandati. It answers 0, *length being the
 * message's, at most HONDIVOLE_MOST_WRITTEN_BYTES; bytes of the buffer past it stay. Or it answers the first that applies of 23 (no such
 * edition); 2 to 5 for the flow, as hondivole_flow does; 41, when there are under 16 outcome bytes per order, their kinds, operations,
 * numbers, line counts or totals aren't this flow's, a code is none that an order can get, or a caller's value has a wrong form; and 40,
 * when the buffer is shorter than the message. *length is then 0, and no byte is changed.
 */
uint64_t hondivole_message_write(uint64_t edition, const uint8_t *flow, size_t flow_len, const uint8_t *outcomes, size_t outcomes_len,
                                 const uint8_t *created, size_t created_len, const uint8_t *outcome, size_t outcome_len, const uint8_t *codice_ente,
                                 size_t codice_ente_len, const uint8_t *descrizione_ente, size_t descrizione_ente_len,
                                 const uint8_t *codice_istat_ente, size_t codice_istat_ente_len, const uint8_t *codice_fiscale_ente,
                                 size_t codice_fiscale_ente_len, const uint8_t *codice_tramite_ente, size_t codice_tramite_ente_len,
                                 const uint8_t *codice_tramite_BT, size_t codice_tramite_BT_len, const uint8_t *identificativo_flusso_BT,
                                 size_t identificativo_flusso_BT_len, uint8_t *message, size_t message_len, uint64_t *length);

/*
 * Reads an outcome message of at most 65,536 bytes, on whose root an Id may stand in edition 2. It answers 0, *entries being how many orders
 * it speaks of (1 to 64), and fills 80 bytes of values and 48 for each entry; bytes past them stay. Numbers have the highest byte first. The
 * 80 are ten pairs of place and length, four bytes each, of texts that stand in the message: codice_ABI_BT, the message's time, codice_ente,
 * descrizione_ente, codice_istat_ente (both 0 where there is none), codice_fiscale_ente, codice_tramite_ente, codice_tramite_BT,
 * codice_ente_BT, identificativo_flusso_BT. Of each 48, byte 0 is the kind, 1 the operation, 2 the code (0 when accepted), 4-5 esercizio,
 * 8-11 number, 12-15 date (year in two, month, day), 16-23 total in cents, 24-31 place and length of identificativo_flusso, 32-39 those of
 * the time of outcome, the rest zero. Or it answers the first that applies of 23 (no such edition), 2 (above 65,536 bytes), 3, 4, 5, as
 * hondivole_flow does, with *place and *cause for 5; and 40, when there is no room for the values. *entries is then 0, *place and *cause are
 * 0 but for 5, and no byte is changed.
 */
uint64_t hondivole_message_read(uint64_t edition, const uint8_t *message, size_t message_len, uint8_t *values, size_t values_len,
                                uint64_t *entries, uint64_t *place, uint64_t *cause);

/*
 * Reads an outcome message and writes its values anew, as hondivole_message_write would: without white space, mark, declaration or elements
 * that were passed over. Reading what it wrote gives the same values, and what the writer wrote comes out byte for byte. It answers 0,
 * *length being the new message's; or the first that applies of 23 and 2 to 5, as hondivole_message_read does, and 40, when the buffer is
 * shorter than the new message. *length is then 0, and no byte is changed.
 */
uint64_t hondivole_message_rewrite(uint64_t edition, const uint8_t *message, size_t message_len, uint8_t *again, size_t again_len,
                                   uint64_t *length);

/* The version and the kit in one line. */
static inline const char *hondivole_version(void)
{
    return "hondivole " HONDIVOLE_VERSION " (" HONDIVOLE_KIT ")";
}

/* A sentence for each code, and for a number that is none. */
static inline const char *hondivole_code_text(uint64_t code)
{
    switch (code) {
    case HONDIVOLE_DONE: return "nothing is refused";
    case HONDIVOLE_TABLE_NOT_VALID: return "the table isn't valid";
    case HONDIVOLE_FLOW_TOO_LONG: return "the flow is longer than 32,768 bytes";
    case HONDIVOLE_MARKUP_BREAKS: return "the flow's markup breaks";
    case HONDIVOLE_STRUCTURE_BREAKS: return "the flow's structure breaks";
    case HONDIVOLE_FIELD_BREAKS: return "a field of the flow breaks";
    case HONDIVOLE_OTHER_BANK: return "the flow's codice_ABI_BT isn't the table's";
    case HONDIVOLE_NO_SUCH_BODY: return "no body of the table has this code";
    case HONDIVOLE_OUTCOMES_TOO_SHORT: return "the outcome buffer has under 16 bytes per order";
    case HONDIVOLE_REQUEST_WRONG: return "a table can't be opened with these ABI digits, codes and slots";
    case HONDIVOLE_BUFFER_LENGTH_WRONG: return "the buffer hasn't the length that the table needs";
    case HONDIVOLE_LINES_MISNUMBERED: return "the order's lines aren't numbered 1, 2, 3 and so on";
    case HONDIVOLE_LINES_DONT_SUM: return "the order's line amounts don't sum to its total";
    case HONDIVOLE_ORDER_EXISTS: return "the body already has an order of this kind, esercizio and number";
    case HONDIVOLE_NO_EMPTY_SLOT: return "the body has no empty slot";
    case HONDIVOLE_NO_SUCH_ORDER: return "the body has no order of this kind, esercizio and number";
    case HONDIVOLE_ORDER_ANNULLED: return "the order is annulled";
    case HONDIVOLE_LINE_EXECUTED: return "a line of the order is executed or replaced";
    case HONDIVOLE_RECORD_DIFFERS: return "the order's total or lines differ from the record";
    case HONDIVOLE_NO_SUCH_LINE: return "the order has no such line";
    case HONDIVOLE_ALREADY_EXECUTED: return "the line is already executed, or replaced";
    case HONDIVOLE_NOT_EXECUTED: return "the line isn't executed, or is replaced";
    case HONDIVOLE_NO_SUCH_EDITION: return "there is no edition of this number";
    case HONDIVOLE_NAMED_LINE_ABSENT: return "the body has no such line to replace";
    case HONDIVOLE_NAMED_LINE_NOT_EXECUTED: return "the line to replace isn't executed, or is replaced already";
    case HONDIVOLE_NAMED_LINE_OTHER_AMOUNT: return "the line to replace has another amount";
    case HONDIVOLE_NO_DATE_SERVED: return "no date of the years 2002 to 2099";
    case HONDIVOLE_CLOSING_DAY: return "the date is no TARGET day";
    case HONDIVOLE_BUFFER_TOO_SHORT: return "the buffer is shorter than the message or its values";
    case HONDIVOLE_VALUES_WRONG: return "the outcome bytes aren't this flow's, or a caller's value has a wrong form";
    case HONDIVOLE_MOVEMENTS_WRONG: return "the journal has over 4,096 or not whole movements";
    case HONDIVOLE_NOT_AN_EXECUTED_LINE: return "the journal lists a line that is no executed one of the body";
    case HONDIVOLE_OTHER_CENTS: return "the journal lists a line with other cents";
    case HONDIVOLE_LISTED_BEFORE: return "the journal lists a line that it listed before";
    case HONDIVOLE_LINE_MISSING: return "an executed line is missing in the journal";
    case HONDIVOLE_CONTENTS_NOT_VALID: return "the table's head or entries aren't valid";
    case HONDIVOLE_REPORT_TOO_SHORT: return "the buffer is shorter than the report";
    case HONDIVOLE_YEAR_CLOSED: return "the body has closed this year, or a later one";
    case HONDIVOLE_NO_YEAR_SERVED: return "no year of 2000 to 2099";
    case HONDIVOLE_EARLIER_YEAR_REMAINS: return "the body has an order of an earlier year";
    case HONDIVOLE_LINE_WAITING: return "an acquired order of this year has a waiting line";
    default: return "no code of the order desk";
    }
}

/* The words for each cause, and for a number that is none. */
static inline const char *hondivole_cause_text(uint64_t cause)
{
    switch (cause) {
    case HONDIVOLE_EMPTY: return "empty";
    case HONDIVOLE_LONG: return "longer than the longest allowed text";
    case HONDIVOLE_MISFORMED: return "wrong form";
    case HONDIVOLE_OUT_OF_RANGE: return "right form but a value outside its range";
    default: return "no cause";
    }
}

/* A body that a table is opened for. */
struct hondivole_body {
    const char *code; /* its code, 1 to 16 letters and digits */
    uint16_t slots;   /* how many orders it can hold, 1 to 512 */
};

/* The bytes of the table for these bodies. */
static inline size_t hondivole_table_bytes(const struct hondivole_body *bodies, size_t count)
{
    size_t slots = 0;
    for (size_t i = 0; i < count; i++)
        slots += bodies[i].slots;
    return 16 + 48 * count + 96 * slots;
}

/*
 * Lays out the request to open a table: five ABI digits and these bodies. It answers how many bytes it wrote, HONDIVOLE_REQUEST_BYTES of
 * the count; or 0 where that is more than the room, the ABI hasn't five characters, or a code has more than 16. hondivole_open judges the
 * rest, and refuses a request of 0 bytes with 9.
 */
static inline size_t hondivole_request(const char *abi, const struct hondivole_body *bodies, size_t count, uint8_t *request, size_t room)
{
    size_t at = 0;
    if (room < 5 || count > (room - 5) / 20)
        return 0;
    while (at < 5 && abi[at] != 0) {
        request[at] = (uint8_t)abi[at];
        at++;
    }
    if (at != 5 || abi[5] != 0)
        return 0;
    for (size_t i = 0; i < count; i++) {
        const char *code = bodies[i].code;
        uint8_t *entry = request + at;
        uint8_t length = 0;
        while (length < 16 && code[length] != 0) {
            entry[1 + length] = (uint8_t)code[length];
            length++;
        }
        if (length == 16 && code[16] != 0)
            return 0;
        entry[0] = length;
        for (int zero = 1 + length; zero < 18; zero++)
            entry[zero] = 0;
        entry[18] = (uint8_t)(bodies[i].slots >> 8);
        entry[19] = (uint8_t)(bodies[i].slots & 255);
        at += 20;
    }
    return at;
}

#ifdef __cplusplus
}
#endif

#endif
