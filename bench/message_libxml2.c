/* SPDX-License-Identifier: EUPL-1.2 */

/*
 * What a team would build with libxml2: xmlTextReader, whose names and texts go into a struct, numbers converted, and xmlTextWriter, which
 * writes the struct into memory. It checks what conversion needs and that the elements close; it doesn't read the flow. One reader and one
 * buffer serve all messages.
 */

#include <libxml/xmlreader.h>
#include <libxml/xmlwriter.h>
#include <stdio.h>
#include <stdlib.h>
#include <string.h>

#include "message.h"

enum { TEXT = 141, ENTRIES = 64, HEADER = 10 };

static const char *const HEADER_NAMES[HEADER] = {
    "codice_ABI_BT",       "data_ora_creazione_flusso", "codice_ente",       "descrizione_ente", "codice_istat_ente",
    "codice_fiscale_ente", "codice_tramite_ente",       "codice_tramite_BT", "codice_ente_BT",   "identificativo_flusso_BT",
};

struct entry {
    int mandato;
    char identifier[TEXT], date[TEXT], word[TEXT], time[TEXT], element[TEXT];
    unsigned esercizio, number, code;
    unsigned long long cents;
};

static struct message {
    char header[HEADER][TEXT];
    struct entry entries[ENTRIES];
    unsigned count;
} held, fresh;

static xmlTextReaderPtr reader;
static xmlBufferPtr buffer;
static xmlTextWriterPtr writer;

static void copy(char *to, const char *text)
{
    snprintf(to, TEXT, "%s", text);
}

static unsigned long long cents_of(const char *text)
{
    char *end;
    unsigned long long euros = strtoull(text, &end, 10);
    return *end == '.' ? 100 * euros + strtoull(end + 1, NULL, 10) : 0;
}

static void take_entry_text(struct entry *entry, const char *name, const char *text)
{
    if (strcmp(name, "identificativo_flusso") == 0)
        copy(entry->identifier, text);
    else if (strcmp(name, "esercizio") == 0)
        entry->esercizio = (unsigned)strtoul(text, NULL, 10);
    else if (strncmp(name, "numero_", 7) == 0)
        entry->number = (unsigned)strtoul(text, NULL, 10);
    else if (strcmp(name, "data_ora_esito_operazione") == 0)
        copy(entry->time, text);
    else if (strncmp(name, "data_", 5) == 0)
        copy(entry->date, text);
    else if (strcmp(name, "importo") == 0)
        entry->cents = cents_of(text);
    else if (strcmp(name, "esito_operazione") == 0)
        copy(entry->word, text);
    else if (strcmp(name, "codice_errore") == 0)
        entry->code = (unsigned)strtoul(text, NULL, 10);
    else if (strcmp(name, "elemento") == 0)
        copy(entry->element, text);
}

static void take_text(struct message *message, const char *name, const char *text)
{
    if (message->count > 0) {
        take_entry_text(&message->entries[message->count - 1], name, text);
        return;
    }
    for (int i = 0; i < HEADER; i++)
        if (strcmp(name, HEADER_NAMES[i]) == 0)
            copy(message->header[i], text);
}

/* Reads a message into a struct; how many entries it has, 0 where it can't be read. */
static unsigned take(const uint8_t *bytes, unsigned length, struct message *message)
{
    const char *name = "";
    int more;
    message->count = 0;
    memset(message->header, 0, sizeof message->header);
    if (reader == NULL)
        reader = xmlReaderForMemory((const char *)bytes, (int)length, NULL, NULL, XML_PARSE_NONET);
    else if (xmlReaderNewMemory(reader, (const char *)bytes, (int)length, NULL, NULL, XML_PARSE_NONET) != 0)
        return 0;
    while ((more = xmlTextReaderRead(reader)) == 1) {
        int type = xmlTextReaderNodeType(reader);
        if (type == XML_READER_TYPE_ELEMENT) {
            name = (const char *)xmlTextReaderConstLocalName(reader);
            if (strncmp(name, "esito_", 6) == 0 && xmlTextReaderDepth(reader) == 1 && message->count < ENTRIES) {
                memset(&message->entries[message->count], 0, sizeof message->entries[0]);
                message->entries[message->count++].mandato = strcmp(name, "esito_mandati") == 0;
            }
        } else if (type == XML_READER_TYPE_TEXT) {
            take_text(message, name, (const char *)xmlTextReaderConstValue(reader));
        }
    }
    return more == 0 ? message->count : 0;
}

static void put(const char *name, const char *text)
{
    xmlTextWriterWriteElement(writer, BAD_CAST name, BAD_CAST text);
}

static void put_number(const char *name, unsigned number)
{
    char text[16];
    snprintf(text, sizeof text, "%u", number);
    put(name, text);
}

static void put_entry(const struct entry *entry)
{
    char amount[32];
    int mandato = entry->mandato;
    snprintf(amount, sizeof amount, "%llu.%02llu", entry->cents / 100, entry->cents % 100);
    xmlTextWriterStartElement(writer, BAD_CAST(mandato ? "esito_mandati" : "esito_reversali"));
    put("identificativo_flusso", entry->identifier);
    put_number("esercizio", entry->esercizio);
    put_number(mandato ? "numero_mandato" : "numero_reversale", entry->number);
    put(mandato ? "data_mandato" : "data_reversale", entry->date);
    put("importo", amount);
    put("esito_operazione", entry->word);
    put("data_ora_esito_operazione", entry->time);
    if (entry->code != 0) {
        xmlTextWriterStartElement(writer, BAD_CAST "lista_errori");
        put_number("codice_errore", entry->code);
        put_number("descrizione", entry->code);
        put("elemento", entry->element);
        xmlTextWriterEndElement(writer);
    }
    xmlTextWriterEndElement(writer);
}

/* Writes a struct as a message; how many bytes. */
static unsigned put_message(const struct message *message, uint8_t *to)
{
    if (buffer == NULL) {
        buffer = xmlBufferCreateSize(LONGEST_MESSAGE);
        writer = xmlNewTextWriterMemory(buffer, 0);
    }
    xmlBufferEmpty(buffer);
    xmlTextWriterStartElement(writer, BAD_CAST "messaggi_esito_applicativo");
    xmlTextWriterStartElement(writer, BAD_CAST "testata_messaggio");
    for (int i = 0; i < HEADER - 1; i++)
        if (message->header[i][0] != 0)
            put(HEADER_NAMES[i], message->header[i]);
    xmlTextWriterEndElement(writer);
    put(HEADER_NAMES[HEADER - 1], message->header[HEADER - 1]);
    for (unsigned i = 0; i < message->count; i++)
        put_entry(&message->entries[i]);
    xmlTextWriterEndElement(writer);
    xmlTextWriterFlush(writer);
    unsigned length = (unsigned)xmlBufferLength(buffer);
    if (length > LONGEST_MESSAGE)
        return 0;
    memcpy(to, xmlBufferContent(buffer), length);
    return length;
}

static void prepare(const struct letter *letter)
{
    take(letter->message, letter->length, &held);
}

static unsigned write_message(const struct letter *letter, uint8_t *to)
{
    (void)letter;
    return put_message(&held, to);
}

static unsigned read_message(const struct letter *letter)
{
    return take(letter->message, letter->length, &fresh);
}

static unsigned rewrite_message(const struct letter *letter, uint8_t *to)
{
    return take(letter->message, letter->length, &fresh) == 0 ? 0 : put_message(&fresh, to);
}

const struct message_engine libxml2_messages = {"libxml2", prepare, write_message, read_message, rewrite_message};
