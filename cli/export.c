/* export.c: the records of many files in one stream, for programs that take tables: CSV as RFC 4180 has it, JSON lines, or text with
 * tabs. A row for each listed record, oldest first, and one more for each file, which says how its log ends. */

#define _DEFAULT_SOURCE
#include "reader.h"

#include <stdio.h>
#include <string.h>

/* A row has the same eight columns in every shape. */
static const char *const columns[] = {"file", "what", "lsn", "epoch", "kind", "length", "data", "text"};
enum { COLUMNS = sizeof columns / sizeof columns[0] };

static enum shape shape;

/* What is to be written, until it fills this room: a row is many small pieces. */
static char waiting[1 << 16];
static size_t waiting_bytes;

static void write_waiting(void)
{
    fwrite(waiting, 1, waiting_bytes, stdout);
    waiting_bytes = 0;
}

static void put(const char *text, size_t length)
{
    if (length > sizeof waiting - waiting_bytes)
        write_waiting();
    if (length > sizeof waiting) {
        fwrite(text, 1, length, stdout);
        return;
    }
    memcpy(waiting + waiting_bytes, text, length);
    waiting_bytes += length;
}

static void put_char(char character)
{
    if (waiting_bytes == sizeof waiting)
        write_waiting();
    waiting[waiting_bytes++] = character;
}

static void put_word(const char *word) { put(word, strlen(word)); }

/* ---------------------------------------------------------------- values */

static void put_decimal(uint64_t number)
{
    char digits[20];
    size_t at = sizeof digits;
    do
        digits[--at] = (char)('0' + number % 10);
    while ((number /= 10) > 0);
    put(digits + at, sizeof digits - at);
}

/* The eight hex digits of four bytes, all at once: each half byte gets a byte of its own, and becomes '0' to '9' or 'a' to 'f'. */
static uint64_t hex_of(uint32_t four)
{
    const uint64_t each = 0x0101010101010101;
    uint64_t halves = four;
    halves = (halves | halves << 16) & 0x0000FFFF0000FFFF;
    halves = (halves | halves << 8) & 0x00FF00FF00FF00FF;
    halves = (halves >> 4 & 0x000F000F000F000F) | (halves & 0x000F000F000F000F) << 8;
    uint64_t letters = (halves + 6 * each) >> 4 & each;
    return halves + '0' * each + ('a' - '9' - 1) * letters;
}

/* The bytes have room for every payload, so that four can be read at once; the digits go straight to where they wait. */
static void put_hex(const uint8_t *bytes, size_t count)
{
    if (sizeof waiting - waiting_bytes < 2 * DRIVELOG_MAX_PAYLOAD)
        write_waiting();
    char *text = waiting + waiting_bytes;
    for (size_t i = 0; i < count; i += 4) {
        uint32_t four;
        memcpy(&four, bytes + i, sizeof four);
        uint64_t digits = hex_of(four);
        memcpy(text + 2 * i, &digits, sizeof digits);
    }
    waiting_bytes += 2 * count;
}

/* CSV has a quote twice, and all else as it is. */
static void put_csv(const char *text, size_t length)
{
    const char *quote;
    while ((quote = memchr(text, '"', length)) != NULL) {
        size_t part = (size_t)(quote + 1 - text);
        put(text, part);
        put_char('"');
        text += part;
        length -= part;
    }
    put(text, length);
}

/* What a character of `bytes` bytes, 0 if it is no UTF-8, is written as in JSON or text, or null if it stays as it is. */
static const char *escape(const uint8_t *character, size_t bytes, char *room, size_t size)
{
    switch (*character) {
    case '\\': return "\\\\";
    case '\t': return "\\t";
    case '\n': return "\\n";
    case '\r': return "\\r";
    case '"': return shape == SHAPE_JSON ? "\\\"" : NULL;
    default: break;
    }
    if (bytes == 0 && shape == SHAPE_JSON)
        return "\\ufffd";
    if (bytes > 0 && is_printable(character, bytes))
        return NULL;
    if (shape == SHAPE_JSON && bytes > 1)
        return NULL;
    snprintf(room, size, shape == SHAPE_JSON ? "\\u%04x" : "\\x%02x", *character);
    return room;
}

static void put_text(const uint8_t *text, size_t length)
{
    size_t plain = 0; /* where what was not yet written begins */
    if (shape == SHAPE_CSV) {
        put_csv((const char *)text, length);
        return;
    }
    for (size_t i = 0, bytes; i < length; i += bytes > 0 ? bytes : 1) {
        char room[8];
        bytes = character_bytes(text + i, length - i);
        const char *escaped = escape(text + i, bytes, room, sizeof room);
        if (escaped == NULL)
            continue;
        /* A character that is written as an escape of its first byte goes on with its second. */
        bytes = 1;
        put((const char *)text + plain, i - plain);
        put_word(escaped);
        plain = i + 1;
    }
    put((const char *)text + plain, length - plain);
}

void put_name(const char *name)
{
    shape = SHAPE_TEXT;
    put_text((const uint8_t *)name, strlen(name));
    write_waiting();
}

static void put_quoted(const uint8_t *text, size_t length)
{
    if (shape != SHAPE_TEXT)
        put_char('"');
    put_text(text, length);
    if (shape != SHAPE_TEXT)
        put_char('"');
}

/* ---------------------------------------------------------------- rows */

/* What comes before a column's value. */
static void put_column(int column)
{
    if (column > 0)
        put_char(shape == SHAPE_TEXT ? '\t' : ',');
    if (shape == SHAPE_JSON) {
        put_word(column == 0 ? "{\"" : "\"");
        put_word(columns[column]);
        put_word("\":");
    }
}

static void end_row(void) { put_word(shape == SHAPE_CSV ? "\r\n" : shape == SHAPE_JSON ? "}\n" : "\n"); }

static void put_none(int column)
{
    put_column(column);
    if (shape == SHAPE_JSON)
        put_word("null");
}

static void put_number(int column, uint64_t number)
{
    put_column(column);
    put_decimal(number);
}

static void put_string(int column, const char *text)
{
    put_column(column);
    put_quoted((const uint8_t *)text, strlen(text));
}

static void put_heading(void)
{
    if (shape == SHAPE_JSON)
        return;
    for (int i = 0; i < COLUMNS; i++) {
        put_column(i);
        put_word(columns[i]);
    }
    end_row();
}

static void put_what(const char *what)
{
    put_string(0, path);
    put_column(1);
    if (shape == SHAPE_JSON)
        put_quoted((const uint8_t *)what, strlen(what));
    else
        put_word(what);
}

static void put_record(const uint64_t *record)
{
    static uint8_t payload[DRIVELOG_MAX_PAYLOAD];
    uint64_t length = record[DRIVELOG_RECORD_LENGTH];
    copy_payload(record, payload);
    put_what("record");
    put_number(2, record[DRIVELOG_RECORD_LSN]);
    put_number(3, record[DRIVELOG_RECORD_EPOCH]);
    put_number(4, record[DRIVELOG_RECORD_KIND]);
    put_number(5, length);
    put_column(6);
    if (shape == SHAPE_JSON)
        put_char('"');
    put_hex(payload, length);
    if (shape == SHAPE_JSON)
        put_char('"');
    if (is_printable(payload, length)) {
        put_column(7);
        put_quoted(payload, length);
    } else {
        put_none(7);
    }
    end_row();
}

/* The last row of a file: LSN and epoch are those of the log's end, where it has one or is stopped; the text says it in words. */
static void put_ending(const struct reading *reading)
{
    char text[200];
    put_what(ending_word(reading));
    if (reading->ring > 0) {
        put_number(2, reading->cursor[DRIVELOG_CURSOR_LSN]);
        put_number(3, reading->cursor[DRIVELOG_CURSOR_SUPERLINE_EPOCH]);
    } else {
        put_none(2);
        put_none(3);
    }
    for (int i = 4; i < COLUMNS - 1; i++)
        put_none(i);
    put_string(COLUMNS - 1, ending_in_words(reading, text, sizeof text));
    end_row();
}

int export_files(const char *const *names, int count, enum shape asked_shape, uint64_t kind)
{
    static struct reading reading;
    int status = DONE;
    shape = asked_shape;
    put_heading();
    for (int i = 0; i < count && !ferror(stdout); i++) {
        say_progress(i, count);
        read_log(names[i], &reading);
        for (uint64_t at = 0; at < reading.count; at++)
            if (is_listed(reading.records[at]) && (kind == 0 || reading.records[at][DRIVELOG_RECORD_KIND] == kind))
                put_record(reading.records[at]);
        put_ending(&reading);
        if (status_of(&reading) != DONE)
            write_waiting();
        say_ending(&reading);
        status = worse(status, status_of(&reading));
    }
    write_waiting();
    say_progress(count, count);
    return status;
}
