/* reader.c: see reader.h. */

#define _DEFAULT_SOURCE
#include "reader.h"

#include <errno.h>
#include <inttypes.h>
#include <stdio.h>
#include <string.h>
#include <time.h>
#include <unistd.h>

enum { MARK_SHIFT = 48 };

/* ---------------------------------------------------------------- progress */

/* Milliseconds of a clock that only rises. */
static uint64_t now(void)
{
    struct timespec time;
    return clock_gettime(CLOCK_MONOTONIC, &time) == 0 ? 1000 * (uint64_t)time.tv_sec + (uint64_t)time.tv_nsec / 1000000 : 0;
}

static int shown; /* a line of progress is on the terminal */

static void hide_progress(void)
{
    if (shown)
        fputs("\r\033[K", stderr);
    shown = 0;
}

void say_progress(int done, int count)
{
    enum { QUIET = 1000, PAUSE = 200 };
    static int asked, shows;
    static uint64_t next_time;
    if (!asked) {
        asked = 1;
        shows = isatty(STDERR_FILENO) && !isatty(STDOUT_FILENO);
        next_time = now() + QUIET;
    }
    if (!shows || (done < count && now() < next_time))
        return;
    next_time = now() + PAUSE;
    if (done < count)
        shown = fprintf(stderr, "\rdrivelog: %d of %d files\033[K", done, count) > 0;
    else
        hide_progress();
}

/* ---------------------------------------------------------------- a file */

/* As many bytes of standard input as an image has, or one more, which shows that it is too long. */
static int read_input(void)
{
    size_t bytes = 0, room = sizeof drive.images[0];
    ssize_t got = 1;
    char beyond;
    while (got > 0 && bytes <= room) {
        got = bytes < room ? read(STDIN_FILENO, (char *)drive.images[0] + bytes, room - bytes) : read(STDIN_FILENO, &beyond, 1);
        if (got < 0 && errno == EINTR)
            got = 1;
        else if (got < 0)
            return -1;
        else
            bytes += (size_t)got;
    }
    drive.chosen = 0;
    drive.words = bytes % 8 == 0 ? bytes / 8 : 0;
    drive.reply[DRIVELOG_REPLY_NUMBER] = 0;
    file_bytes[0] = bytes;
    return 0;
}

/* Each record is read as if its mark were set, and stays as it is in the image. */
void look_after_end(struct reading *reading)
{
    static uint64_t marked[DRIVELOG_MAX_IMAGE_WORDS];
    uint64_t cursor[DRIVELOG_CURSOR_WORDS], answer[DRIVELOG_REPLY_WORDS];
    if (reading->error != 0 || reading->found != 0)
        return;
    memcpy(marked, chosen_image(), 8 * drive.words);
    memcpy(cursor, reading->cursor, sizeof cursor);
    for (uint64_t at = reading->count; at < sizeof reading->records / sizeof reading->records[0]; at++) {
        uint64_t *record = reading->records[at], *first = &marked[SUPERLINE_WORDS + cursor[DRIVELOG_CURSOR_POS]];
        int unmarked = *first >> MARK_SHIFT == DRIVELOG_MARK_NONE;
        if (unmarked)
            *first |= (uint64_t)DRIVELOG_MARK_COMMITTED << MARK_SHIFT;
        if (drivelog_next(marked, drive.words, cursor, DRIVELOG_CURSOR_WORDS, record, DRIVELOG_RECORD_WORDS, answer, DRIVELOG_REPLY_WORDS) != 1)
            return;
        if (unmarked)
            record[DRIVELOG_RECORD_MARK] = DRIVELOG_MARK_NONE;
        reading->after++;
        reading->after_marked += !unmarked;
    }
}

void read_log(const char *name, struct reading *reading)
{
    memset(reading, 0, offsetof(struct reading, records));
    name_files(name);
    drive.words = 0;
    if ((strcmp(name, "-") == 0 ? read_input() : try_read_images()) != 0) {
        reading->error = errno;
        return;
    }
    say_modules();
    uint64_t *cursor = reading->cursor;
    reading->found = -(int64_t)drive.reply[DRIVELOG_REPLY_NUMBER];
    if (reading->found == 0)
        reading->found = drivelog_open(IMAGE, cursor, DRIVELOG_CURSOR_WORDS, REPLY);
    if (reading->found < 0)
        return;
    reading->ring = drive.words - SUPERLINE_WORDS;
    reading->head_pos = cursor[DRIVELOG_CURSOR_POS];
    reading->head_lsn = cursor[DRIVELOG_CURSOR_LSN];
    while ((reading->found = next(cursor, reading->records[reading->count])) == 1)
        reading->listed += (uint64_t)is_listed(reading->records[reading->count++]);
}

int worse(int status, int other)
{
    return status == REFUSED || other == REFUSED ? REFUSED : status > other ? status : other;
}

int status_of(const struct reading *reading)
{
    return reading->error == EWOULDBLOCK ? OPEN_ELSEWHERE : reading->error != 0 || reading->found != 0 ? REFUSED : DONE;
}

const char *ending_word(const struct reading *reading)
{
    if (reading->error != 0)
        return "unreadable";
    switch (reading->found) {
    case 0: return "end";
    case -DRIVELOG_DAMAGED: return "damaged";
    case -DRIVELOG_TOO_MANY: return "toomany";
    default: return "refused";
    }
}

const char *ending_in_words(const struct reading *reading, char *text, size_t room)
{
    if (reading->error != 0)
        return system_in_words(reading->error);
    if (reading->found != 0)
        return refusal_in_words(text, room);
    snprintf(text, room, "whole: the next record gets LSN %" PRIu64, reading->cursor[DRIVELOG_CURSOR_LSN]);
    return text;
}

void say_ending(const struct reading *reading)
{
    hide_progress();
    if (reading->error != 0) {
        fflush(stdout);
        fprintf(stderr, "drivelog: %s: %s\n", path, system_in_words(reading->error));
    } else if (reading->found != 0) {
        say_refusal();
    }
}

/* ---------------------------------------------------------------- a record */

int is_listed(const uint64_t *record) { return record[DRIVELOG_RECORD_MARK] == DRIVELOG_MARK_COMMITTED; }

uint64_t size_words(const uint64_t *record) { return 3 + (record[DRIVELOG_RECORD_LENGTH] + 7) / 8; }

void copy_payload(const uint64_t *record, uint8_t *payload)
{
    uint64_t answer[DRIVELOG_REPLY_WORDS];
    drivelog_fetch(IMAGE, record[DRIVELOG_RECORD_POS], record[DRIVELOG_RECORD_LENGTH], payload, DRIVELOG_MAX_PAYLOAD, answer,
                   DRIVELOG_REPLY_WORDS);
}

uint64_t named_by(const uint64_t *record)
{
    uint8_t payload[DRIVELOG_MAX_PAYLOAD];
    uint64_t named = 0;
    if (record[DRIVELOG_RECORD_KIND] != DRIVELOG_REPLACEMENT_KIND || record[DRIVELOG_RECORD_LENGTH] < DRIVELOG_NAME_BYTES)
        return 0;
    copy_payload(record, payload);
    for (int i = DRIVELOG_NAME_BYTES - 1; i >= 0; i--)
        named = named << 8 | payload[i];
    return named;
}

uint64_t missing_inspection(const struct reading *reading, uint64_t index)
{
    const uint64_t *record = reading->records[index];
    uint64_t named = is_listed(record) ? named_by(record) : 0;
    for (uint64_t i = 0; i < index; i++)
        if (is_listed(reading->records[i]) && reading->records[i][DRIVELOG_RECORD_LSN] == named)
            return 0;
    return named;
}

int64_t longest_payload(const struct reading *reading)
{
    uint64_t room = room_words(reading);
    if (room < 3 || reading->count == DRIVELOG_MAX_RECORDS)
        return -1;
    return 8 * (room - 3) < DRIVELOG_MAX_PAYLOAD ? (int64_t)(8 * (room - 3)) : DRIVELOG_MAX_PAYLOAD;
}

uint64_t room_words(const struct reading *reading) { return reading->ring - 1 - reading->cursor[DRIVELOG_CURSOR_USED]; }

/* ---------------------------------------------------------------- text */

size_t character_bytes(const uint8_t *text, size_t left)
{
    /* How a character of 1 to 4 bytes begins, and the least that it may be: longer forms of smaller ones are not UTF-8. */
    static const struct { uint8_t mask, front; uint32_t least; } forms[] = {
        {0x80, 0x00, 0}, {0xE0, 0xC0, 0x80}, {0xF0, 0xE0, 0x800}, {0xF8, 0xF0, 0x10000}};
    for (size_t more = 0; more < 4; more++) {
        if ((text[0] & forms[more].mask) != forms[more].front)
            continue;
        if (more >= left)
            return 0;
        uint32_t value = text[0] & (uint8_t)~forms[more].mask;
        for (size_t i = 1; i <= more; i++) {
            if (text[i] >> 6 != 2)
                return 0;
            value = value << 6 | (text[i] & 0x3Fu);
        }
        int surrogate = value >= 0xD800 && value < 0xE000;
        return value < forms[more].least || value > 0x10FFFF || surrogate ? 0 : more + 1;
    }
    return 0;
}

/* Whether eight bytes are ASCII with no control character: each is 32 to 126, and nothing is carried from one to the next. */
static int is_plain(const uint8_t *text)
{
    const uint64_t each = 0x0101010101010101;
    uint64_t eight;
    memcpy(&eight, text, sizeof eight);
    return ((eight | (eight - 0x20 * each) | (eight + each)) & 0x80 * each) == 0;
}

int is_printable(const uint8_t *text, size_t length)
{
    for (size_t i = 0, bytes; i < length; i += bytes) {
        bytes = 8;
        if (length - i >= bytes && is_plain(text + i))
            continue;
        bytes = character_bytes(text + i, length - i);
        int control = text[i] < ' ' || text[i] == 0x7F || (bytes == 2 && text[i] == 0xC2 && text[i + 1] < 0xA0);
        if (bytes == 0 || (control && text[i] != '\t' && text[i] != '\n' && text[i] != '\r'))
            return 0;
    }
    return 1;
}
