/* message.c: what goes wrong, in words. A message names one cause. */

#define _DEFAULT_SOURCE
#include "tool.h"

#include <errno.h>
#include <inttypes.h>
#include <stdarg.h>
#include <stdio.h>
#include <stdlib.h>
#include <string.h>

uint64_t asked_kind, asked_length, asked_lsn;

void usage(const char *format, ...)
{
    va_list arguments;
    fputs("drivelog: ", stderr);
    va_start(arguments, format);
    vfprintf(stderr, format, arguments);
    va_end(arguments);
    fputs("; see drivelog --help\n", stderr);
    exit(WRONG_LINE);
}

static _Noreturn void fail_with(int status, const char *what)
{
    fflush(stdout);
    fprintf(stderr, "drivelog: %s: %s\n", path, what);
    exit(status);
}

_Noreturn void fail(const char *what) { fail_with(REFUSED, what); }

const char *system_in_words(int error)
{
    switch (error) {
    case EWOULDBLOCK: return "another process has it open";
    case EEXIST: return "it is there already; format makes a new file";
    case EISDIR: return "it is a directory; a log is in a regular file";
    case ENODEV: return "it is a FIFO, a device or a socket; a log is in a regular file";
    default: return strerror(error);
    }
}

_Noreturn void fail_by_system(void) { fail_with(errno == EWOULDBLOCK ? OPEN_ELSEWHERE : REFUSED, system_in_words(errno)); }

_Noreturn void fail_to_read_input(void)
{
    fflush(stdout);
    fprintf(stderr, "drivelog: standard input cannot be read: %s\n", strerror(errno));
    exit(REFUSED);
}

const char *test_word(uint64_t test)
{
    static const char *const names[] = {"?", "mark", "kind", "length", "fit", "LSN", "check", "epoch"};
    return names[test < sizeof names / sizeof names[0] ? test : 0];
}

const char *test_in_words(uint64_t test)
{
    static const char *const means[] = {
        "it fails a test",
        "its mark is above 2",
        "its kind is 0",
        "its length is above 1024",
        "it does not fit the log",
        "its LSN is not the expected one",
        "its check is wrong",
        "its epoch is lower than the one before it or higher than the log's",
    };
    return means[test < sizeof means / sizeof means[0] ? test : 0];
}

/* ---------------------------------------------------------------- a superline that is refused */

/* CRC-32 bit by bit: it is for a message, and the proved calls have decided already. */
static uint32_t crc32_of(const uint64_t *from, size_t bytes)
{
    uint32_t sum = UINT32_MAX;
    for (size_t i = 0; i < 8 * bytes; i++) {
        uint32_t bit = (uint32_t)(from[i / 64] >> i % 64) & 1;
        sum = (sum ^ bit) & 1 ? sum >> 1 ^ 0xEDB88320 : sum >> 1;
    }
    return ~sum;
}

int has_its_check(const uint64_t *copy) { return copy[COPY_CHECK] == crc32_of(copy, 8 * COPY_CHECK); }

const uint64_t *chosen_image(void) { return drive.images[drive.chosen]; }
/* The bytes of its file. */
static uint64_t bytes_of_file(void) { return file_bytes[drive.chosen]; }

/* The copy of the superline that the selector names, if the file is long enough to have both. */
static const uint64_t *active_copy(void)
{
    return bytes_of_file() >= 8 * SUPERLINE_WORDS && chosen_image()[0] <= 1 ? chosen_image() + COPY_WORDS * (1 + chosen_image()[0]) : NULL;
}

/* Whether the superline is good and says another size than the file has; `text` then says both. */
static int says_other_size(char *text, size_t room)
{
    const uint64_t *copy = active_copy();
    if (copy == NULL || !has_its_check(copy) || copy[COPY_RING] > DRIVELOG_MAX_IMAGE_WORDS)
        return 0;
    uint64_t bytes = 8 * (copy[COPY_RING] + SUPERLINE_WORDS), in_file = bytes_of_file();
    snprintf(text, room, "the log in it has %" PRIu64 " bytes, the file has %" PRIu64 "%s", bytes, in_file,
             in_file < bytes ? ": cut short?" : ": has it grown?");
    return bytes != in_file;
}

static const char *size_in_words(char *text, size_t room)
{
    uint64_t bytes = bytes_of_file();
    if (bytes == 0)
        return "the file is empty";
    if (!says_other_size(text, room))
        snprintf(text, room, "%" PRIu64 " bytes are not the size of an image, which has 40 to 8192 whole words of 8 bytes", bytes);
    return text;
}

static int all_zero(void)
{
    for (size_t i = 0; i < drive.words; i++)
        if (chosen_image()[i] != 0)
            return 0;
    return 1;
}

static const char *superline_in_words(char *text, size_t room)
{
    const uint64_t *copy = active_copy();
    if (all_zero())
        return "not formatted: every byte is 0";
    if (says_other_size(text, room))
        return text;
    if (copy == NULL)
        snprintf(text, room, "no log begins here: the selector is %" PRIu64 ", not 0 or 1", chosen_image()[0]);
    else if (!has_its_check(copy))
        snprintf(text, room, "no log begins here: copy %" PRIu64 " of the superline has a wrong check", chosen_image()[0]);
    else
        snprintf(text, room, "no log begins here: copy %" PRIu64 " of the superline has a number out of its range", chosen_image()[0]);
    return text;
}

/* ---------------------------------------------------------------- a refusal */

static const char *argument_in_words(char *text, size_t room)
{
    if (asked_kind == 0 || asked_kind > DRIVELOG_MAX_KIND)
        snprintf(text, room, "kind %" PRIu64 " is not 1 to %d", asked_kind, DRIVELOG_MAX_KIND);
    else if (asked_length > DRIVELOG_MAX_PAYLOAD)
        snprintf(text, room, "the payload has more than %d bytes", DRIVELOG_MAX_PAYLOAD);
    else if (asked_kind == DRIVELOG_REPLACEMENT_KIND && asked_length < DRIVELOG_NAME_BYTES)
        snprintf(text, room, "a record of kind %d begins with the LSN that it names, %d bytes", DRIVELOG_REPLACEMENT_KIND,
                 DRIVELOG_NAME_BYTES);
    else
        return drivelog_refusal_text(DRIVELOG_ARGUMENT);
    return text;
}

const char *refusal_in_words(char *text, size_t room)
{
    uint64_t detail = drive.reply[DRIVELOG_REPLY_DETAIL];
    const char *test = test_in_words(drive.reply[DRIVELOG_REPLY_SECOND]);
    switch (drive.reply[DRIVELOG_REPLY_NUMBER]) {
    case DRIVELOG_IMAGE_SIZE: return size_in_words(text, room);
    case DRIVELOG_ARGUMENT: return argument_in_words(text, room);
    case DRIVELOG_SUPERLINE: return superline_in_words(text, room);
    case DRIVELOG_TABLE_FULL: return "the log holds 256 records; release some";
    case DRIVELOG_NO_ROOM: return "no room for this record; release some";
    case DRIVELOG_NOT_LIVE:
        if (asked_lsn == 0 || asked_lsn > MAX_LSN)
            snprintf(text, room, "LSN %" PRIu64 " is not 1 to %" PRIu64, asked_lsn, MAX_LSN);
        else
            snprintf(text, room, "no live record has LSN %" PRIu64, asked_lsn);
        return text;
    case DRIVELOG_WRONG_STAGE: snprintf(text, room, "record %" PRIu64 " is released already", asked_lsn); return text;
    case DRIVELOG_HELD: snprintf(text, room, "record %" PRIu64 " rests on it; release that one first", detail); return text;
    case DRIVELOG_UNFINISHED: snprintf(text, room, "record %" PRIu64 " is not complete or not committed", detail); return text;
    case DRIVELOG_DAMAGED: snprintf(text, room, "record %" PRIu64 " is damaged: %s", detail, test); return text;
    case DRIVELOG_TOO_MANY:
        snprintf(text, room, "too many records: the log holds 256, and LSN %" PRIu64 " is one more", detail);
        return text;
    case DRIVELOG_OPS_SHORT: snprintf(text, room, "the op buffer is too short: %" PRIu64 " words are needed", detail); return text;
    case DRIVELOG_BAD_OP: snprintf(text, room, "op %" PRIu64 " does not pass", detail); return text;
    default: return drivelog_refusal_text((int64_t)drive.reply[DRIVELOG_REPLY_NUMBER]);
    }
}

void say_refusal(void)
{
    char text[200];
    const char *words = refusal_in_words(text, sizeof text);
    fflush(stdout);
    fprintf(stderr, "drivelog: %s: refused %" PRIu64 ": %s\n", path, drive.reply[DRIVELOG_REPLY_NUMBER], words);
}

/* ---------------------------------------------------------------- a module that is absent or out of step */

/* What is wrong with a module, by its number, in words. */
static const char *cause_in_words(int cause)
{
    switch (cause) {
    case HANDLE_SYSTEM + EINVAL: return "its size was changed while it was open";
    case HANDLE_ALTERED: return "another program wrote to it while it was open";
    case HANDLE_SYSTEM + EISDIR: return system_in_words(EISDIR);
    case HANDLE_SYSTEM + ENODEV: return system_in_words(ENODEV);
    default: return handle_text(cause);
    }
}

void say_modules(void)
{
    static int said[HANDLE_MODULES];
    static const char *said_of;
    if (said_of != path)
        memset(said, 0, sizeof said);
    said_of = path;
    for (size_t i = 0; path_count == HANDLE_MODULES && i < HANDLE_MODULES; i++) {
        int cause = drive.modules[i].why;
        if (cause != 0 && cause != said[i])
            fprintf(stderr, "drivelog: %s: %s; it is left out\n", paths[i], cause_in_words(cause));
        said[i] = cause;
    }
}

/* Ends the program: too few modules are in step. The one module, where there is one, says why. */
static _Noreturn void fail_by_modules(void)
{
    char text[200];
    int cause = drive.modules[0].why;
    if (path_count == HANDLE_MODULES)
        fail("fewer than two modules are in step; nothing more is durable");
    if (cause == HANDLE_SYSTEM + EINVAL || cause == HANDLE_SYSTEM + ESTALE || cause == HANDLE_ALTERED)
        snprintf(text, sizeof text, "%s; nothing more is durable", cause_in_words(cause));
    else
        snprintf(text, sizeof text, "the module failed: %s; the next recovery finds what it holds", handle_text(cause));
    fail(text);
}

uint64_t granted(int64_t answer)
{
    say_modules();
    if (answer >= 0)
        return (uint64_t)answer;
    if (answer <= -HANDLE_NOT_DURABLE)
        fail_by_modules();
    say_refusal();
    exit(REFUSED);
}

_Noreturn void refuse(int number)
{
    drive.reply[DRIVELOG_REPLY_NUMBER] = (uint64_t)number;
    say_refusal();
    exit(REFUSED);
}
