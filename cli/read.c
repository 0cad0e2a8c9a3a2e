/* read.c: the commands that read. They make no op and leave the file as it is. */

#define _DEFAULT_SOURCE
#include "reader.h"

#include <errno.h>
#include <fcntl.h>
#include <inttypes.h>
#include <stdio.h>
#include <stdlib.h>
#include <string.h>
#include <sys/file.h>
#include <sys/stat.h>
#include <time.h>
#include <unistd.h>

enum {
    RING_DRAWN = 64,      /* characters of the ring's line */
    MAX_WAIT = 1000000000 /* seconds: for ever */
};

int try_again(void)
{
    static uint64_t end; /* in milliseconds */
    struct timespec time, pause = {0, 10000000};
    if (errno != EWOULDBLOCK || wait_seconds == 0 || clock_gettime(CLOCK_MONOTONIC, &time) != 0)
        return 0;
    uint64_t now = 1000 * (uint64_t)time.tv_sec + (uint64_t)time.tv_nsec / 1000000;
    if (end == 0)
        end = now + 1000 * (wait_seconds < MAX_WAIT ? wait_seconds : MAX_WAIT);
    if (now < end)
        nanosleep(&pause, NULL);
    errno = EWOULDBLOCK;
    return now < end;
}

/* Opens a file and locks it: processes that read may do so beside each other, and not beside one that writes. A FIFO or a device is not
 * opened at all, since opening alone may block or do something. */
static int open_and_lock(const char *name, struct stat *about)
{
    if (stat(name, about) != 0)
        return -1;
    errno = S_ISDIR(about->st_mode) ? EISDIR : ENODEV;
    int file = S_ISREG(about->st_mode) ? open(name, O_RDONLY | O_NONBLOCK | O_CLOEXEC) : -1;
    if (file >= 0 && flock(file, LOCK_SH | LOCK_NB) == 0 && fstat(file, about) == 0)
        return file;
    int error = errno;
    if (file >= 0)
        close(file);
    errno = error;
    return -1;
}

/* At most as many bytes as an image has. A size that no image has is one of 0 words. */
static int read_file(int file, size_t index)
{
    char *image = (char *)drive.images[index];
    size_t bytes = 0, room = sizeof drive.images[index];
    ssize_t got = 1;
    while (bytes < room && (got = read(file, image + bytes, room - bytes)) > 0)
        bytes += (size_t)got;
    int whole = bytes % 8 == 0 && file_bytes[index] <= room;
    if (bytes < room)
        file_bytes[index] = bytes;
    drive.modules[index].words = whole ? bytes / 8 : 0;
    return got < 0 ? -1 : 0;
}

/* Opens, locks and reads every file that is there, all before one is given back. Returns 0 if another process has one. */
static int read_files(void)
{
    int files[HANDLE_MODULES], open_elsewhere = 0;
    for (size_t i = 0; i < path_count; i++) {
        struct stat about;
        files[i] = open_and_lock(paths[i], &about);
        file_bytes[i] = files[i] < 0 ? 0 : (uint64_t)about.st_size;
        drive.modules[i].why = files[i] < 0 || read_file(files[i], i) < 0 ? HANDLE_SYSTEM + errno : 0;
        open_elsewhere |= drive.modules[i].why == HANDLE_SYSTEM + EWOULDBLOCK;
    }
    for (size_t i = 0; i < path_count; i++)
        if (files[i] >= 0)
            close(files[i]);
    errno = EWOULDBLOCK;
    return !open_elsewhere;
}

/* Of three the proved call chooses, on the images; then they are as they were read. */
static void choose_image(void)
{
    static uint64_t as_read[HANDLE_MODULES][HANDLE_WORDS];
    for (size_t i = 0; i < HANDLE_MODULES; i++)
        if (drive.modules[i].words == 0 && drive.modules[i].why == 0)
            drive.modules[i].why = DRIVELOG_IMAGE_SIZE;
    memcpy(as_read, drive.images, sizeof as_read);
    int64_t answer = handle_choose(&drive);
    memcpy(drive.images, as_read, sizeof as_read);
    drive.reply[DRIVELOG_REPLY_NUMBER] = answer < 0 ? (uint64_t)-answer : 0;
}

int try_read_images(void)
{
    drive.module_count = path_count;
    drive.chosen = 0;
    int had;
    while (!(had = read_files()) && try_again()) {
    }
    if (!had)
        return -1;
    if (path_count == HANDLE_MODULES) {
        choose_image();
        return 0;
    }
    errno = drive.modules[0].why - HANDLE_SYSTEM;
    drive.words = drive.modules[0].words;
    drive.reply[DRIVELOG_REPLY_NUMBER] = 0;
    return drive.modules[0].why != 0 ? -1 : 0;
}

void read_images(void)
{
    if (try_read_images() != 0)
        fail_by_system();
}

/* Refusals 1 and 4, of three modules 19, as loglist prints them; standard error has them in words. */
static void open_to_read(uint64_t *cursor)
{
    say_modules();
    if (drive.reply[DRIVELOG_REPLY_NUMBER] == 0 && drivelog_open(IMAGE, cursor, DRIVELOG_CURSOR_WORDS, REPLY) >= 0)
        return;
    printf("refused %" PRIu64 "\n", drive.reply[DRIVELOG_REPLY_NUMBER]);
    say_refusal();
    exit(REFUSED);
}

int64_t next(uint64_t *cursor, uint64_t *record)
{
    return drivelog_next(IMAGE, cursor, DRIVELOG_CURSOR_WORDS, record, DRIVELOG_RECORD_WORDS, REPLY);
}

/* The last line of a listing, by what `next` answered after the last record, and the status that it means. */
static int end_of_listing(int64_t found)
{
    if (found == 0) {
        printf("end %" PRIu64 "\n", drive.reply[DRIVELOG_REPLY_SECOND]);
        return DONE;
    }
    if (found == -DRIVELOG_DAMAGED)
        printf("damaged %" PRIu64 " %s\n", drive.reply[DRIVELOG_REPLY_DETAIL], test_word(drive.reply[DRIVELOG_REPLY_SECOND]));
    else if (found == -DRIVELOG_TOO_MANY)
        printf("toomany %" PRIu64 "\n", drive.reply[DRIVELOG_REPLY_DETAIL]);
    say_refusal();
    return REFUSED;
}

void say_record(uint64_t lsn, uint64_t kind, uint64_t length, const uint8_t *payload)
{
    printf("%" PRIu64 " %" PRIu64 " %" PRIu64 " ", lsn, kind, length);
    for (uint64_t i = 0; i < length; i++)
        printf("%02x", payload[i]);
    puts(length == 0 ? "-" : "");
}

int list(void)
{
    uint64_t cursor[DRIVELOG_CURSOR_WORDS], record[DRIVELOG_RECORD_WORDS];
    uint8_t payload[DRIVELOG_MAX_PAYLOAD];
    int64_t found;
    read_images();
    open_to_read(cursor);
    puts("lsn kind length data");
    while ((found = next(cursor, record)) == 1) {
        if (record[DRIVELOG_RECORD_MARK] == DRIVELOG_MARK_RELEASED)
            continue;
        uint64_t length = record[DRIVELOG_RECORD_LENGTH];
        granted(drivelog_fetch(IMAGE, record[DRIVELOG_RECORD_POS], length, payload, sizeof payload, REPLY));
        say_record(record[DRIVELOG_RECORD_LSN], record[DRIVELOG_RECORD_KIND], length, payload);
    }
    return end_of_listing(found);
}

static int is_one_of(uint64_t lsn, const uint64_t *lsns, size_t count)
{
    for (size_t i = 0; i < count; i++)
        if (lsns[i] == lsn)
            return 1;
    return 0;
}

int orphans(void)
{
    uint64_t cursor[DRIVELOG_CURSOR_WORDS], record[DRIVELOG_RECORD_WORDS], listed[DRIVELOG_MAX_RECORDS];
    size_t count = 0;
    int64_t found;
    read_images();
    open_to_read(cursor);
    while ((found = next(cursor, record)) == 1) {
        if (record[DRIVELOG_RECORD_MARK] == DRIVELOG_MARK_RELEASED)
            continue;
        uint64_t named = named_by(record);
        if (named != 0 && !is_one_of(named, listed, count))
            printf("%" PRIu64 "\n", record[DRIVELOG_RECORD_LSN]);
        listed[count++] = record[DRIVELOG_RECORD_LSN];
    }
    return end_of_listing(found);
}

/* ---------------------------------------------------------------- info */

/* Puts a character for `count` words of the ring from `pos` on into the line, which has `cells` of them. A cell in which a listed record
 * has words shows that one and not what else is there. */
static void draw(char *line, uint64_t cells, uint64_t ring, uint64_t pos, uint64_t count, char character)
{
    for (uint64_t i = 0; i < count; i++) {
        char *cell = &line[(pos + i) % ring * cells / ring];
        if (character != 'r' || *cell != '#')
            *cell = character;
    }
}

static void say_room(uint64_t room, uint64_t records)
{
    printf("room     %" PRIu64 " words", room);
    if (room < 3 || records == DRIVELOG_MAX_RECORDS)
        printf(": for no record\n");
    else
        printf(": for a record of %" PRIu64 " bytes\n", 8 * (room - 3) < DRIVELOG_MAX_PAYLOAD ? 8 * (room - 3) : DRIVELOG_MAX_PAYLOAD);
}

/* How far one of the copies can be read: its epoch and end, or why not. */
static void say_readable(size_t index)
{
    uint64_t cursor[DRIVELOG_CURSOR_WORDS], record[DRIVELOG_RECORD_WORDS];
    size_t chosen = drive.chosen;
    drive.chosen = index;
    int64_t found = drivelog_open(IMAGE, cursor, DRIVELOG_CURSOR_WORDS, REPLY) < 0 ? -1 : 1;
    while (found == 1)
        found = next(cursor, record);
    if (found == 0)
        printf("epoch %" PRIu64 ", end LSN %" PRIu64, cursor[DRIVELOG_CURSOR_SUPERLINE_EPOCH], cursor[DRIVELOG_CURSOR_LSN]);
    else {
        char text[200];
        const char *words = refusal_in_words(text, sizeof text);
        printf("not readable: refused %" PRIu64 ": %s", drive.reply[DRIVELOG_REPLY_NUMBER], words);
    }
    drive.chosen = chosen;
}

static size_t words_that_differ(size_t index)
{
    size_t count = 0;
    for (size_t i = 0; i < drive.words; i++)
        count += drive.images[index][i] != drive.images[drive.chosen][i];
    return count;
}

/* Each of three modules: whether it is there, how far it can be read, and what a recovery would do with it. */
static void say_copies(void)
{
    uint64_t number = drive.reply[DRIVELOG_REPLY_NUMBER];
    for (size_t i = 0; path_count == HANDLE_MODULES && i < HANDLE_MODULES; i++) {
        printf("module   %s: ", paths[i]);
        if (drive.modules[i].words == 0) {
            printf("absent: %s\n", handle_text(drive.modules[i].why));
            continue;
        }
        say_readable(i);
        if (number != 0)
            puts("");
        else if (i == drive.chosen)
            puts(", chosen");
        else if (drive.modules[i].repaired)
            printf(", differs in %zu words, a recovery repairs it\n", words_that_differ(i));
        else
            puts(", equal to the chosen one");
    }
    drive.reply[DRIVELOG_REPLY_NUMBER] = number;
}

int info(void)
{
    uint64_t cursor[DRIVELOG_CURSOR_WORDS], record[DRIVELOG_RECORD_WORDS], listed = 0, released = 0;
    char line[RING_DRAWN + 1] = "";
    int64_t found;
    read_images();
    say_copies();
    open_to_read(cursor);
    uint64_t ring = drive.words - SUPERLINE_WORDS, cells = ring < RING_DRAWN ? ring : RING_DRAWN;
    uint64_t head = cursor[DRIVELOG_CURSOR_POS], head_lsn = cursor[DRIVELOG_CURSOR_LSN];
    memset(line, ' ', cells);
    while ((found = next(cursor, record)) == 1) {
        int gone = record[DRIVELOG_RECORD_MARK] == DRIVELOG_MARK_RELEASED;
        released += gone;
        listed += !gone;
        draw(line, cells, ring, record[DRIVELOG_RECORD_POS], 3 + (record[DRIVELOG_RECORD_LENGTH] + 7) / 8, gone ? 'r' : '#');
    }
    /* Where the log has no end, nobody knows what is free. */
    for (char *cell = line; *cell != '\0'; cell++)
        if (*cell == ' ')
            *cell = found == 0 ? '.' : '?';
    draw(line, cells, ring, cursor[DRIVELOG_CURSOR_POS], 1, found == 0 ? 'E' : 'X');
    if (listed + released > 0)
        draw(line, cells, ring, head, 1, 'H');

    uint64_t lsn = cursor[DRIVELOG_CURSOR_LSN], pos = cursor[DRIVELOG_CURSOR_POS];
    printf("words    %zu, of which the ring has %" PRIu64 "\n", drive.words, ring);
    printf("epoch    %" PRIu64 "\n", cursor[DRIVELOG_CURSOR_SUPERLINE_EPOCH]);
    printf("head     LSN %" PRIu64 " at position %" PRIu64 "\n", head_lsn, head);
    if (found == 0)
        printf("end      LSN %" PRIu64 " at position %" PRIu64 "\n", lsn, pos);
    else if (found == -DRIVELOG_DAMAGED)
        printf("damaged  LSN %" PRIu64 " at position %" PRIu64 ": %s\n", lsn, pos, test_in_words(drive.reply[DRIVELOG_REPLY_SECOND]));
    else
        printf("toomany  LSN %" PRIu64 " at position %" PRIu64 "\n", lsn, pos);
    printf("records  %" PRIu64 " listed, %" PRIu64 " released%s", listed, released, found == 0 ? "" : " before that");
    printf("; a log holds %d\n", DRIVELOG_MAX_RECORDS);
    if (found == 0)
        say_room(ring - 1 - cursor[DRIVELOG_CURSOR_USED], listed + released);
    else
        puts("room     not known");
    printf("ring     %s\n", line);
    granted(found);
    return DONE;
}
