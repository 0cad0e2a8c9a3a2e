/* writer SEED FILE, or writer SEED A B C: writes records into the log in one module or in three until it is killed, and reports what it does,
 * for tests/kill/kill.
 *
 * It recovers, then makes random calls, chosen by SEED: several records open at once, payloads copied in pieces, appends, some of them with
 * records open, forces with frequencies 1 to 8, releases of any record, now and then of all, now and then another recovery. A line of the report is written in one
 * piece:
 *
 *     recovering           a recovery begins
 *     step N               from now on these modules are in step, one bit each
 *     found LSN KIND HEX   a record that the recovery lists ("-" if it is empty)
 *     recovered LSN        the recovery's ops are carried out; the next record gets this LSN
 *     record LSN KIND HEX  a record is going to be reserved or appended, and to have this payload; none of its ops is carried out yet
 *     refused LSN          it was refused, and is none
 *     force LSN            a force, or an append of the record, is going to answer durable; none of its ops is carried out yet
 *     durable LSN          all of them are
 *     release LSN          a release is going to be granted; none of its ops is carried out yet
 *     released LSN         all of them are
 *     release-all          the same for a release of all
 *     released-all
 *     few N                a call answered this number: too few modules are in step; a recovery follows
 *     declined N           the recovery of three was refused with this number, and the writer ends
 *
 * A refusal that should not be, or a driver that fails, ends it with status 3 and a line on standard error. */

#define _DEFAULT_SOURCE
#include "handle.h"

#include <errno.h>
#include <inttypes.h>
#include <stdarg.h>
#include <stdio.h>
#include <stdlib.h>
#include <string.h>
#include <unistd.h>

enum { OPEN_AT_ONCE = 4, MOST_HEX = 2 * DRIVELOG_MAX_PAYLOAD + 1 };

/* A record that is reserved and not complete, and how much of its payload is copied. */
struct open_record {
    uint64_t lsn;
    size_t length, copied;
    uint8_t payload[DRIVELOG_MAX_PAYLOAD];
};

static struct handle drive;
static uint64_t seed, next_lsn, committed_lsn, steps;
static struct open_record records[OPEN_AT_ONCE];
static size_t open_count;
static int too_few;

static uint64_t below(uint64_t limit)
{
    seed ^= seed >> 12;
    seed ^= seed << 25;
    seed ^= seed >> 27;
    return (seed * 0x2545F4914F6CDD1D >> 33) % limit;
}

static void report(const char *form, ...)
{
    static char line[2 * DRIVELOG_MAX_PAYLOAD + 100];
    va_list arguments;
    va_start(arguments, form);
    int length = vsnprintf(line, sizeof line, form, arguments);
    va_end(arguments);
    if (write(STDOUT_FILENO, line, (size_t)length) != length)
        exit(3);
}

static _Noreturn void fail(const char *call, int64_t answer)
{
    fprintf(stderr, "writer: %s: %" PRId64 " (%s), detail %" PRIu64 "\n", call, answer, handle_text(answer), drive.reply[DRIVELOG_REPLY_DETAIL]);
    exit(3);
}

/* Who is in step, if that is another than was reported. */
static void report_steps(void)
{
    uint64_t now = 0;
    for (size_t i = 0; i < drive.module_count; i++)
        now |= (uint64_t)(drive.modules[i].in_step != 0) << i;
    if (now != steps)
        report("step %" PRIu64 "\n", now);
    steps = now;
}

/* What a call answered: 0 if it was not granted, which on three modules may be because too few are left. */
static int good(int64_t answer, const char *call)
{
    report_steps();
    if (answer >= 0)
        return 1;
    if (drive.module_count != HANDLE_MODULES || (answer != -HANDLE_TOO_FEW && answer != -HANDLE_NOT_DURABLE))
        fail(call, answer);
    report("few %" PRId64 "\n", -answer);
    too_few = 1;
    return 0;
}

static void in_hex(char *hex, const uint8_t *bytes, size_t length)
{
    strcpy(hex, "-");
    for (size_t i = 0; i < length; i++)
        snprintf(hex + 2 * i, 3, "%02x", bytes[i]);
}

/* The recovery, and what it lists. Everything that it finds is committed. */
static void recover(void)
{
    static struct handle_record record;
    static char hex[MOST_HEX];
    report("recovering\n");
    int64_t answer = handle_recover(&drive);
    steps = UINT64_MAX;
    open_count = 0;
    too_few = 0;
    if (answer < 0 && drive.module_count == HANDLE_MODULES) {
        report("declined %" PRId64 "\n", -answer);
        handle_close(&drive); /* with the back end for power failures, what was flushed gets into the files only so */
        exit(0);
    }
    if (answer < 0)
        fail("recover", answer);
    report_steps();
    int64_t found = handle_first(&drive);
    while (found >= 0 && (found = handle_next(&drive, &record)) == 1) {
        in_hex(hex, record.bytes, record.length);
        report("found %" PRIu64 " %" PRIu64 " %s\n", record.lsn, record.kind, hex);
    }
    if (found < 0)
        fail("first or next", found);
    next_lsn = drive.reply[DRIVELOG_REPLY_SECOND];
    committed_lsn = next_lsn - 1;
    report("recovered %" PRIu64 "\n", next_lsn);
}

/* The oldest record, or any. */
static void release_one(int oldest)
{
    static struct handle_record record;
    uint64_t passed = oldest ? 0 : below(8), lsn = 0;
    int64_t found = handle_first(&drive);
    while (found >= 0 && (found = handle_next(&drive, &record)) == 1) {
        lsn = record.lsn;
        if (passed-- == 0)
            break;
    }
    if (found < 0)
        fail("first or next", found);
    if (lsn == 0)
        return;
    report("release %" PRIu64 "\n", lsn);
    if (good(handle_release(&drive, lsn), "release"))
        report("released %" PRIu64 "\n", lsn);
}

/* A new record in the last place: its payload, and the report of it. Its kind. */
static uint64_t new_record(void)
{
    static const size_t longest[] = {0, 8, 16, 40, 40, 100, 300, DRIVELOG_MAX_PAYLOAD};
    static char hex[MOST_HEX];
    struct open_record *record = &records[open_count];
    uint64_t kind = 1 + below(65535);
    record->lsn = next_lsn;
    record->length = below(longest[below(8)] + 1);
    if (kind == DRIVELOG_REPLACEMENT_KIND && record->length < DRIVELOG_NAME_BYTES)
        kind++; /* reserve declines such a record */
    record->copied = 0;
    for (size_t i = 0; i < record->length; i++)
        record->payload[i] = (uint8_t)below(256);
    in_hex(hex, record->payload, record->length);
    report("record %" PRIu64 " %" PRIu64 " %s\n", record->lsn, kind, hex);
    return kind;
}

/* Whether that record got in. */
static int got_in(int64_t answer, const char *call)
{
    if (answer == -DRIVELOG_NO_ROOM || answer == -DRIVELOG_TABLE_FULL) {
        report("refused %" PRIu64 "\n", next_lsn);
        release_one(1);
        return 0;
    }
    if (!good(answer, call))
        return 0;
    if ((uint64_t)answer != next_lsn)
        fail(call, answer);
    next_lsn++;
    return 1;
}

static void reserve(void)
{
    uint64_t kind = new_record();
    open_count += got_in(handle_reserve(&drive, kind, records[open_count].length), "reserve");
}

/* Whether a force with a frequency answers durable: a multiple is among the LSNs not yet committed. */
static int is_due(uint64_t lsn, uint64_t frequency) { return lsn / frequency > committed_lsn / frequency; }

static void is_durable(uint64_t lsn)
{
    committed_lsn = lsn;
    report("durable %" PRIu64 "\n", lsn);
}

/* With a record open it is refused where it would be durable. */
static void append(void)
{
    uint64_t kind = new_record(), frequency = 1 + below(8), lsn = next_lsn;
    const struct open_record *record = &records[open_count];
    int due = is_due(lsn, frequency), blocked = due && open_count > 0;
    if (due && !blocked)
        report("force %" PRIu64 "\n", lsn);
    int64_t answer = handle_append(&drive, kind, record->payload, record->length, frequency);
    if (blocked && answer == -DRIVELOG_UNFINISHED) {
        report("refused %" PRIu64 "\n", lsn);
        return;
    }
    if (blocked && answer >= 0)
        fail("append", answer);
    if (got_in(answer, "append") && due != (drive.durable_lsn >= lsn))
        fail("append", due);
    if (answer >= 0 && due)
        is_durable(lsn);
}

/* A piece of an open record's payload; with the whole of it there, complete. */
static void go_on_with(size_t index)
{
    struct open_record *record = &records[index];
    size_t left = record->length - record->copied;
    if (left > 0) {
        size_t count = below(2) == 0 ? left : 1 + below(left);
        good(handle_copy(&drive, record->lsn, record->copied, record->payload + record->copied, count), "copy");
        record->copied += count;
        return;
    }
    good(handle_complete(&drive, record->lsn), "complete");
    *record = records[--open_count];
}

static void force(void)
{
    uint64_t last = next_lsn - 1;
    /* Up to the last record before one that is open. */
    for (size_t i = 0; i < open_count; i++)
        if (records[i].lsn <= last)
            last = records[i].lsn - 1;
    if (last <= committed_lsn)
        return;
    uint64_t lsn = last - below(last - committed_lsn), frequency = 1 + below(8);
    int due = is_due(lsn, frequency);
    if (due)
        report("force %" PRIu64 "\n", lsn);
    int64_t answer = handle_force(&drive, lsn, frequency);
    if (good(answer, "force") && answer != due)
        fail("force", answer);
    if (answer == 1)
        is_durable(lsn);
}

static void release_all(void)
{
    if (committed_lsn != next_lsn - 1) /* something is not committed */
        return;
    report("release-all\n");
    if (good(handle_release_all(&drive), "release all"))
        report("released-all\n");
}

int main(int count, char **argument)
{
    if (count < 3) {
        fputs("usage: writer SEED FILE, or writer SEED A B C\n", stderr);
        return 2;
    }
    seed = strtoull(argument[1], NULL, 10) * 0x9E3779B97F4A7C15 + 1;
    int64_t opened = handle_open(&drive, argument + 2, (size_t)count - 2);
    if (opened < 0 && drive.module_count != HANDLE_MODULES)
        fail("open", opened);
    recover();
    /* Some runs fill the log, some keep it nearly empty. Some append every record. */
    uint64_t releases = below(4);
    int appends_all = below(3) == 0;
    for (;;) {
        uint64_t choice = below(20);
        if (too_few || (choice == 19 && below(200) == 0))
            recover();
        else if (choice < 4 && open_count < OPEN_AT_ONCE && !appends_all)
            reserve();
        else if (choice < 6 && open_count < OPEN_AT_ONCE)
            append();
        else if (choice < 14 && open_count > 0)
            go_on_with(below(open_count));
        else if (choice < 17)
            force();
        else if (choice < 17 + releases)
            release_one(below(2) == 0);
        else if (choice == 19 && below(40) == 0)
            release_all();
    }
}
