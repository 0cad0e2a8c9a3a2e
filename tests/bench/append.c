/* Times an append through the calls for C, and through the handle.
 *
 *     append                 four calls: reserve, copy, complete, force
 *     append once            the one call, drivelog_append
 *     append carried-four    four calls, and their ops are carried out on a module in /dev/shm
 *     append carried         the same with the one call
 *     append checked         and where that answers durable the module's path is looked at, which are the calls that the handle makes
 *     append handle          the handle, on one module there
 *     append three           the handle, on three
 *
 * Standard input: five little-endian words, job, bytes, live, count and words. A log with `live` records, all durable, is set up. Timed,
 * `count` times:
 *
 *     job 1     an append with frequency 8, and releases from the head on until `live` records are left: job 1 of crates/bench
 *     job 16    an append with frequency 8, and no release: after every eighth the state's words are what they were at the start
 *     job 17    the same with frequency 1
 *
 * So in jobs 16 and 17 there are `live` to `live` + 8 records, at most 256, and an eighth of the time that 4,160 bytes take to be copied is
 * in each append's. Standard output: the microseconds of CPU time, and the CRC-32 of the image's words, or of the last module's. Bad
 * input: nothing. The modules are files that are gone at the end. */

#define _DEFAULT_SOURCE
#include "handle.h"

#include <stdio.h>
#include <stdlib.h>
#include <string.h>
#include <time.h>
#include <unistd.h>
#include <zlib.h>

enum mode { FOUR, ONCE, CARRIED_FOUR, CARRIED, CHECKED, HANDLE, THREE, MODES };
static const char *const names[MODES] = {"", "once", "carried-four", "carried", "checked", "handle", "three"};
enum { TRIMMED = 1, RECORDS = 16, DURABLE = 17, TURN = 8, TABLE = 256 };

/* Its words are lent to the calls where there is no handle. */
static struct handle drive;
/* LSNs: of the oldest live record, of the next one, of the newest durable one. */
static uint64_t head = 1, next = 1, committed = 0;
static enum mode mode;
static char path[HANDLE_MODULES][64], *paths[] = {path[0], path[1], path[2]};

#define LENT drive.state, DRIVELOG_STATE_WORDS, drive.images[0], drive.words, drive.ops[0], HANDLE_OPS_WORDS
#define REPLY drive.reply, DRIVELOG_REPLY_WORDS

static void fail(const char *what)
{
    perror(what);
    exit(1);
}

/* What a call answered; with a module its ops are carried out. */
static int64_t made(int64_t answer)
{
    if (mode > ONCE && answer >= 0 && driver_carry(drive.modules[0].module, drive.ops[0], drive.reply[DRIVELOG_REPLY_OPS]) != 0)
        fail("append: driver_carry");
    return answer;
}

/* Records up to an LSN are durable. */
static void is_durable(uint64_t lsn)
{
    if (mode == CHECKED && driver_check(drive.modules[0].module, paths[0]) != 0)
        fail(paths[0]);
    committed = lsn;
}

static void force(uint64_t lsn, uint64_t frequency)
{
    if ((mode >= HANDLE ? handle_force(&drive, lsn, frequency) : made(drivelog_force(LENT, lsn, frequency, REPLY))) == 1)
        is_durable(lsn);
}

/* A refused call leaves the state as it is, and the next one goes on from there. */
static void append_by_four(const uint8_t *payload, size_t bytes, uint64_t frequency)
{
    int64_t lsn = made(drivelog_reserve(LENT, 1, bytes, REPLY));
    if (lsn < 0)
        return;
    next = (uint64_t)lsn + 1;
    made(drivelog_copy(LENT, (uint64_t)lsn, 0, payload, bytes, REPLY));
    made(drivelog_complete(LENT, (uint64_t)lsn, REPLY));
    force((uint64_t)lsn, frequency);
}

static void append_by_one(const uint8_t *payload, size_t bytes, uint64_t frequency)
{
    int64_t lsn = made(drivelog_append(LENT, 1, payload, bytes, frequency, REPLY));
    if (lsn < 0)
        return;
    next = (uint64_t)lsn + 1;
    if (drive.reply[DRIVELOG_REPLY_SECOND] == 1)
        is_durable((uint64_t)lsn);
}

static void append_by_handle(const uint8_t *payload, size_t bytes, uint64_t frequency)
{
    int64_t lsn = handle_append(&drive, 1, payload, bytes, frequency);
    if (lsn >= 0)
        next = (uint64_t)lsn + 1;
    committed = drive.durable_lsn;
}

static void append(const uint8_t *payload, size_t bytes, uint64_t frequency)
{
    if (mode == FOUR || mode == CARRIED_FOUR)
        append_by_four(payload, bytes, frequency);
    else if (mode < HANDLE)
        append_by_one(payload, bytes, frequency);
    else
        append_by_handle(payload, bytes, frequency);
}

static void trim(uint64_t live)
{
    while (next - head > live && head <= committed) {
        int64_t answer = mode >= HANDLE ? handle_release(&drive, head) : made(drivelog_release(LENT, head, REPLY));
        if (answer < 0)
            return;
        head++;
    }
}

/* An empty log of so many words, on the modules that the mode asks for. */
static void format(size_t words)
{
    for (size_t i = 0; i < HANDLE_MODULES; i++)
        snprintf(path[i], sizeof path[i], "/dev/shm/bench-append-%ld-%zu", (long)getpid(), i);
    drive.words = words;
    if (mode <= ONCE)
        made(drivelog_format(LENT, REPLY));
    else if (handle_format(&drive, paths, mode == THREE ? HANDLE_MODULES : 1, words) < 0)
        fail("append: handle_format");
}

/* Appends, and after each the releases that leave `live` records. */
static void append_and_trim(const uint8_t *payload, size_t bytes, uint64_t live, uint64_t count)
{
    for (uint64_t i = 0; i < count; i++) {
        append(payload, bytes, 8);
        trim(live);
    }
}

/* Appends, of which every eighth is followed by the state as it is now. The records are written over and over. */
static void append_records(const uint8_t *payload, size_t bytes, uint64_t frequency, uint64_t count)
{
    static uint64_t now[DRIVELOG_STATE_WORDS];
    memcpy(now, drive.state, sizeof now);
    for (uint64_t i = 0; i < count; i++) {
        if (i % TURN == 0)
            memcpy(drive.state, now, sizeof now);
        append(payload, bytes, frequency);
    }
}

int main(int arguments, char **argument)
{
    uint64_t input[5];
    while (mode < MODES && strcmp(names[mode], arguments == 2 ? argument[1] : "") != 0)
        mode++;
    if (arguments > 2 || mode == MODES) {
        fputs("usage: append [once|carried-four|carried|checked|handle|three]\n", stderr);
        return 2;
    }
    if (fread(input, 8, 5, stdin) != 5)
        return 0;
    uint64_t job = input[0], bytes = input[1], live = input[2], count = input[3], words = input[4];
    int known = job == TRIMMED || ((job == RECORDS || job == DURABLE) && live % TURN == 0 && live + TURN <= TABLE);
    if (!known || bytes < 1 || bytes > 1024 || live > TABLE || words < 40 || words > 8192)
        return 0;

    uint8_t payload[1024];
    for (size_t i = 0; i < bytes; i++)
        payload[i] = (uint8_t)(7 * i + 3);
    format((size_t)words);
    for (uint64_t i = 0; i < live; i++)
        append(payload, bytes, 8);
    force(next - 1, 1);

    clock_t start = clock();
    if (job == TRIMMED)
        append_and_trim(payload, bytes, live, count);
    else
        append_records(payload, bytes, job == RECORDS ? 8 : 1, count);
    clock_t end = clock();
    const uint64_t *left = mode <= ONCE ? drive.images[0] : drive.modules[drive.module_count - 1].module->words;
    uLong crc = crc32(0, (const Bytef *)left, (uInt)(8 * words));
    handle_close(&drive);
    for (size_t i = 0; mode > ONCE && i < HANDLE_MODULES; i++)
        unlink(paths[i]);
    printf("%lld %lu\n", (long long)(end - start) * 1000000 / CLOCKS_PER_SEC, crc);
    return 0;
}
