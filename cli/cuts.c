/* cuts.c: every crash of a few ops on a copy of a module, each recovered and listed. The crashes are those of the proved calls
 * drivelog_crash_count and drivelog_crash_image. The file is only read. */

#define _DEFAULT_SOURCE
#include "reader.h"

#include "driver.h"

#include <errno.h>
#include <inttypes.h>
#include <stdio.h>
#include <stdlib.h>
#include <string.h>
#include <unistd.h>

enum {
    MOST_OPS_WORDS = DRIVELOG_THREE_OPS_WORDS, /* no call puts more, and more than 4,095 ops have more than 4,096 crashes */
    RECORD_HEAD = 3,                           /* words before the payload of a record that is held: LSN, kind, length */
    MOST_FOUND = DRIVELOG_MAX_IMAGE + 8 * RECORD_HEAD * DRIVELOG_MAX_RECORDS /* bytes of the longest list */
};

/* The op buffer, and the module's words. The working image of each crash is the handle's. */
static uint64_t ops[MOST_OPS_WORDS + 1], module[DRIVELOG_MAX_IMAGE_WORDS];
static size_t ops_words;

/* What a recovery finds, and the crashes that leave it. */
struct found {
    uint64_t crashes, first, point; /* how many there are, the number of the first, and the ops that are done there */
    uint64_t refused;               /* the number of the refusal, or 0 */
    uint64_t count, end;            /* records, and the LSN at the end */
    size_t start, bytes;            /* of its records among those that are held */
    char why[200];                  /* a refusal in words */
};

static struct found all[DRIVELOG_MAX_CRASHES + 1]; /* the last of them for what the next crash leaves */
static size_t all_count;

/* The records of each list, one list after another: LSN, kind, length, payload; of a refusal the words of the reply. */
static uint8_t *held;
static size_t held_room;

#define MODULE module, drive.words, ops, ops_words

/* ---------------------------------------------------------------- what is given */

static _Noreturn void fail_by_ops(const char *name, const char *what)
{
    fflush(stdout);
    fprintf(stderr, "drivelog: the ops in %s %s\n", name, what);
    exit(REFUSED);
}

static void read_ops(const char *name)
{
    char text[100];
    int file = open_input("ops", name);
    size_t bytes = 0;
    ssize_t got;
    while (bytes < sizeof ops && (got = read(file, (char *)ops + bytes, sizeof ops - bytes)) != 0) {
        if (got < 0 && errno != EINTR)
            fail_to_read("ops", name);
        bytes += got > 0 ? (size_t)got : 0;
    }
    if (file != STDIN_FILENO)
        close(file);
    ops_words = bytes / 8;
    if (ops_words > MOST_OPS_WORDS) {
        snprintf(text, sizeof text, "are more than %d, the most that a call puts", MOST_OPS_WORDS / DRIVELOG_OP_WORDS);
        fail_by_ops(name, text);
    }
    if (bytes % 8 != 0) {
        snprintf(text, sizeof text, "have %zu bytes, which are not whole words of 8 bytes", bytes);
        fail_by_ops(name, text);
    }
}

static void read_module(void)
{
    if (path_count != 1)
        fail("cuts takes one module; name one of the three");
    read_images();
    memcpy(module, drive.images[0], sizeof module);
}

/* ---------------------------------------------------------------- refusals of the ops */

static _Noreturn void refuse_op(uint64_t number)
{
    char text[300];
    const uint64_t *op = ops + DRIVELOG_OP_WORDS * number;
    size_t left = ops_words - DRIVELOG_OP_WORDS * (size_t)number;
    if (left < DRIVELOG_OP_WORDS)
        snprintf(text, sizeof text, "refused 21: op %" PRIu64 ", the last one, has %zu of its 3 words", number, left);
    else
        snprintf(text, sizeof text,
                 "refused 21: op %" PRIu64 ", %" PRIu64 " %" PRIu64 " %" PRIu64
                 ", is neither a store to one of the %zu words nor a flush of one or more of them",
                 number, op[0], op[1], op[2], drive.words);
    fail(text);
}

/* How many of the ops, from the first on, have few enough crashes. Each op more has more of them. */
static _Noreturn void refuse_so_many(void)
{
    char text[200];
    size_t all_ops = ops_words / DRIVELOG_OP_WORDS, few = 0, many = all_ops;
    int64_t crashes = 1;
    while (many - few > 1) {
        size_t half = few + (many - few) / 2;
        int64_t answer = drivelog_crash_count(module, drive.words, ops, DRIVELOG_OP_WORDS * half, REPLY);
        crashes = answer < 0 ? crashes : answer;
        few = answer < 0 ? few : half;
        many = answer < 0 ? half : many;
    }
    snprintf(text, sizeof text, "refused 22: more than %d crashes: the first %zu of the %zu ops have %" PRId64, DRIVELOG_MAX_CRASHES, few, all_ops,
             crashes);
    fail(text);
}

/* How many crashes there are. */
static uint64_t count_crashes(void)
{
    int64_t answer = drivelog_crash_count(MODULE, REPLY);
    if (answer == -DRIVELOG_BAD_OP)
        refuse_op(drive.reply[DRIVELOG_REPLY_DETAIL]);
    if (answer == -DRIVELOG_TOO_MANY_CRASHES)
        refuse_so_many();
    return granted(answer);
}

/* The image of a crash, in the handle's: the crash point. */
static uint64_t leave_image(uint64_t number)
{
    return granted(drivelog_crash_image(MODULE, number, IMAGE, REPLY));
}

/* ---------------------------------------------------------------- what a recovery finds */

static void hold(struct found *found, const void *bytes, size_t count)
{
    memcpy(held + found->start + found->bytes, bytes, count);
    found->bytes += count;
}

/* Room for the longest list after those that are held. */
static void need_room(size_t start)
{
    if (held_room - start >= MOST_FOUND)
        return;
    size_t room = 2 * held_room + MOST_FOUND;
    uint8_t *more = realloc(held, room);
    if (more == NULL)
        fail(strerror(errno));
    held = more;
    held_room = room;
}

static void hold_record(struct found *found, const uint64_t *record)
{
    uint8_t payload[DRIVELOG_MAX_PAYLOAD];
    const uint64_t head[RECORD_HEAD] = {record[DRIVELOG_RECORD_LSN], record[DRIVELOG_RECORD_KIND], record[DRIVELOG_RECORD_LENGTH]};
    copy_payload(record, payload);
    hold(found, head, sizeof head);
    hold(found, payload, (size_t)record[DRIVELOG_RECORD_LENGTH]);
    found->count++;
}

/* Recovers the image of the handle, which is a copy, and reads its records. */
static void recover_image(struct found *found)
{
    uint64_t cursor[DRIVELOG_CURSOR_WORDS], record[DRIVELOG_RECORD_WORDS];
    int64_t answer = drivelog_recover(drive.state, DRIVELOG_STATE_WORDS, IMAGE, drive.ops[0], HANDLE_OPS_WORDS, REPLY);
    if (answer == 0)
        answer = drivelog_open(IMAGE, cursor, DRIVELOG_CURSOR_WORDS, REPLY);
    while (answer >= 0 && (answer = next(cursor, record)) == 1)
        if (is_listed(record))
            hold_record(found, record);
    found->end = drive.reply[DRIVELOG_REPLY_SECOND];
    if (answer < 0) {
        char text[sizeof found->why];
        found->refused = drive.reply[DRIVELOG_REPLY_NUMBER];
        found->bytes = 0;
        hold(found, drive.reply, 8 * DRIVELOG_REPLY_WORDS);
        snprintf(found->why, sizeof found->why, "%s", refusal_in_words(text, sizeof text));
    }
}

static int is_same(const struct found *one, const struct found *other)
{
    return one->refused == other->refused && one->end == other->end && one->bytes == other->bytes
           && memcmp(held + one->start, held + other->start, one->bytes) == 0;
}

/* What one crash leaves, among all that was found. */
static void try_crash(uint64_t number)
{
    struct found *found = &all[all_count];
    size_t at = 0;
    memset(found, 0, sizeof *found);
    found->start = all_count == 0 ? 0 : all[all_count - 1].start + all[all_count - 1].bytes;
    found->first = number;
    found->point = leave_image(number);
    need_room(found->start);
    recover_image(found);
    while (!is_same(&all[at], found))
        at++;
    all_count += at == all_count;
    all[at].crashes++;
}

/* ---------------------------------------------------------------- the table */

/* Goes to the next record of a list, from `*at` bytes after its start: its payload, null after the last. */
static const uint8_t *next_held(const struct found *found, size_t *at, uint64_t *head)
{
    if (found->refused != 0 || *at == found->bytes)
        return NULL;
    const uint8_t *record = held + found->start + *at;
    memcpy(head, record, 8 * RECORD_HEAD);
    *at += 8 * RECORD_HEAD + (size_t)head[2];
    return record + 8 * RECORD_HEAD;
}

/* The LSNs as " LSN 1 to 3, 5". */
static void say_lsns(const struct found *found)
{
    uint64_t head[RECORD_HEAD], last = 0, first = 0;
    size_t at = 0;
    const char *before = " LSN ";
    while (next_held(found, &at, head) != NULL) {
        if (last > 0 && head[0] == last + 1) {
            last = head[0];
            continue;
        }
        if (last > first)
            printf(" to %" PRIu64, last);
        printf("%s%" PRIu64, before, head[0]);
        before = ", ";
        first = last = head[0];
    }
    if (last > first)
        printf(" to %" PRIu64, last);
}

/* Whether two have records of the same LSNs. */
static int same_lsns(const struct found *one, const struct found *other)
{
    uint64_t head[RECORD_HEAD], other_head[RECORD_HEAD];
    size_t at = 0, other_at = 0;
    if (one->count != other->count || one->end != other->end || one->refused != other->refused)
        return 0;
    while (next_held(one, &at, head) != NULL && next_held(other, &other_at, other_head) != NULL)
        if (head[0] != other_head[0])
            return 0;
    return 1;
}

static void say_found(size_t index, int verbose)
{
    uint64_t head[RECORD_HEAD];
    size_t at = 0;
    const uint8_t *payload;
    const struct found *found = &all[index];
    printf("%5zu %8" PRIu64 " %6" PRIu64 " %6" PRIu64 "  ", index + 1, found->crashes, found->first, found->point);
    if (found->refused != 0) {
        printf("refused %" PRIu64 ": %s\n", found->refused, found->why);
        return;
    }
    if (found->count == 0)
        fputs("no records", stdout);
    else
        printf("%" PRIu64 " record%s,", found->count, found->count == 1 ? "" : "s");
    say_lsns(found);
    printf(", end %" PRIu64, found->end);
    for (size_t i = 0; i < index; i++)
        if (same_lsns(&all[i], found)) {
            printf("; other data than in %zu", i + 1);
            break;
        }
    puts("");
    while (verbose && (payload = next_held(found, &at, head)) != NULL) {
        fputs("      ", stdout);
        say_record(head[0], head[1], head[2], payload);
    }
}

int cuts(const char *ops_name, int verbose)
{
    read_module();
    read_ops(ops_name);
    uint64_t crashes = count_crashes(), lost = 0, refusals = 0;
    for (uint64_t i = 0; i < crashes; i++)
        try_crash(i);
    for (size_t i = 0; i < all_count; i++) {
        refusals += all[i].refused != 0;
        lost += all[i].refused != 0 ? all[i].crashes : 0;
    }
    size_t count = ops_words / DRIVELOG_OP_WORDS, lists = all_count - (size_t)refusals;
    printf("%zu op%s, %" PRIu64 " crash%s, %zu list%s", count, count == 1 ? "" : "s", crashes, crashes == 1 ? "" : "es", lists, lists == 1 ? "" : "s");
    if (refusals > 0)
        printf(", %" PRIu64 " refusal%s", refusals, refusals == 1 ? "" : "s");
    puts("\nfound  crashes  first  after  what");
    for (size_t i = 0; i < all_count && !ferror(stdout); i++)
        say_found(i, verbose);
    free(held);
    if (lost == 0)
        return DONE;
    fflush(stdout);
    fprintf(stderr, "drivelog: %s: %" PRIu64 " of %" PRIu64 " crash%s leave%s no log that recovers\n", path, lost, crashes, crashes == 1 ? "" : "es",
            lost == 1 ? "s" : "");
    return REFUSED;
}

int write_cut(const char *ops_name, uint64_t number, const char *output)
{
    static uint64_t stores[DRIVELOG_OP_WORDS * (DRIVELOG_MAX_IMAGE_WORDS + 1)];
    read_module();
    read_ops(ops_name);
    uint64_t crashes = count_crashes();
    if (number >= crashes) {
        char text[200];
        snprintf(text, sizeof text, "refused 23: no crash has number %" PRIu64 ": there are %" PRIu64 ", numbered from 0", number, crashes);
        fail(text);
    }
    uint64_t point = leave_image(number);
    struct driver_module *written = driver_make(output, drive.words, stores, put_stores(stores, drive.images[0], drive.words));
    if (written == NULL) {
        path = output;
        fail(errno == EEXIST ? "it is there already; cuts makes a new file" : strerror(errno));
    }
    driver_close(written);
    printf("crash %" PRIu64 ", after %" PRIu64 " of %zu ops: written to ", number, point, ops_words / DRIVELOG_OP_WORDS);
    put_name(output);
    puts("");
    return DONE;
}
