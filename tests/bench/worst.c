/* The calls of include/drivelog.h in the cases that cost most, each made once, for tests/bench/worst.
 *
 *     worst list     a line a case, with tabs: its number, the call, the words of the image, live records and bytes (or ops) at worst, which
 *                    of these it grows with (w image, l live records, b bytes, o ops, q their square), and why it is the worst, with # for
 *                    the bytes
 *     worst count    makes the call of each case that standard input names, as four numbers: case, words, live, bytes. The call is made by the
 *                    function `measured` and by nothing else, so that callgrind can count it alone
 *     worst stack    the same in a thread whose stack was painted before; a line each, how many bytes of it are no longer painted
 *
 * A log is set up by the calls themselves. Status 2 and a line if a call is refused that should be granted, or granted though its case says that it
 * is refused. Case 0 makes no call. */

#define _DEFAULT_SOURCE
#include "drivelog.h"

#include <pthread.h>
#include <stdio.h>
#include <stdlib.h>
#include <string.h>
#include <sys/mman.h>

enum {
    WORDS = DRIVELOG_MAX_IMAGE_WORDS,
    MODULES = 3,
    RING_START = 24,
    HEAD_WORDS = 3, /* of a record, before its payload */
    MOST_SIZE = HEAD_WORDS + DRIVELOG_MAX_PAYLOAD / 8,
    MOST_POINTS = DRIVELOG_MAX_CRASHES - 1, /* ops, each with one crash */
    STACK = 1 << 20,
    PAINT = 0xA7
};

/* What a case is made for. */
static size_t words, live, length;

static uint64_t state[DRIVELOG_STATE_WORDS], images[MODULES][WORDS], ops[MODULES][DRIVELOG_THREE_OPS_WORDS], reply[DRIVELOG_THREE_REPLY_WORDS];
static uint64_t cursor[DRIVELOG_CURSOR_WORDS], record[DRIVELOG_RECORD_WORDS], rows[DRIVELOG_ROW_WORDS * DRIVELOG_MAX_RECORDS];
static uint8_t payload[DRIVELOG_MAX_PAYLOAD], output[DRIVELOG_MAX_PAYLOAD];
static uint64_t lsn, pos, ops_words;

#define IMAGE images[0], words
#define LENT state, DRIVELOG_STATE_WORDS, IMAGE, ops[0], DRIVELOG_THREE_OPS_WORDS
#define REPLY reply, DRIVELOG_REPLY_WORDS
#define BYTES (const uint8_t *)images[0], 8 * words

/* No case finds what another left. */
static void clear(void)
{
    memset(state, 0, sizeof state);
    memset(images, 0, sizeof images);
    memset(ops, 0, sizeof ops);
    memset(reply, 0, sizeof reply);
    memset(rows, 0, sizeof rows);
    memset(output, 0, sizeof output);
    lsn = pos = ops_words = 0;
}

static int64_t need(int64_t answer)
{
    if (answer >= 0)
        return answer;
    fprintf(stderr, "worst: refused %d: %s\n", (int)-answer, drivelog_refusal_text(answer));
    exit(2);
}

/* ---------------------------------------------------------------- logs */

/* A record, complete; its LSN is then in `lsn`, its ring position in `pos`. */
static void put(uint64_t kind, size_t bytes)
{
    lsn = (uint64_t)need(drivelog_reserve(LENT, kind, bytes, REPLY));
    pos = reply[DRIVELOG_REPLY_SECOND];
    need(drivelog_copy(LENT, lsn, 0, payload, bytes, REPLY));
    need(drivelog_complete(LENT, lsn, REPLY));
}

static void commit(void) { need(drivelog_force(LENT, lsn, 1, REPLY)); }
static void release(uint64_t which) { need(drivelog_release(LENT, which, REPLY)); }

/* An empty log whose next record is at a ring position, which is none of the first two but 0. */
static void begin(size_t at)
{
    for (size_t i = 0; i < sizeof payload; i++)
        payload[i] = (uint8_t)(7 * i + 3);
    need(drivelog_format(LENT, REPLY));
    while (at > 0) {
        size_t size = at < MOST_SIZE ? at : at - MOST_SIZE < HEAD_WORDS && at > MOST_SIZE ? at - HEAD_WORDS : MOST_SIZE;
        put(1, 8 * (size - HEAD_WORDS));
        commit();
        release(lsn);
        at -= size;
    }
}

/* So many records of no bytes, complete and not committed, with so many words before the ring's end that they, or what follows them, go round
 * it. */
static void many(size_t count, size_t before_end)
{
    size_t ring = words - RING_START;
    begin(before_end + HEAD_WORDS < ring ? ring - before_end : 0);
    for (size_t i = 0; i < count; i++)
        put(1, 0);
}

/* The middle of a record of `length` bytes after so many others is at the ring's end. */
static size_t round_after(size_t count) { return HEAD_WORDS * count + HEAD_WORDS + length / 16; }

static void before_reserve(void) { many(live, round_after(live)); }
static void before_reserve_flat(void) { many(live, words); }

static void before_copy(void)
{
    many(live - 1, round_after(live - 1));
    lsn = (uint64_t)need(drivelog_reserve(LENT, 1, length, REPLY));
}

static void before_complete(void)
{
    before_copy();
    need(drivelog_copy(LENT, lsn, 0, payload, length, REPLY));
}

static void before_force(void) { many(live, HEAD_WORDS * live / 2 + 1); }

static void before_release_all(void)
{
    before_force();
    commit();
}

/* The head, and `live` - 1 records after it of one kind, some of them released. `lsn` is the head's. */
static void heads(uint64_t kind, size_t released)
{
    begin(0);
    put(1, 0);
    uint64_t head = lsn;
    for (size_t i = 1; i < live; i++)
        put(kind, kind == DRIVELOG_REPLACEMENT_KIND ? DRIVELOG_NAME_BYTES : 0);
    commit();
    for (size_t i = 1; i <= released && i < live; i++)
        release(head + i);
    lsn = head;
}

static void before_release_vain(void) { heads(DRIVELOG_REPLACEMENT_KIND, 0); }
static void before_release_named(void) { heads(DRIVELOG_REPLACEMENT_KIND, live); }
static void before_release_other(void) { heads(1, live); }
/* The last of them names the head. */
static void before_release_held(void)
{
    heads(DRIVELOG_REPLACEMENT_KIND, 0);
    images[0][RING_START + pos + HEAD_WORDS] = lsn;
}

static void before_release_half(void) { heads(DRIVELOG_REPLACEMENT_KIND, live / 2); }

/* `live` records that take all of the ring but the terminator's word, as equal as can be, the first at a ring position, each `less` bytes shorter
 * than its words; the last one may have a size of its own. */
static void fill(size_t at, size_t last, size_t less)
{
    size_t left = words - RING_START - 1 - last, records = live - (last > 0);
    begin(at);
    for (size_t i = 0; i < records; i++) {
        size_t size = left / (records - i);
        size = size < MOST_SIZE ? size : MOST_SIZE;
        left -= size;
        put(1, size == HEAD_WORDS ? 0 : 8 * (size - HEAD_WORDS) - less);
    }
    if (last > 0)
        put(1, 8 * (last - HEAD_WORDS));
    commit();
}

static void full(void) { fill(0, 0, 0); }
static void full_odd(void) { fill(0, 0, 1); }
static void full_round(void) { fill((words - RING_START) / 2 + HEAD_WORDS, 0, 1); }
static void full_long(void) { fill(0, MOST_SIZE, 1); }

/* The same with every mark that of a released record. */
static void full_released(void)
{
    full_odd();
    int64_t listed = need(drivelog_list(BYTES, rows, sizeof rows / sizeof rows[0]));
    for (int64_t i = 0; i < listed; i++)
        images[0][RING_START + rows[DRIVELOG_ROW_WORDS * i + DRIVELOG_ROW_POS]] ^= (uint64_t)(DRIVELOG_MARK_COMMITTED ^ DRIVELOG_MARK_RELEASED) << 48;
}

/* The same with an epoch in the newest record that no state has had. */
static void full_late(void)
{
    full_round();
    images[0][RING_START + (pos + 2) % (words - RING_START)] |= (uint64_t)UINT32_MAX << 32;
}

/* Three copies of a full log, equal, or with the last word of the second and third another. It is the terminator, which may hold any number whose
 * mark is 0. */
static void three_equal(void)
{
    full_odd();
    memcpy(images[1], images[0], sizeof images[1]);
    memcpy(images[2], images[0], sizeof images[2]);
}

static void three_differ(void)
{
    three_equal();
    images[1][words - 1] = images[2][words - 1] = 1;
}

/* The second is damaged in its newest record. */
static void three_damaged(void)
{
    three_differ();
    images[1][RING_START + pos + 2] ^= 1;
}

/* One committed record that goes round the ring's end, and a cursor at it. */
static void one_record(void)
{
    begin(words - RING_START - HEAD_WORDS - length / 16);
    put(1, length);
    commit();
    need(drivelog_open(IMAGE, cursor, DRIVELOG_CURSOR_WORDS, REPLY));
}

static void empty(void) { begin(0); }
static void no_log(void) { memset(state, 0xA5, sizeof state), memset(images, 0xA5, sizeof images); }

/* `length` ops: to free words, from the end of the log on; to one word after another, or to one, of a value that is there; flushes of all. */
static void put_op(size_t index, uint64_t code, uint64_t word, uint64_t value)
{
    uint64_t *op = ops[0] + DRIVELOG_OP_WORDS * index;
    op[0] = code, op[1] = word, op[2] = value;
    ops_words = DRIVELOG_OP_WORDS * (index + 1);
}

static void before_vet(void)
{
    many(live, HEAD_WORDS * live / 2 + 1);
    size_t ring = words - RING_START, used = HEAD_WORDS * live + 1, end = live > 0 ? pos + HEAD_WORDS : 0;
    ops_words = 0;
    for (size_t i = 0; i < length; i++)
        put_op(i, DRIVELOG_OP_STORE, RING_START + (end + 1 + i % (ring - used)) % ring, i);
}

static void before_vet_other(void)
{
    before_vet();
    put_op(length - 1, DRIVELOG_OP_STORE, 0, 0);
}

static void before_vet_flushes(void)
{
    before_vet();
    for (size_t i = 0; i < length; i++)
        put_op(i, DRIVELOG_OP_FLUSH, i % words, words - i % words);
}

static void stores_of_each(void)
{
    for (size_t i = 0; i < length; i++)
        put_op(i, DRIVELOG_OP_STORE, i % words, 0);
}

static void stores_of_one(void)
{
    for (size_t i = 0; i < length; i++)
        put_op(i, DRIVELOG_OP_STORE, words - 1, 0);
}

static void flushes_of_all(void)
{
    for (size_t i = 0; i < length; i++)
        put_op(i, DRIVELOG_OP_FLUSH, 0, words);
}

static void stores_and_flushes(void)
{
    for (size_t i = 0; i < length; i++)
        put_op(i, i % 8 == 0 ? DRIVELOG_OP_FLUSH : DRIVELOG_OP_STORE, 0, i % 8 == 0 ? words : 0);
}

/* ---------------------------------------------------------------- the calls */

static int64_t nothing(void) { return 0; }
static int64_t state_words(void) { return (int64_t)drivelog_state_words(); }
static int64_t count(void) { return drivelog_count(BYTES); }
static int64_t damage(void) { return drivelog_damage(BYTES); }
static int64_t kind_of(void) { return drivelog_kind(BYTES, live - 1); }
static int64_t lsn_of(void) { return drivelog_lsn(BYTES, live - 1); }
static int64_t epoch_of(void) { return drivelog_epoch(BYTES, live - 1); }
static int64_t payload_of(void) { return drivelog_payload(BYTES, live - 1, output, sizeof output); }
static int64_t list(void) { return drivelog_list(BYTES, rows, sizeof rows / sizeof rows[0]); }
static int64_t payload_at(void) { return drivelog_payload_at(BYTES, pos, length, output, sizeof output); }
static int64_t format(void) { return drivelog_format(LENT, REPLY); }
static int64_t reserve(void) { return drivelog_reserve(LENT, 1, length, REPLY); }
static int64_t copy(void) { return drivelog_copy(LENT, lsn, 0, payload, length, REPLY); }
static int64_t copy_odd(void) { return drivelog_copy(LENT, lsn, length > 0, payload, length - (length > 0), REPLY); }
static int64_t complete(void) { return drivelog_complete(LENT, lsn, REPLY); }
static int64_t force(void) { return drivelog_force(LENT, lsn, 1, REPLY); }
static int64_t force_short(void) { return drivelog_force(state, DRIVELOG_STATE_WORDS, IMAGE, ops[0], 6 * live, lsn, 1, REPLY); }
static int64_t release_head(void) { return drivelog_release(LENT, lsn, REPLY); }
static int64_t release_all(void) { return drivelog_release_all(LENT, REPLY); }
static int64_t recover(void) { return drivelog_recover(LENT, REPLY); }
static int64_t recover_short(void) { return drivelog_recover(state, DRIVELOG_STATE_WORDS, IMAGE, ops[0], 0, REPLY); }
static int64_t open(void) { return drivelog_open(IMAGE, cursor, DRIVELOG_CURSOR_WORDS, REPLY); }
static int64_t next(void) { return drivelog_next(IMAGE, cursor, DRIVELOG_CURSOR_WORDS, record, DRIVELOG_RECORD_WORDS, REPLY); }
static int64_t fetch(void) { return drivelog_fetch(IMAGE, pos, length, output, sizeof output, REPLY); }
static int64_t vet(void) { return drivelog_vet(state, DRIVELOG_STATE_WORDS, IMAGE, ops[0], ops_words, REPLY); }
static int64_t crash_count(void) { return drivelog_crash_count(IMAGE, ops[0], ops_words, REPLY); }
static int64_t crash_image(void) { return drivelog_crash_image(IMAGE, ops[0], ops_words, ops_words / DRIVELOG_OP_WORDS, images[1], words, REPLY); }
static int64_t recover_three(void)
{
#define COPY(i) images[i], words
#define OPS(i) ops[i], DRIVELOG_THREE_OPS_WORDS
    return drivelog_recover_three(state, DRIVELOG_STATE_WORDS, COPY(0), COPY(1), COPY(2), 7, OPS(0), OPS(1), OPS(2), reply,
                                  DRIVELOG_THREE_REPLY_WORDS);
#undef COPY
#undef OPS
}

#ifdef HAS_APPEND
static int64_t append(void) { return drivelog_append(LENT, 1, payload, length, 1, REPLY); }
#endif

/* ---------------------------------------------------------------- the cases */

struct job {
    const char *call;
    int64_t (*make)(void);
    void (*prepare)(void);
    size_t words, live, length;
    const char *grows; /* w image, l live records, b bytes, o ops */
    const char *why;
};

/* Of a call with several cases the script takes the one with the most instructions. */
static const struct job jobs[] = {
    {"nothing", nothing, empty, WORDS, 0, 0, "", ""},
    {"drivelog_count", count, full, WORDS, 256, 0, "wl", "the image full with 256 records, whole words"},
    {"drivelog_count", count, full_odd, WORDS, 256, 0, "wl", "the image full with 256 records, each a byte short of whole words"},
    {"drivelog_count", count, full_round, WORDS, 256, 0, "wl", "the image full with 256 records, each a byte short of whole words, one round the ring's end"},
    {"drivelog_count", count, full_odd, WORDS, 64, 0, "w", "the image full with 64 records"},
    {"drivelog_damage", damage, full_odd, WORDS, 256, 0, "wl", "as drivelog_count: no record is damaged, so that all are tested"},
    {"drivelog_damage", damage, full_round, WORDS, 256, 0, "wl", "as drivelog_count: no record is damaged, so that all are tested"},
    {"drivelog_damage", damage, full_late, WORDS, 256, 0, "wl", "as drivelog_count; the newest record fails the last of its tests"},
    {"drivelog_kind", kind_of, full_odd, WORDS, 256, 0, "wl", "as drivelog_count, the newest record"},
    {"drivelog_kind", kind_of, full_round, WORDS, 256, 0, "wl", "as drivelog_count, the newest record"},
    {"drivelog_lsn", lsn_of, full_odd, WORDS, 256, 0, "wl", "as drivelog_count, the newest record"},
    {"drivelog_lsn", lsn_of, full_round, WORDS, 256, 0, "wl", "as drivelog_count, the newest record"},
    {"drivelog_epoch", epoch_of, full_odd, WORDS, 256, 0, "wl", "as drivelog_count, the newest record"},
    {"drivelog_epoch", epoch_of, full_round, WORDS, 256, 0, "wl", "as drivelog_count, the newest record"},
    {"drivelog_payload", payload_of, full_odd, WORDS, 256, 0, "wl", "as drivelog_count, the newest record"},
    {"drivelog_payload", payload_of, full_long, WORDS, 256, 0, "wl", "the image full with 256 records, the newest with 1,024 bytes"},
    {"drivelog_list", list, full_odd, WORDS, 256, 0, "wl", "as drivelog_count, with a row for each of 256 records"},
    {"drivelog_list", list, full_round, WORDS, 256, 0, "wl", "as drivelog_count, with a row for each of 256 records"},
    {"drivelog_payload_at", payload_at, one_record, WORDS, 1, 1024, "wb", "# bytes round the ring's end"},
    {"drivelog_state_words", state_words, empty, WORDS, 0, 0, "", "always the same"},
    {"drivelog_format", format, no_log, WORDS, 0, 0, "w", "whatever state and image hold"},
    {"drivelog_reserve", reserve, before_reserve, WORDS, 255, 1024, "wlb", "255 live records are tested; a record of # bytes, round the ring's end"},
    {"drivelog_reserve", reserve, before_reserve_flat, WORDS, 255, 1024, "wlb", "255 live records are tested; a record of # bytes"},
    {"drivelog_reserve", reserve, before_reserve, WORDS, 256, 1024, "wlb", "refused 9: 256 live records are tested"},
    {"drivelog_copy", copy, before_copy, WORDS, 256, 1024, "wlb", "256 live records are tested; all # bytes of a record, round the ring's end"},
    {"drivelog_copy", copy_odd, before_copy, WORDS, 256, 1024, "wlb", "256 live records are tested; all # bytes of a record but the first, round the ring's end"},
    {"drivelog_complete", complete, before_complete, WORDS, 256, 1024, "wlb", "256 live records are tested; the check of # bytes, round the ring's end"},
    {"drivelog_force", force, before_force, WORDS, 256, 0, "wl", "256 records, none committed, round the ring's end: 514 ops"},
    {"drivelog_force", force_short, before_force, WORDS, 256, 0, "wl", "refused 15: 256 records, none committed, and an op buffer that is too short"},
    {"drivelog_release", release_head, before_release_held, WORDS, 256, 0, "wl", "refused 20: the last of 255 records of kind 600 names the head"},
    {"drivelog_release", release_head, before_release_other, WORDS, 256, 0, "wl", "256 live records are tested; the head goes past 255 released ones, which become free"},
    {"drivelog_release", release_head, before_release_named, WORDS, 256, 0, "wl", "256 live records are tested; the head goes past 255 released ones of kind 600, which become free"},
    {"drivelog_release", release_head, before_release_vain, WORDS, 256, 0, "wl", "256 live records are tested; a holder is searched in vain among 255 committed ones of kind 600"},
    {"drivelog_release", release_head, before_release_half, WORDS, 256, 0, "wl", "256 live records are tested; the head goes past 128 released ones, and a holder is searched in vain among 127 others"},
    {"drivelog_release_all", release_all, before_release_all, WORDS, 256, 0, "wl", "256 live records, all committed"},
    {"drivelog_recover", recover, full, WORDS, 256, 0, "wl", "the image full with 256 records, whole words"},
    {"drivelog_recover", recover, full_odd, WORDS, 256, 0, "wl", "the image full with 256 records, each a byte short of whole words"},
    {"drivelog_recover", recover, full_round, WORDS, 256, 0, "wl", "the image full with 256 records, each a byte short of whole words, one round the ring's end"},
    {"drivelog_recover", recover, full_released, WORDS, 256, 0, "wl", "the image full with 256 released records"},
    {"drivelog_recover", recover_short, full_round, WORDS, 256, 0, "wl", "refused 15: the image full with 256 records, and no op buffer"},
    {"drivelog_recover_three", recover_three, three_equal, WORDS, 256, 0, "wl", "three full images, equal"},
    {"drivelog_recover_three", recover_three, three_differ, WORDS, 256, 0, "wl", "three full images, two of which differ from the chosen one in their last word: both are repaired"},
    {"drivelog_recover_three", recover_three, three_damaged, WORDS, 256, 0, "wl", "three full images, one damaged in its newest record and one different in its last word: both are repaired"},
    {"drivelog_vet", vet, before_vet, WORDS, 256, 8207, "wlo", "256 live records are tested; 8,207 stores to free words"},
    {"drivelog_vet", vet, before_vet_other, WORDS, 256, 8207, "wlo", "refused 21: 256 live records are tested; 8,207 stores, the last to a word of the superline"},
    {"drivelog_vet", vet, before_vet_flushes, WORDS, 256, 8207, "wlo", "256 live records are tested; 8,207 flushes"},
    {"drivelog_crash_count", crash_count, stores_of_each, WORDS, 0, MOST_POINTS, "wq", "4,095 stores to as many words, each of the value that is there: for each store all ops before it are looked at"},
    {"drivelog_crash_count", crash_count, stores_of_one, WORDS, 0, MOST_POINTS, "wq", "4,095 stores to one word, each of the value that is there: for each store all ops before it are looked at"},
    {"drivelog_crash_count", crash_count, stores_of_each, WORDS, 0, 8207, "wq", "refused 22: 8,207 stores, each of a value that is there: for each of the first 4,096 all ops before it are looked at"},
    {"drivelog_crash_count", crash_count, flushes_of_all, WORDS, 0, MOST_POINTS, "wq", "4,095 flushes of all words"},
    {"drivelog_crash_count", crash_count, stores_and_flushes, WORDS, 0, MOST_POINTS, "wq", "4,095 stores to one word, each of the value that is there, and flushes between"},
    {"drivelog_crash_image", crash_image, stores_of_each, WORDS, 0, MOST_POINTS, "wq", "the last crash of 4,095 stores to as many words, each of the value that is there"},
    {"drivelog_crash_image", crash_image, stores_of_one, WORDS, 0, MOST_POINTS, "wq", "the last crash of 4,095 stores to one word, each of the value that is there"},
    {"drivelog_crash_image", crash_image, stores_and_flushes, WORDS, 0, MOST_POINTS, "wq", "the last crash of 4,095 stores to one word, each of the value that is there, and flushes between"},
    {"drivelog_open", open, empty, WORDS, 0, 0, "w", "always the same: the check of the superline"},
    {"drivelog_next", next, one_record, WORDS, 1, 1024, "wb", "# bytes, round the ring's end"},
    {"drivelog_fetch", fetch, one_record, WORDS, 1, 1024, "wb", "# bytes, round the ring's end"},
#ifdef HAS_APPEND
    {"drivelog_append", append, before_reserve, WORDS, 255, 1024, "wlb", "255 live records are tested, and forced with it; # bytes, round the ring's end"},
#endif
};
enum { JOBS = sizeof jobs / sizeof jobs[0] };

/* ---------------------------------------------------------------- how they are made */

/* callgrind counts from its entry to its end. */
__attribute__((noinline)) int64_t measured(int64_t (*make)(void));
int64_t measured(int64_t (*make)(void))
{
    volatile int64_t answer = make();
    return answer;
}

struct made {
    int64_t (*make)(void);
    int64_t answer;
};

static void *in_thread(void *made)
{
    struct made *m = made;
    m->answer = m->make();
    return NULL;
}

/* The bytes of a thread's stack that are no longer painted once it has made the call. */
static size_t stack_of(struct made *made)
{
    uint8_t *stack = mmap(NULL, STACK, PROT_READ | PROT_WRITE, MAP_PRIVATE | MAP_ANONYMOUS, -1, 0);
    pthread_attr_t attributes;
    pthread_t thread;
    if (stack == MAP_FAILED)
        exit(2);
    memset(stack, PAINT, STACK);
    if (pthread_attr_init(&attributes) != 0 || pthread_attr_setstack(&attributes, stack, STACK) != 0
        || pthread_create(&thread, &attributes, in_thread, made) != 0 || pthread_join(thread, NULL) != 0)
        exit(2);
    size_t painted = 0;
    while (painted < STACK && stack[painted] == PAINT)
        painted++;
    munmap(stack, STACK);
    return STACK - painted;
}

int main(int arguments, char **argument)
{
    const char *way = arguments == 2 ? argument[1] : "";
    size_t number;
    if (strcmp(way, "list") == 0) {
        for (size_t i = 0; i < JOBS; i++)
            printf("%zu\t%s\t%zu\t%zu\t%zu\t%s\t%s\n", i, jobs[i].call, jobs[i].words, jobs[i].live, jobs[i].length, jobs[i].grows, jobs[i].why);
        return 0;
    }
    if (strcmp(way, "count") != 0 && strcmp(way, "stack") != 0) {
        fputs("usage: worst list | count | stack\n", stderr);
        return 2;
    }
    while (scanf("%zu %zu %zu %zu", &number, &words, &live, &length) == 4) {
        if (number >= JOBS || words > WORDS || live > DRIVELOG_MAX_RECORDS || DRIVELOG_OP_WORDS * length > DRIVELOG_THREE_OPS_WORDS)
            return 2;
        struct made made = {jobs[number].make, 0};
        clear();
        jobs[number].prepare();
        if (way[0] == 'c')
            made.answer = measured(made.make);
        else
            printf("%zu\n", stack_of(&made));
        need(strncmp(jobs[number].why, "refused ", 8) == 0 ? -made.answer : made.answer);
    }
    return 0;
}
