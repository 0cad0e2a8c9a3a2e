/* How much stack each call of include/drivelog.h needs: `stack MOST MOST_ON_WORDS MOST_ON_A_RECORD MOST_ON_THREE MOST_ON_CRASHES IMAGE`
 * makes each of them in a thread whose stack was painted before, and looks how far down the paint is gone. Those that read bytes go over
 * the image in that file, the others over a log of their own.
 *
 * Standard output: a line a call, its name and the bytes. Status 1 if one that reads bytes needs more than MOST, one of reserve, copy,
 * complete, release and vet more than MOST_ON_A_RECORD, the recovery of three more than MOST_ON_THREE, one of the two of crashes more than
 * MOST_ON_CRASHES, or another one that works on words more than MOST_ON_WORDS, 2 if it could not be tried. */

#define _DEFAULT_SOURCE
#include "drivelog.h"

#include <pthread.h>
#include <stdio.h>
#include <stdlib.h>
#include <string.h>
#include <sys/mman.h>

enum { STACK = 1 << 20, PAINT = 0xA7 };

static uint8_t image[DRIVELOG_MAX_IMAGE], output[DRIVELOG_MAX_PAYLOAD];
static uint64_t rows[4 * DRIVELOG_MAX_RECORDS];
static size_t bytes;

static int64_t nothing(void) { return 0; }
static int64_t count(void) { return drivelog_count(image, bytes); }
static int64_t damage(void) { return drivelog_damage(image, bytes); }
static int64_t kind(void) { return drivelog_kind(image, bytes, 0); }
static int64_t lsn(void) { return drivelog_lsn(image, bytes, 0); }
static int64_t epoch(void) { return drivelog_epoch(image, bytes, 0); }
static int64_t payload(void) { return drivelog_payload(image, bytes, 0, output, sizeof output); }
static int64_t list(void) { return drivelog_list(image, bytes, rows, sizeof rows / sizeof rows[0]); }
static int64_t payload_at(void) { return drivelog_payload_at(image, bytes, rows[3], rows[2], output, sizeof output); }

static uint64_t state[DRIVELOG_STATE_WORDS], log_words[DRIVELOG_MAX_IMAGE / 8], ops[DRIVELOG_OPS_WORDS], reply[DRIVELOG_REPLY_WORDS];
static uint64_t cursor[DRIVELOG_CURSOR_WORDS], record[DRIVELOG_RECORD_WORDS];

#define LOG log_words, DRIVELOG_MAX_IMAGE / 8
#define LENT state, DRIVELOG_STATE_WORDS, LOG, ops, DRIVELOG_OPS_WORDS
#define REPLY reply, DRIVELOG_REPLY_WORDS

/* One record of the longest payload, from format to its release, and one more in one call. */
static int64_t format(void) { return drivelog_format(LENT, REPLY); }
static int64_t reserve(void) { return drivelog_reserve(LENT, 17, sizeof output, REPLY); }
static int64_t copy(void) { return drivelog_copy(LENT, 1, 0, output, sizeof output, REPLY); }
static int64_t complete(void) { return drivelog_complete(LENT, 1, REPLY); }
static int64_t force(void) { return drivelog_force(LENT, 1, 1, REPLY); }
static int64_t recover(void) { return drivelog_recover(LENT, REPLY); }
static int64_t open(void) { return drivelog_open(LOG, cursor, DRIVELOG_CURSOR_WORDS, REPLY); }
static int64_t next(void) { return drivelog_next(LOG, cursor, DRIVELOG_CURSOR_WORDS, record, DRIVELOG_RECORD_WORDS, REPLY); }
static int64_t fetch(void) { return drivelog_fetch(LOG, 0, sizeof output, output, sizeof output, REPLY); }
static int64_t release(void) { return drivelog_release(LENT, 1, REPLY); }
static int64_t append(void) { return drivelog_append(LENT, 17, output, sizeof output, 1, REPLY); }
static int64_t release_all(void) { return drivelog_release_all(LENT, REPLY); }

/* Ops of somebody else: one store, and a flush of all. */
static const uint64_t notes[] = {1, DRIVELOG_MAX_IMAGE / 8 - 1, 5, 2, 0, DRIVELOG_MAX_IMAGE / 8};
static int64_t vet(void) { return drivelog_vet(state, DRIVELOG_STATE_WORDS, LOG, notes, sizeof notes / sizeof notes[0], REPLY); }

/* The log on three modules of 8,192 words, of which the second and the third differ from the first. */
static uint64_t others[2][DRIVELOG_MAX_IMAGE / 8], three_ops[3][DRIVELOG_THREE_OPS_WORDS], three_reply[DRIVELOG_THREE_REPLY_WORDS];
static int64_t recover_three(void)
{
    return drivelog_recover_three(state, DRIVELOG_STATE_WORDS, LOG, others[0], DRIVELOG_MAX_IMAGE / 8, others[1], DRIVELOG_MAX_IMAGE / 8, 7,
                                  three_ops[0], DRIVELOG_THREE_OPS_WORDS, three_ops[1], DRIVELOG_THREE_OPS_WORDS, three_ops[2],
                                  DRIVELOG_THREE_OPS_WORDS, three_reply, DRIVELOG_THREE_REPLY_WORDS);
}

/* The crashes over ops that store to words once and again and flush some: how many, and the last of them. */
static const uint64_t crash_ops[] = {1, 100, 5, 1, 100, 6, 1, 200, 7, 2, 100, 1, 1, 300, 8, 2, 0, DRIVELOG_MAX_IMAGE / 8};
#define CRASHES LOG, crash_ops, sizeof crash_ops / sizeof crash_ops[0]
static int64_t crash_count(void) { return drivelog_crash_count(CRASHES, REPLY); }
static int64_t crash_image(void)
{
    int64_t crashes = crash_count();
    return drivelog_crash_image(CRASHES, crashes > 0 ? (uint64_t)crashes - 1 : 0, others[0], DRIVELOG_MAX_IMAGE / 8, REPLY);
}

struct call {
    const char *name;
    int64_t (*make)(void);
    int64_t result;
};

static void *make(void *call)
{
    struct call *c = call;
    c->result = c->make();
    return NULL;
}

/* The bytes of a thread's stack that are no longer painted once it has made the call. */
static size_t used_by(struct call *call)
{
    uint8_t *stack = mmap(NULL, STACK, PROT_READ | PROT_WRITE, MAP_PRIVATE | MAP_ANONYMOUS, -1, 0);
    pthread_attr_t attributes;
    pthread_t thread;
    if (stack == MAP_FAILED)
        exit(2);
    memset(stack, PAINT, STACK);
    if (pthread_attr_init(&attributes) != 0 || pthread_attr_setstack(&attributes, stack, STACK) != 0
        || pthread_create(&thread, &attributes, make, call) != 0 || pthread_join(thread, NULL) != 0)
        exit(2);
    size_t painted = 0;
    while (painted < STACK && stack[painted] == PAINT)
        painted++;
    munmap(stack, STACK);
    return STACK - painted;
}

/* Whether it is one of the calls that work on the words in place: of records, or vet. */
static int on_a_record(const struct call *call)
{
    return call->make == reserve || call->make == copy || call->make == complete || call->make == force || call->make == append
        || call->make == release || call->make == vet;
}

/* The calls in turn, each held to `most`, or to `most_on_a_record`: the status that they leave. */
static int tried(struct call *calls, size_t number, size_t most, size_t most_on_a_record, int status)
{
    struct call idle = {"nothing", nothing, 0};
    size_t without = used_by(&idle);
    for (size_t i = 0; i < number; i++) {
        size_t used = used_by(&calls[i]);
        used -= used < without ? used : without;
        printf("%s %zu\n", calls[i].name, used);
        if (calls[i].result < 0)
            status = 2;
        else if (used > (on_a_record(&calls[i]) ? most_on_a_record : most) && status == 0)
            status = 1;
    }
    return status;
}

int main(int argc, char **argv)
{
    struct call on_bytes[] = {{"count", count, 0}, {"damage", damage, 0}, {"kind", kind, 0}, {"lsn", lsn, 0}, {"epoch", epoch, 0},
                              {"payload", payload, 0}, {"list", list, 0}, {"payload_at", payload_at, 0}};
    struct call on_words[] = {{"format", format, 0}, {"reserve", reserve, 0}, {"copy", copy, 0}, {"complete", complete, 0},
                              {"force", force, 0}, {"recover", recover, 0}, {"open", open, 0}, {"next", next, 0}, {"fetch", fetch, 0},
                              {"vet", vet, 0}, {"release", release, 0}, {"append", append, 0}, {"release_all", release_all, 0}};
    struct call on_three[] = {{"recover_three", recover_three, 0}};
    struct call on_crashes[] = {{"crash_count", crash_count, 0}, {"crash_image", crash_image, 0}};
    FILE *file = argc == 7 ? fopen(argv[6], "rb") : NULL;
    if (file == NULL) {
        fputs("usage: stack MOST MOST_ON_WORDS MOST_ON_A_RECORD MOST_ON_THREE MOST_ON_CRASHES IMAGE\n", stderr);
        return 2;
    }
    bytes = fread(image, 1, sizeof image, file);
    fclose(file);
    size_t most_on_a_record = strtoul(argv[3], NULL, 10);
    int status = tried(on_bytes, sizeof on_bytes / sizeof on_bytes[0], strtoul(argv[1], NULL, 10), most_on_a_record, 0);
    status = tried(on_words, sizeof on_words / sizeof on_words[0], strtoul(argv[2], NULL, 10), most_on_a_record, status);
    memcpy(others[0], log_words, sizeof others[0]);
    memcpy(others[1], log_words, sizeof others[1]);
    others[0][1] = others[1][2] = 1;
    status = tried(on_three, 1, strtoul(argv[4], NULL, 10), most_on_a_record, status);
    return tried(on_crashes, 2, strtoul(argv[5], NULL, 10), most_on_a_record, status);
}
