/* crashes [short-flush | marks-first]: every crash of every writing call of a small log, each recovered and listed.
 *
 * Of each call it prints the ops, the crashes and how many different lists they leave. At the first crash that loses a durable record,
 * or lists one that was not completed, it stops with status 1. Status 2: a call is refused, or has more crashes than are numbered.
 * With an argument the driver is faulty from its second force on, when there is a durable record to lose:
 *     short-flush   the flush before the marks covers one word too few: the terminator is left out
 *     marks-first   the marks are stored before that flush
 *
 *     make lib
 *     gcc -std=c11 -Wall -Wextra -Werror -Iinclude examples/c/crashes.c target/lib/libdrivelog.a -o target/crashes
 */
#include "drivelog.h"
#include <stdio.h>
#include <stdlib.h>
#include <string.h>

enum { WORDS = 40, LSNS = 10, OP = 8 * DRIVELOG_OP_WORDS }; /* the smallest image; LSNs are below 10 here; the bytes of an op */

/* What was promised of each LSN. A record whose release has begun may be listed or not. */
static struct { enum { NONE, COMPLETED, DURABLE, RELEASED } stage; uint64_t kind; const char *text; } promised[LSNS];

/* The module: its flushed values, and the `pending` stores that no flush has covered since. A call puts its ops after them. */
static uint64_t flushed[WORDS], since[2 * DRIVELOG_MAX_OPS][DRIVELOG_OP_WORDS], pending;
static uint64_t state[DRIVELOG_STATE_WORDS], image[WORDS], reply[4];
#define LENT state, DRIVELOG_STATE_WORDS, image, WORDS, since[pending], DRIVELOG_OPS_WORDS
#define MODULE(ops) flushed, WORDS, since[0], DRIVELOG_OP_WORDS * (ops)

static int short_flush, marks_first;
static char call[24];                     /* the call that is tried */
static int64_t count, crash, done, total; /* its ops, the crash in it, how many ops are done there; all crashes so far */

static void stop(const char *what, uint64_t lsn, const char *why)
{
    printf("%s: crash %d, after %d of %d ops, %s record %d: %s\n", call, (int)crash, (int)done, (int)count, what, (int)lsn, why);
    exit(1);
}

/* Recovers what a crash left and lists it: a bit for each LSN, since all else that a listed record has is what was promised. */
static unsigned recovered_list(uint64_t *left)
{
    static uint64_t fresh[DRIVELOG_STATE_WORDS], ops[DRIVELOG_OPS_WORDS], cursor[DRIVELOG_CURSOR_WORDS], record[DRIVELOG_RECORD_WORDS];
    static uint8_t payload[DRIVELOG_MAX_PAYLOAD];
    uint64_t lsn, last = 0;
    unsigned list = 0;
    int64_t answer = drivelog_recover(fresh, DRIVELOG_STATE_WORDS, left, WORDS, ops, DRIVELOG_OPS_WORDS, reply, 4);
    if (answer == 0)
        answer = drivelog_open(left, WORDS, cursor, DRIVELOG_CURSOR_WORDS, reply, 4);
    while (answer >= 0
           && (answer = drivelog_next(left, WORDS, cursor, DRIVELOG_CURSOR_WORDS, record, DRIVELOG_RECORD_WORDS, reply, 4)) == 1) {
        uint64_t kind = record[DRIVELOG_RECORD_KIND], length = record[DRIVELOG_RECORD_LENGTH];
        lsn = record[DRIVELOG_RECORD_LSN];
        drivelog_fetch(left, WORDS, record[DRIVELOG_RECORD_POS], length, payload, sizeof payload, reply, 4);
        if (lsn >= LSNS || (last > 0 && lsn != last + 1) || promised[lsn].stage == NONE || promised[lsn].kind != kind
            || strlen(promised[lsn].text) != length || memcmp(promised[lsn].text, payload, length) != 0)
            stop("lists", lsn, "it was not completed so");
        list |= (unsigned)(record[DRIVELOG_RECORD_MARK] == DRIVELOG_MARK_COMMITTED) << lsn;
        last = lsn;
    }
    for (lsn = 1; lsn < LSNS; lsn++)
        if (promised[lsn].stage == DURABLE && (list >> lsn & 1) == 0)
            stop("loses", lsn, answer < 0 ? drivelog_refusal_text(answer) : "it is not listed");
    if (answer < 0)
        stop("ends the log at", reply[DRIVELOG_REPLY_DETAIL], drivelog_refusal_text(answer));
    return list;
}

/* The ops of a force, which are flushes, marks and the marks' flushes, as a faulty driver has them. */
static void spoil(uint64_t (*ops)[DRIVELOG_OP_WORDS])
{
    uint64_t flushes = 1 + (ops[1][0] == DRIVELOG_OP_FLUSH), marks = 0; /* two flushes if the records go round the ring's end */
    while (ops[flushes + marks][0] == DRIVELOG_OP_STORE)
        marks++;
    ops[flushes - 1][2] -= (uint64_t)short_flush;
    if (marks_first) {
        memcpy(ops + count, ops, flushes * OP); /* there is room after the ops */
        memmove(ops, ops + flushes, marks * OP);
        memcpy(ops + marks, ops + count, flushes * OP);
    }
}

/* Carries the ops out on the module: a store is pending until a flush covers its word. */
static void carry_out(uint64_t ops)
{
    pending = 0;
    for (uint64_t i = 0, j; i < ops; i++) {
        for (j = i; j < ops && (since[j][0] == DRIVELOG_OP_STORE || since[i][1] - since[j][1] >= since[j][2]); j++)
            ;
        if (j == ops)
            memmove(since[pending++], since[i], OP);
        else if (since[i][0] == DRIVELOG_OP_STORE)
            flushed[since[i][1]] = since[i][2];
    }
}

/* Tries every crash of the call just made, prints its row and carries its ops out. Gives what the call answered. */
static int64_t crashed(const char *name, uint64_t lsn, int64_t answer)
{
    uint64_t left[WORDS];
    int lists = 0, seen[1 << LSNS] = {0};
    snprintf(call, sizeof call, lsn > 0 ? "%s %d" : "%s", name, (int)lsn);
    count = (int64_t)reply[DRIVELOG_REPLY_OPS];
    if (count > 0 && strcmp(name, "force") == 0 && promised[1].stage >= DURABLE)
        spoil(since + pending);
    /* Crashes with fewer ops done are those of earlier calls. In a format nothing is promised until all its ops are done. */
    uint64_t ops = pending + (uint64_t)count, from = strcmp(name, "format") == 0 ? ops : pending;
    int64_t first = from > 0 ? drivelog_crash_count(MODULE(from - 1), reply, 4) : 0;
    int64_t end = answer < 0 ? answer : drivelog_crash_count(MODULE(ops), reply, 4);
    if (end < 0) {
        printf("%s: refused %d: %s\n", call, (int)-end, drivelog_refusal_text(end));
        exit(2);
    }
    for (crash = 0; crash < end - first; crash++) {
        done = drivelog_crash_image(MODULE(ops), (uint64_t)(first + crash), left, WORDS, reply, 4) - (int64_t)pending;
        unsigned list = recovered_list(left);
        lists += seen[list] == 0;
        seen[list] = 1;
    }
    printf("%-12s %4d %8d %6d\n", call, (int)count, (int)crash, lists);
    total += crash;
    carry_out(ops);
    return answer;
}

/* What is promised of a record that is completed, and of one that is durable with those before it. */
static void completed(uint64_t lsn, uint64_t kind, const char *text)
{
    promised[lsn].stage = COMPLETED, promised[lsn].kind = kind, promised[lsn].text = text;
}

static void durable(uint64_t lsn)
{
    for (; promised[lsn].stage == COMPLETED; lsn--)
        promised[lsn].stage = DURABLE;
}

/* A record by four calls, or three if the frequency is 0. */
static void by_four(uint64_t lsn, uint64_t kind, const char *text, uint64_t frequency)
{
    crashed("reserve", lsn, drivelog_reserve(LENT, kind, strlen(text), reply, 4));
    crashed("copy", lsn, drivelog_copy(LENT, lsn, 0, (const uint8_t *)text, strlen(text), reply, 4));
    crashed("complete", lsn, drivelog_complete(LENT, lsn, reply, 4));
    completed(lsn, kind, text);
    if (frequency > 0 && crashed("force", lsn, drivelog_force(LENT, lsn, frequency, reply, 4)) == 1)
        durable(lsn);
}

/* The same by one call. It counts as completed even if power fails in it. */
static void by_one(uint64_t lsn, uint64_t kind, const char *text, uint64_t frequency)
{
    int64_t answer = drivelog_append(LENT, kind, (const uint8_t *)text, strlen(text), frequency, reply, 4);
    int is_durable = reply[DRIVELOG_REPLY_SECOND] == 1;
    completed(lsn, kind, text);
    crashed("append", lsn, answer);
    if (is_durable)
        durable(lsn);
}

int main(int arguments, char **argument)
{
    short_flush = arguments == 2 && strcmp(argument[1], "short-flush") == 0;
    marks_first = arguments == 2 && strcmp(argument[1], "marks-first") == 0;
    if (arguments > 1 && !short_flush && !marks_first)
        return fputs("usage: crashes [short-flush | marks-first]\n", stderr), 2;
    puts("call          ops  crashes  lists");
    crashed("format", 0, drivelog_format(LENT, reply, 4));
    by_four(1, 1, "4120 hrs", 1);
    by_four(2, 2, "start 87", 3); /* deferred */
    by_four(3, 1, "4128 hrs", 3); /* due, for both */
    promised[2].stage = RELEASED;
    crashed("release", 2, drivelog_release(LENT, 2, reply, 4));
    promised[1].stage = RELEASED;
    crashed("release", 1, drivelog_release(LENT, 1, reply, 4)); /* the head moves on, to record 3 */
    by_four(4, 3, "bearings 205/62", 1);                         /* goes round the ring's end */
    by_four(5, 4, "", 1);                                        /* its terminator is where record 2 began, which still has a mark */
    promised[3].stage = promised[4].stage = promised[5].stage = RELEASED;
    crashed("release all", 0, drivelog_release_all(LENT, reply, 4));
    by_four(6, 1, "4136 hrs", 1);
    by_four(7, 2, "start 88", 0);
    memcpy(flushed, image, sizeof flushed); /* power fails, and what is left has every store in it; record 7 was not forced */
    pending = 0, promised[7].stage = NONE;
    crashed("recover", 0, drivelog_recover(LENT, reply, 4));
    by_four(7, 5, "door 2", 1);  /* the LSN is given again */
    by_one(8, 1, "4144 hrs", 3); /* deferred */
    by_one(9, 4, "", 3);         /* due, for both; the log is full */
    printf("%d crashes, and no durable record is lost\n", (int)total);
    return 0;
}
