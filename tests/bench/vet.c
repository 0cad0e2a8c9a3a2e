/* Times the check of another unit's ops through the calls of include/drivelog.h.
 *
 * Standard input: five little-endian words, job, bytes, live, count and words. A log of so many words gets so many live records of so many
 * bytes, all committed. Timed, `count` times, for job 12: drivelog_vet of 1,000 ops, three of four of them stores to free words, the
 * others flushes. Standard output: the microseconds of CPU time, and the ops that passed in all. Bad input or a refused call: nothing. */

#include "drivelog.h"

#include <stdio.h>
#include <time.h>

enum { OPS = 1000, RING_START = 24, STATE_NEXT_POS = 3 };

static uint64_t image[DRIVELOG_MAX_IMAGE_WORDS], state[DRIVELOG_STATE_WORDS], ops[DRIVELOG_OPS_WORDS], reply[DRIVELOG_REPLY_WORDS];
static uint64_t notes[OPS * DRIVELOG_OP_WORDS];

#define LENT state, DRIVELOG_STATE_WORDS, image, words, ops, DRIVELOG_OPS_WORDS

/* As many live records as asked for. Whether no call declines. */
static int fill(uint64_t bytes, uint64_t live, uint64_t words)
{
    static uint8_t payload[DRIVELOG_MAX_PAYLOAD];
    for (size_t i = 0; i < bytes; i++)
        payload[i] = (uint8_t)(7 * i + 3);
    if (drivelog_format(LENT, reply, DRIVELOG_REPLY_WORDS) < 0)
        return 0;
    for (uint64_t i = 0; i < live; i++) {
        int64_t lsn = drivelog_reserve(LENT, 1, bytes, reply, DRIVELOG_REPLY_WORDS);
        if (lsn < 0 || drivelog_copy(LENT, (uint64_t)lsn, 0, payload, bytes, reply, DRIVELOG_REPLY_WORDS) < 0 ||
            drivelog_complete(LENT, (uint64_t)lsn, reply, DRIVELOG_REPLY_WORDS) < 0)
            return 0;
    }
    return live == 0 || drivelog_force(LENT, live, 1, reply, DRIVELOG_REPLY_WORDS) == 1;
}

int main(void)
{
    uint64_t input[5];
    if (fread(input, 8, 5, stdin) != 5)
        return 0;
    uint64_t job = input[0], bytes = input[1], live = input[2], count = input[3], words = input[4];
    if (job != 12 || bytes > DRIVELOG_MAX_PAYLOAD || live > DRIVELOG_MAX_RECORDS || words < DRIVELOG_MIN_IMAGE_WORDS ||
        words > DRIVELOG_MAX_IMAGE_WORDS || !fill(bytes, live, words))
        return 0;
    /* Behind the records' words and the terminator. */
    uint64_t first = RING_START + state[STATE_NEXT_POS] + 1, left = words - first;
    for (uint64_t i = 0; i < OPS; i++) {
        uint64_t *op = notes + DRIVELOG_OP_WORDS * i;
        op[0] = i % 4 == 3 ? DRIVELOG_OP_FLUSH : DRIVELOG_OP_STORE;
        op[1] = i % 4 == 3 ? i : first + 37 * i % left;
        op[2] = i % 4 == 3 ? 1 + i % 7 : i;
    }

    uint64_t passed = 0;
    clock_t start = clock();
    for (uint64_t i = 0; i < count; i++) {
        int64_t done = drivelog_vet(state, DRIVELOG_STATE_WORDS, image, words, notes, OPS * DRIVELOG_OP_WORDS, reply, DRIVELOG_REPLY_WORDS);
        if (done < 0)
            return 0;
        passed += (uint64_t)done;
    }
    clock_t end = clock();
    printf("%lld %llu\n", (long long)(end - start) * 1000000 / CLOCKS_PER_SEC, (unsigned long long)passed);
    return 0;
}
