/* Times the numbered crashes through the calls of include/drivelog.h.
 *
 * Standard input: five little-endian words, job, bytes, live, count and words, of which bytes and live do not count. On an image of so many
 * words there are 4,096 crashes while these ops are carried out:
 *     job 13: 11 stores to different words, and a flush of the whole image
 *     job 14: 4,095 flushes of one word
 * Timed, `count` times: drivelog_crash_image, of crash 0 and then of the next one in turn, after the last of 0 again. Standard output: the
 * microseconds of CPU time, and a digest of all images and crash points. Bad input or a refused call: nothing. */

#include "drivelog.h"

#include <stdio.h>
#include <time.h>

enum { STORES = 11, FLUSHES = DRIVELOG_MAX_CRASHES - 1 };

static uint64_t image[DRIVELOG_MAX_IMAGE_WORDS], output[DRIVELOG_MAX_IMAGE_WORDS], ops[FLUSHES * DRIVELOG_OP_WORDS];
static uint64_t reply[DRIVELOG_REPLY_WORDS];

static size_t put(size_t count, uint64_t op, uint64_t word, uint64_t value)
{
    uint64_t *words = ops + DRIVELOG_OP_WORDS * count;
    words[0] = op;
    words[1] = word;
    words[2] = value;
    return count + 1;
}

/* How many ops there are. */
static size_t put_all(uint64_t job, uint64_t words)
{
    size_t count = 0;
    if (job == 14) {
        for (uint64_t i = 0; i < FLUSHES; i++)
            count = put(count, DRIVELOG_OP_FLUSH, i % words, 1);
        return count;
    }
    /* In neither order. */
    for (uint64_t i = 0; i < STORES; i++)
        count = put(count, DRIVELOG_OP_STORE, 5 * i % STORES * (words / STORES), i);
    return put(count, DRIVELOG_OP_FLUSH, 0, words);
}

int main(void)
{
    uint64_t input[5];
    if (fread(input, 8, 5, stdin) != 5)
        return 0;
    uint64_t job = input[0], count = input[3], words = input[4];
    if (job < 13 || job > 14 || words < DRIVELOG_MIN_IMAGE_WORDS || words > DRIVELOG_MAX_IMAGE_WORDS)
        return 0;
    for (uint64_t i = 0; i < words; i++)
        image[i] = 7 * i + 3;
    size_t ops_words = DRIVELOG_OP_WORDS * put_all(job, words);
    int64_t counted = drivelog_crash_count(image, words, ops, ops_words, reply, DRIVELOG_REPLY_WORDS);
    if (counted < 1)
        return 0;
    uint64_t total = (uint64_t)counted;

    clock_t start = clock();
    for (uint64_t i = 0; i < count; i++)
        if (drivelog_crash_image(image, words, ops, ops_words, i % total, output, words, reply, DRIVELOG_REPLY_WORDS) < 0)
            return 0;
    clock_t end = clock();

    uint64_t digest = total;
    for (uint64_t number = 0; number < total; number++) {
        int64_t point = drivelog_crash_image(image, words, ops, ops_words, number, output, words, reply, DRIVELOG_REPLY_WORDS);
        if (point < 0)
            return 0;
        for (uint64_t i = 0; i < words; i++)
            digest = digest * 0x9E3779B97F4A7C15 + output[i];
        digest = digest * 0x9E3779B97F4A7C15 + (uint64_t)point;
    }
    printf("%lld %llu\n", (long long)(end - start) * 1000000 / CLOCKS_PER_SEC, (unsigned long long)digest);
    return 0;
}
