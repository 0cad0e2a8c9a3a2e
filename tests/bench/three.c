/* Times the recovery of one module and of three through the calls of include/drivelog.h.
 *
 * Standard input: five little-endian words, job, bytes, live, count and words, and behind them the bytes of an image of so many words.
 * Timed, `count` times, each on what the one before left:
 *     job 9: drivelog_recover of the image
 *     job 10: drivelog_recover_three of three copies of it
 *     job 11: the same, an unused word of the last copy changed before each call, so that it is repaired
 * Standard output: the microseconds of CPU time, and the CRC-32 of the last image's bytes. Bad input or a refused image: nothing. */

#include "drivelog.h"

#include <stdio.h>
#include <string.h>
#include <time.h>
#include <zlib.h>

enum { MOST_WORDS = DRIVELOG_MAX_IMAGE / 8, OPS = DRIVELOG_THREE_OPS_WORDS, UNUSED_WORD = 23 };

static uint64_t images[3][MOST_WORDS], ops[3][OPS], state[DRIVELOG_STATE_WORDS], reply[DRIVELOG_THREE_REPLY_WORDS];

static int64_t turn(uint64_t job, size_t words)
{
    if (job == 9)
        return drivelog_recover(state, DRIVELOG_STATE_WORDS, images[2], words, ops[2], OPS, reply, DRIVELOG_REPLY_WORDS);
    images[2][UNUSED_WORD] ^= job == 11;
    return drivelog_recover_three(state, DRIVELOG_STATE_WORDS, images[0], words, images[1], words, images[2], words, 7, ops[0], OPS,
                                  ops[1], OPS, ops[2], OPS, reply, DRIVELOG_THREE_REPLY_WORDS);
}

int main(void)
{
    uint64_t input[5];
    if (fread(input, 8, 5, stdin) != 5)
        return 0;
    uint64_t job = input[0], count = input[3], words = input[4];
    if (job < 9 || job > 11 || words < 40 || words > MOST_WORDS || fread(images[0], 8, words, stdin) != words)
        return 0;
    memcpy(images[1], images[0], sizeof images[0]);
    memcpy(images[2], images[0], sizeof images[0]);

    int refused = 0;
    clock_t start = clock();
    for (uint64_t i = 0; i < count; i++)
        refused |= turn(job, words) < 0;
    clock_t end = clock();
    if (refused)
        return 0;
    printf("%lld %llu\n", (long long)(end - start) * 1000000 / CLOCKS_PER_SEC,
           (unsigned long long)crc32(crc32(0, NULL, 0), (const Bytef *)images[2], (uInt)(8 * words)));
    return 0;
}
