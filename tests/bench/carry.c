/* Times the driver alone: the ops of one durable append, carried out on a module in /dev/shm.
 *
 * Standard input: five little-endian words, job, bytes, live, count and words; the job is 1, and live means nothing here. Timed, `count` times:
 * driver_carry of the ops of an append with its force, as the calls put them: a store for each word of the record and for the terminator, the
 * flush of these words, the mark, and its flush; each record after the one before it. Standard output: the microseconds of CPU time, and the
 * CRC-32 of the module's words. Bad input: nothing. The module is a file that is gone at the end. */

#define _DEFAULT_SOURCE
#include "driver.h"

#include <stdio.h>
#include <stdlib.h>
#include <time.h>
#include <unistd.h>
#include <zlib.h>

enum { STORE = 1, FLUSH = 2, OP_WORDS = 3, RING_START = 24, MOST_WORDS = 8192, MOST_APPENDS = 1024, MOST_OPS = 3 + 128 + 1 + 4 };

/* The op buffers of as many appends as go round the ring once. */
static uint64_t ops[MOST_APPENDS][OP_WORDS * MOST_OPS];
static size_t counts[MOST_APPENDS];

static void put(size_t append, uint64_t code, uint64_t word, uint64_t value)
{
    uint64_t *op = ops[append] + OP_WORDS * counts[append]++;
    op[0] = code, op[1] = word, op[2] = value;
}

/* The record at a ring position, and the terminator after it. */
static void put_append(size_t append, uint64_t pos, uint64_t size, uint64_t ring)
{
    for (uint64_t i = 0; i <= size; i++)
        put(append, STORE, RING_START + (pos + i) % ring, i == size ? 0 : append * 1000 + i + 1);
    uint64_t before_end = ring - pos < size + 1 ? ring - pos : size + 1;
    put(append, FLUSH, RING_START + pos, before_end);
    if (before_end < size + 1)
        put(append, FLUSH, RING_START, size + 1 - before_end);
    put(append, STORE, RING_START + pos, (uint64_t)1 << 48 | append);
    put(append, FLUSH, RING_START + pos, 1);
}

int main(void)
{
    uint64_t input[5];
    if (fread(input, 8, 5, stdin) != 5)
        return 0;
    uint64_t job = input[0], bytes = input[1], count = input[3], words = input[4];
    if (job != 1 || bytes < 1 || bytes > 1024 || words < 40 || words > MOST_WORDS || 3 + bytes / 8 + 2 > words - RING_START)
        return 0;
    uint64_t size = 3 + (bytes + 7) / 8, ring = words - RING_START, pos = 0;
    size_t appends = ring / size + 1 < MOST_APPENDS ? ring / size + 1 : MOST_APPENDS;
    for (size_t i = 0; i < appends; i++) {
        put_append(i, pos, size, ring);
        pos = (pos + size) % ring;
    }
    char path[64];
    snprintf(path, sizeof path, "/dev/shm/bench-carry-%ld", (long)getpid());
    struct driver_module *module = driver_create(path, words);
    if (module == NULL) {
        perror(path);
        return 1;
    }
    int failed = 0;
    clock_t start = clock();
    for (uint64_t i = 0; i < count; i++)
        failed |= driver_carry(module, ops[i % appends], counts[i % appends]);
    clock_t end = clock();
    uLong crc = crc32(0, (const Bytef *)module->words, (uInt)(8 * words));
    driver_close(module);
    unlink(path);
    if (failed) {
        fputs("carry: driver_carry\n", stderr);
        return 1;
    }
    printf("%lld %lu\n", (long long)(end - start) * 1000000 / CLOCKS_PER_SEC, crc);
    return 0;
}
