/* Times the calls of include/drivelog.h.
 *
 * Standard input: five little-endian words, job, bytes, live, count and words, and behind them the bytes of an image of so many words.
 * Timed, `count` times:
 *     job 5: drivelog_count
 *     job 6: kind, LSN and payload of the last listed record
 *     job 7: drivelog_count, then kind, LSN and payload of every listed record
 *     job 8: drivelog_list, then drivelog_payload_at for every row
 * Standard output: the microseconds of CPU time, and the number of records (job 5) or the CRC-32 of kind, LSN (8 bytes each) and
 * payload, record by record, of what one turn got. Bad input or a refused image: nothing. */

#include "drivelog.h"

#include <stdio.h>
#include <string.h>
#include <time.h>
#include <zlib.h>

static uint8_t image[DRIVELOG_MAX_IMAGE];
static size_t bytes;
static uLong crc;

/* Puts what was got of one record into the digest. */
static void got(int64_t kind, int64_t lsn, const uint8_t *payload, int64_t length)
{
    int64_t numbers[2] = {kind, lsn};
    if (length < 0)
        return;
    crc = crc32(crc, (const Bytef *)numbers, sizeof numbers);
    crc = crc32(crc, payload, (uInt)length);
}

/* Everything of one record, put into the digest if asked to. */
static void ask(uint64_t index, int digest)
{
    uint8_t payload[DRIVELOG_MAX_PAYLOAD];
    int64_t kind = drivelog_kind(image, bytes, index), lsn = drivelog_lsn(image, bytes, index);
    int64_t length = drivelog_payload(image, bytes, index, payload, sizeof payload);
    if (digest)
        got(kind, lsn, payload, length);
}

/* Everything of all records by their rows, put into the digest if asked to; the number of records. */
static int64_t ask_list(int digest)
{
    uint8_t payload[DRIVELOG_MAX_PAYLOAD];
    uint64_t rows[4 * DRIVELOG_MAX_RECORDS];
    int64_t count = drivelog_list(image, bytes, rows, sizeof rows / sizeof rows[0]);
    for (int64_t i = 0; i < count; i++) {
        const uint64_t *row = rows + 4 * i;
        int64_t length = drivelog_payload_at(image, bytes, row[3], row[2], payload, sizeof payload);
        if (digest)
            got((int64_t)row[1], (int64_t)row[0], payload, length);
    }
    return count;
}

/* One turn of a job; the number of listed records where that was asked. */
static int64_t turn(uint64_t job, uint64_t last, int digest)
{
    if (job == 6) {
        ask(last, digest);
        return 0;
    }
    if (job == 8)
        return ask_list(digest);
    int64_t count = drivelog_count(image, bytes);
    if (job == 7)
        for (int64_t i = 0; i < count; i++)
            ask((uint64_t)i, digest);
    return count;
}

int main(void)
{
    uint64_t input[5];
    if (fread(input, 8, 5, stdin) != 5)
        return 0;
    uint64_t job = input[0], count = input[3], words = input[4];
    if (job < 5 || job > 8 || words < 40 || words > 8192)
        return 0;
    bytes = 8 * words;
    if (fread(image, 1, bytes, stdin) != bytes || drivelog_count(image, bytes) <= 0)
        return 0;

    uint64_t last = (uint64_t)drivelog_count(image, bytes) - 1;
    int64_t sum = 0;
    clock_t start = clock();
    for (uint64_t i = 0; i < count; i++)
        sum += turn(job, last, 0);
    clock_t end = clock();
    int64_t records = turn(job, last, 1);
    if (sum != records * (int64_t)count)
        return 0;
    printf("%lld %llu\n", (long long)(end - start) * 1000000 / CLOCKS_PER_SEC,
           job == 5 ? (unsigned long long)records : (unsigned long long)crc);
    return 0;
}
