/* Times CRC-32 in C: `crc zlib` with zlib's, `crc table` with a plain byte table.
 *
 * Standard input: five little-endian words, job, bytes, live, count and words; the job is 2. Timed, `count` times: the CRC-32 of a
 * buffer of `bytes` bytes, taken down to a multiple of 8, whose word 0 then becomes that CRC. Standard output: the microseconds of
 * CPU time and the last CRC. Bad input: nothing. */

#include <stdint.h>
#include <stdio.h>
#include <string.h>
#include <time.h>
#include <zlib.h>

static uint32_t table[256];

static void fill_table(void)
{
    for (uint32_t i = 0; i < 256; i++) {
        uint32_t crc = i;
        for (int bit = 0; bit < 8; bit++)
            crc = crc & 1 ? crc >> 1 ^ 0xEDB88320 : crc >> 1;
        table[i] = crc;
    }
}

static uint32_t by_table(const unsigned char *bytes, size_t count)
{
    uint32_t crc = 0xFFFFFFFF;
    for (size_t i = 0; i < count; i++)
        crc = table[(crc ^ bytes[i]) & 0xFF] ^ crc >> 8;
    return ~crc;
}

static uint32_t by_zlib(const unsigned char *bytes, size_t count)
{
    return (uint32_t)crc32(0, bytes, (uInt)count);
}

int main(int argc, char **argv)
{
    uint32_t (*crc_of)(const unsigned char *, size_t) = NULL;
    if (argc == 2 && strcmp(argv[1], "zlib") == 0)
        crc_of = by_zlib;
    if (argc == 2 && strcmp(argv[1], "table") == 0)
        crc_of = by_table;
    if (crc_of == NULL) {
        fputs("usage: crc zlib|table\n", stderr);
        return 2;
    }
    uint64_t input[5];
    if (fread(input, 8, 5, stdin) != 5)
        return 0;
    uint64_t job = input[0], bytes = input[1], live = input[2], count = input[3], words = input[4];
    if (job != 2 || bytes < 1 || bytes > 1024 || live > 64 || words < 40 || words > 8192)
        return 0;

    unsigned char buffer[1024];
    size_t size = bytes / 8 * 8;
    for (size_t i = 0; i < size; i++)
        buffer[i] = (unsigned char)(7 * i + 3);
    fill_table();
    uint32_t crc = 0;
    clock_t start = clock();
    for (uint64_t i = 0; i < count; i++) {
        crc = crc_of(buffer, size);
        uint64_t word = crc;
        if (size > 0)
            memcpy(buffer, &word, 8);
    }
    clock_t end = clock();
    printf("%lld %u\n", (long long)(end - start) * 1000000 / CLOCKS_PER_SEC, crc);
    return 0;
}
