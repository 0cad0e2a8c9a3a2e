/* Times libpmemlog's append on a pool in memory, beside the log's own.
 *
 * Standard input: five little-endian words, job, bytes, live, count and words; the job is 17, and live and words mean nothing here.
 * Timed, `count` times: pmemlog_append of `bytes` bytes, with pmemlog_rewind when the pool is full. Standard output: the
 * microseconds of CPU time and 0. Bad input: nothing. The pool is a file in /dev/shm, which is gone at the end.
 *
 * libpmem takes such a file for a disk's and calls msync; with PMEM_IS_PMEM_FORCE=1 in the environment it flushes cache lines. */

#include <errno.h>
#include <libpmemlog.h>
#include <stdint.h>
#include <stdio.h>
#include <time.h>
#include <unistd.h>

int main(void)
{
    uint64_t input[5];
    if (fread(input, 8, 5, stdin) != 5)
        return 0;
    uint64_t job = input[0], bytes = input[1], live = input[2], count = input[3], words = input[4];
    if (job != 17 || bytes < 1 || bytes > 1024 || live > 256 || words < 40 || words > 8192)
        return 0;

    unsigned char payload[1024];
    for (size_t i = 0; i < bytes; i++)
        payload[i] = (unsigned char)(7 * i + 3);
    char path[64];
    snprintf(path, sizeof path, "/dev/shm/bench-pmemlog-%ld", (long)getpid());
    PMEMlogpool *pool = pmemlog_create(path, PMEMLOG_MIN_POOL, 0600);
    if (pool == NULL) {
        fprintf(stderr, "pmemlog: %s: %s\n", path, pmemlog_errormsg());
        return 1;
    }
    int failed = 0;
    clock_t start = clock();
    for (uint64_t i = 0; i < count && !failed; i++) {
        if (pmemlog_append(pool, payload, bytes) == 0)
            continue;
        failed = errno != ENOSPC;
        pmemlog_rewind(pool);
        failed |= pmemlog_append(pool, payload, bytes) != 0;
    }
    clock_t end = clock();
    pmemlog_close(pool);
    unlink(path);
    if (failed) {
        fprintf(stderr, "pmemlog: %s\n", pmemlog_errormsg());
        return 1;
    }
    printf("%lld 0\n", (long long)(end - start) * 1000000 / CLOCKS_PER_SEC);
    return 0;
}
