/* driver FILE: the driver alone, on a file that it makes and takes away. Ops in turn, ops that it declines, a flush that fails, the lock, new
 * files, files that are replaced, its errors. Status 1 and a line for the first thing that is not as it should be. Linked with
 * --wrap=calloc and --wrap=renameat2, so that the test can do something in the middle of driver_open, and stand for a file system without
 * that rename; and with --wrap of msync, pmem_msync, pmem_flush, pmem_drain and pmem_persist, so that it sees each flush. */

#define _DEFAULT_SOURCE
#include "driver.h"

#include <dirent.h>
#include <errno.h>
#include <fcntl.h>
#include <stdio.h>
#include <stdlib.h>
#include <string.h>
#include <sys/mman.h>
#include <sys/stat.h>
#include <unistd.h>

static int checks;

/* Words 7 to 9 of a module at each of its flushes, and which of them fails. */
static const struct driver_module *watched;
static uint64_t seen[8][3];
static int flushes, failing_flush = -1;

static int at_flush(void)
{
    if (watched != NULL && flushes < 8)
        memcpy(seen[flushes], watched->words + 7, sizeof seen[0]);
    errno = EIO;
    return watched != NULL && flushes++ == failing_flush ? -1 : 0;
}

int __real_msync(void *from, size_t bytes, int how);
int __wrap_msync(void *from, size_t bytes, int how);
int __wrap_msync(void *from, size_t bytes, int how) { return at_flush() != 0 ? -1 : __real_msync(from, bytes, how); }

#ifdef DRIVER_PMEM
#include <libpmem.h>

/* What was flushed line by line last. */
static const void *persisted;
static size_t persisted_bytes;

int __real_pmem_msync(const void *from, size_t bytes);
int __wrap_pmem_msync(const void *from, size_t bytes);
int __wrap_pmem_msync(const void *from, size_t bytes) { return at_flush() != 0 ? -1 : __real_pmem_msync(from, bytes); }

/* The lines that were sent back last. */
static const void *sent;
static size_t sent_bytes;

void __real_pmem_flush(const void *from, size_t bytes);
void __wrap_pmem_flush(const void *from, size_t bytes);
void __wrap_pmem_flush(const void *from, size_t bytes)
{
    sent = from;
    sent_bytes = bytes;
    __real_pmem_flush(from, bytes);
}

void __real_pmem_drain(void);
void __wrap_pmem_drain(void);
void __wrap_pmem_drain(void)
{
    at_flush();
    __real_pmem_drain();
}

void __real_pmem_persist(const void *from, size_t bytes);
void __wrap_pmem_persist(const void *from, size_t bytes);
void __wrap_pmem_persist(const void *from, size_t bytes)
{
    persisted = from;
    persisted_bytes = bytes;
    __real_pmem_persist(from, bytes);
}
#endif

/* What is renamed when the driver next asks for memory, which is after it has locked the file. */
static const char *rename_from, *rename_to;

void *__real_calloc(size_t count, size_t size);
void *__wrap_calloc(size_t count, size_t size);
void *__wrap_calloc(size_t count, size_t size)
{
    if (rename_from != NULL)
        rename(rename_from, rename_to);
    rename_from = NULL;
    return __real_calloc(count, size);
}

#define EXPECT(fact) (checks++, (fact) ? (void)0 : fail(__LINE__, #fact))

static void fail(int line, const char *fact)
{
    fprintf(stderr, "driver: line %d: not so: %s (%s)\n", line, fact, strerror(errno));
    exit(1);
}

/* Carries one op out; its errno if it is declined. */
static int one(struct driver_module *module, uint64_t code, uint64_t word, uint64_t value)
{
    uint64_t op[3] = {code, word, value};
    return driver_carry(module, op, 1) == 0 ? 0 : errno;
}

/* A word of the file, read past the driver. */
static uint64_t in_file(const char *path, size_t word)
{
    uint8_t bytes[8] = {0};
    uint64_t value = 0;
    FILE *file = fopen(path, "rb");
    EXPECT(file != NULL && fseek(file, (long)(8 * word), SEEK_SET) == 0 && fread(bytes, 1, 8, file) == 8);
    fclose(file);
    for (int i = 7; i >= 0; i--)
        value = value << 8 | bytes[i];
    return value;
}

static int no_rename;

int __real_renameat2(int from, const char *old_name, int to, const char *name, unsigned flags);
int __wrap_renameat2(int from, const char *old_name, int to, const char *name, unsigned flags);
int __wrap_renameat2(int from, const char *old_name, int to, const char *name, unsigned flags)
{
    errno = EINVAL;
    return no_rename ? -1 : __real_renameat2(from, old_name, to, name, flags);
}

/* How many files of the folder are left of a driver_make. */
static int left_over(const char *folder)
{
    int count = 0;
    DIR *all = opendir(folder);
    for (struct dirent *one; all != NULL && (one = readdir(all)) != NULL;)
        count += strncmp(one->d_name, ".drivelog-", 10) == 0;
    closedir(all);
    return count;
}

/* Each flush comes when the stores before it are done, and none of those after it; after one that fails nothing more is done. */
static void in_turn(const char *path)
{
    static const uint64_t ops[] = {1, 7, 1, 1, 8, 2, 2, 7, 2, 1, 7, 3, 1, 9, 4, 2, 9, 1, 2, 7, 1, 1, 7, 5, 1, 8, 6};
    static const uint64_t due[3][3] = {{1, 2, 0}, {3, 2, 4}, {3, 2, 4}};
    struct driver_module *module = driver_create(path, 100);
    EXPECT(module != NULL);
    watched = module;
    EXPECT(driver_carry(module, ops, sizeof ops / sizeof ops[0] / 3) == 0);
    EXPECT(flushes == 3 && memcmp(seen, due, sizeof due) == 0);
    EXPECT(module->words[7] == 5 && module->words[8] == 6 && module->words[9] == 4);
    driver_close(module);
    unlink(path);
    module = driver_create(path, 100);
    EXPECT(module != NULL);
    watched = module;
    flushes = 0;
    failing_flush = 1;
    if (!module->flushes_lines) { /* else a flush is a fence, which cannot fail */
        EXPECT(driver_carry(module, ops, sizeof ops / sizeof ops[0] / 3) == -1 && errno == EIO && flushes == 2);
        EXPECT(module->words[7] == 3 && module->words[8] == 2 && module->words[9] == 4);
    }
    watched = NULL;
    driver_close(module);
    unlink(path);
}

/* Where no msync is needed, what was stored before is flushed: all of the module, when it is opened. */
static void flushed_before(const char *path)
{
#ifdef DRIVER_PMEM
    struct driver_module *module = driver_create(path, 1500);
    EXPECT(module != NULL);
    driver_close(module);
    persisted = NULL;
    persisted_bytes = 0;
    module = driver_open(path);
    EXPECT(module != NULL);
    if (module->flushes_lines)
        EXPECT(persisted == module->words && persisted_bytes == 8 * module->count);
    /* A flush sends the lines of its words back, unless the stores went past them. */
    uint64_t ops[] = {1, 700, 1, 1, 701, 2, 2, 700, 2};
    sent = NULL;
    EXPECT(driver_carry(module, ops, 3) == 0);
    if (module->flushes_lines && !module->past_cache)
        EXPECT(sent == &module->words[700] && sent_bytes == 16);
    else
        EXPECT(sent == NULL);
    EXPECT(module->past_cache == (module->flushes_lines && DRIVER_PAST_CACHE));
    driver_close(module);
    unlink(path);
#else
    (void)path;
#endif
}

/* A file is made whole or not at all. */
static void making(const char *path, const char *folder)
{
    static const char late[] = "late\n";
    uint64_t ops[] = {1, 7, 1, 1, 8, 2, 2, 7, 2}, wrong[] = {1, 7, 1, 1, 100, 2};
    EXPECT(driver_make(path, 100, wrong, 2) == NULL && errno == EINVAL && access(path, F_OK) != 0);
    struct driver_module *module = driver_make(path, 100, ops, 3);
    EXPECT(module != NULL && module->count == 100 && module->words[7] == 1 && module->words[8] == 2 && in_file(path, 8) == 2);
    EXPECT(driver_make(path, 100, ops, 3) == NULL && errno == EEXIST);
    EXPECT(driver_open(path) == NULL && errno == EWOULDBLOCK);
    EXPECT(driver_check(module, path) == 0);
    driver_close(module);
    EXPECT(left_over(folder) == 0);
    unlink(path);
    /* A name that is taken while the file is made stays what it is. */
    char taken[1000];
    snprintf(taken, sizeof taken, "%s-taken", path);
    FILE *file = fopen(taken, "w");
    EXPECT(file != NULL && fputs(late, file) >= 0 && fclose(file) == 0);
    rename_from = taken;
    rename_to = path;
    EXPECT(driver_make(path, 100, ops, 3) == NULL && errno == EEXIST && rename_from == NULL && left_over(folder) == 0);
    struct stat about;
    EXPECT(stat(path, &about) == 0 && about.st_size == sizeof late - 1);
    unlink(path);
    EXPECT(driver_create("/nowhere/at/all", 100) == NULL && errno == ENOENT);
    EXPECT(driver_create("", 100) == NULL && errno == ENOENT);
    EXPECT(driver_create("/", 100) == NULL && errno == EEXIST);
}

/* The file is never a standard stream, whatever of them is closed. */
static void standard_streams(const char *path)
{
    int copies[3], high = 1;
    for (int i = 0; i < 3; i++)
        copies[i] = fcntl(i, F_DUPFD_CLOEXEC, 10);
    for (int closed = 1; closed < 8; closed++) {
        for (int i = 0; i < 3; i++)
            if (closed >> i & 1)
                close(i);
        struct driver_module *made = driver_create(path, 100);
        high = high && made != NULL && made->file > 2;
        driver_close(made);
        struct driver_module *opened = driver_open(path);
        high = high && opened != NULL && opened->file > 2;
        driver_close(opened);
        unlink(path);
        for (int i = 0; i < 3; i++)
            high = high && dup2(copies[i], i) == i;
    }
    EXPECT(high);
    for (int i = 0; i < 3; i++)
        close(copies[i]);
}

/* Whether the file that is open is the one at the path, and has its size. */
static void another_file(const char *path, const char *other)
{
    struct driver_module *module = driver_create(path, 100);
    EXPECT(module != NULL && driver_check(module, path) == 0);
    EXPECT(rename(path, other) == 0 && driver_check(module, path) == -1 && errno == ESTALE);
    EXPECT(driver_check(module, other) == 0);
    EXPECT(truncate(other, 792) == 0 && driver_check(module, other) == -1 && errno == EINVAL);
    EXPECT(truncate(other, 800) == 0);
    struct driver_module *second = driver_create(path, 100);
    EXPECT(second != NULL && driver_check(module, path) == -1 && errno == ESTALE && driver_check(second, path) == 0);
    EXPECT(one(second, 1, 5, 77) == 0 && one(second, 2, 5, 1) == 0);
    driver_close(module);
    driver_close(second);

    /* Replaced between the lock and the mapping: what is mapped is what is locked. */
    rename_from = other;
    rename_to = path;
    module = driver_open(path);
    EXPECT(module != NULL && rename_from == NULL && module->words[5] == 77 && driver_check(module, path) == -1 && errno == ESTALE);
    EXPECT(one(module, 1, 5, 78) == 0 && one(module, 2, 5, 1) == 0 && in_file(path, 5) == 0);
    driver_close(module);
    unlink(path);
}

static void no_module(const char *path)
{
    struct stat about;
    driver_close(NULL);
    alarm(20); /* a FIFO that is opened would block */
    EXPECT(mkfifo(path, 0600) == 0 && driver_open(path) == NULL && errno == ENODEV);
    alarm(0);
    unlink(path);
    EXPECT(driver_open("/dev/null") == NULL && errno == ENODEV);
    EXPECT(driver_open("/") == NULL && errno == EISDIR);
    /* Holes get room on the disk. */
    int file = open(path, O_RDWR | O_CREAT | O_EXCL, 0600);
    EXPECT(file >= 0 && ftruncate(file, 65536) == 0 && fstat(file, &about) == 0 && about.st_blocks < 128);
    struct driver_module *module = driver_open(path);
    EXPECT(module != NULL && module->count == 8192 && fstat(file, &about) == 0 && about.st_blocks >= 128);
    driver_close(module);
    close(file);
    unlink(path);
}

int main(int count, char **argument)
{
    if (count != 2)
        return 2;
    const char *path = argument[1];
    char folder[1000], other[1000];
    EXPECT(strchr(path, '/') != NULL && strlen(path) < 900);
    snprintf(other, sizeof other, "%s-other", path);
    strcpy(folder, path);
    *strrchr(folder, '/') = '\0';
    enum { WORDS = 1500 }; /* some pages, and no whole number of them */
    unlink(path);
    EXPECT(driver_open(path) == NULL && errno == ENOENT);
    EXPECT(driver_create(path, 0) == NULL && errno == EINVAL);
    EXPECT(access(path, F_OK) != 0);

    struct driver_module *module = driver_create(path, WORDS);
    EXPECT(module != NULL && module->count == WORDS);
    for (size_t i = 0; i < WORDS; i++)
        EXPECT(module->words[i] == 0);
    EXPECT(driver_open(path) == NULL && errno == EWOULDBLOCK);
    EXPECT(driver_create(path, WORDS) == NULL && errno == EEXIST);

    /* In turn: the second store of a word is the one that stays. */
    uint64_t ops[] = {1, 7, 1, 1, 8, 0x0123456789ABCDEF, 2, 7, 2, 1, 7, 2, 2, 0, WORDS, 1, WORDS - 1, 3, 2, WORDS - 1, 1};
    EXPECT(driver_carry(module, ops, sizeof ops / sizeof ops[0] / 3) == 0);
    EXPECT(driver_carry(module, ops, 0) == 0);
    EXPECT(module->words[7] == 2 && module->words[8] == 0x0123456789ABCDEF && module->words[WORDS - 1] == 3);
    EXPECT(module->words[6] == 0 && module->words[9] == 0);
    EXPECT(in_file(path, 8) == 0x0123456789ABCDEF);
    for (uint64_t first = 0; first < WORDS; first += 97)
        for (uint64_t words = 1; first + words <= WORDS; words += 211)
            EXPECT(one(module, 2, first, words) == 0);

    /* An op that it declines, also as the last of several: none is carried out. */
    EXPECT(one(module, 1, WORDS, 1) == EINVAL && one(module, 1, UINT64_MAX, 1) == EINVAL);
    EXPECT(one(module, 2, WORDS, 1) == EINVAL && one(module, 2, 0, 0) == EINVAL && one(module, 2, 0, WORDS + 1) == EINVAL);
    EXPECT(one(module, 2, 1, WORDS) == EINVAL && one(module, 2, 1, UINT64_MAX) == EINVAL && one(module, 2, UINT64_MAX, 1) == EINVAL);
    EXPECT(one(module, 0, 0, 1) == EINVAL && one(module, 3, 0, 1) == EINVAL && one(module, (uint64_t)1 << 32 | 1, 0, 1) == EINVAL);
    uint64_t wrong_at_the_end[] = {1, 20, 5, 1, WORDS, 5};
    EXPECT(driver_carry(module, wrong_at_the_end, 2) != 0 && errno == EINVAL && module->words[20] == 0);
    driver_close(module);

    module = driver_open(path);
    EXPECT(module != NULL && module->count == WORDS && module->words[7] == 2 && module->words[WORDS - 1] == 3);
    driver_close(module);
    EXPECT(truncate(path, 8 * WORDS + 4) == 0 && driver_open(path) == NULL && errno == EINVAL);
    EXPECT(truncate(path, 0) == 0 && driver_open(path) == NULL && errno == EINVAL);
    unlink(path);
    in_turn(path);
    flushed_before(path);
    for (no_rename = 0; no_rename < 2; no_rename++)
        making(path, folder);
    standard_streams(path);
    another_file(path, other);
    no_module(path);
    printf("driver: %d checks\n", checks);
    return 0;
}
