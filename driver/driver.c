/* driver.c: see driver.h for what it owes. Two back ends: a memory-mapped file with msync for each flush, always there; and libpmem
 * (cc -DDRIVER_PMEM .. -lpmem), which needs no msync where the file is on persistent memory, and calls it where not. The tests
 * bring a third one, tests/kill/power.h (-DDRIVER_BACK_END). A back end is four functions: map, unmap, store, flush. It is C11, and
 * C++11 too. */

#ifndef _GNU_SOURCE
#define _GNU_SOURCE /* renameat2 */
#endif
#include "driver.h"

#include <errno.h>
#include <fcntl.h>
#include <libgen.h>
#include <limits.h>
#include <stdio.h>
#include <stdlib.h>
#include <string.h>
#include <sys/file.h>
#include <sys/mman.h>
#include <sys/stat.h>
#include <unistd.h>

#if __BYTE_ORDER__ != __ORDER_LITTLE_ENDIAN__
#error "an image's words are little-endian in its bytes"
#endif

enum { STORE = 1, FLUSH = 2, OP_WORDS = 3 };

#if defined DRIVER_BACK_END
#include DRIVER_BACK_END
#else

/* One store of 64 bits, which no other store of this program passes. */
static void store_in_cache(struct driver_module *module, uint64_t word, uint64_t value)
{
    __atomic_store_n((uint64_t *)&module->words[word], value, __ATOMIC_RELEASE);
}

#if defined DRIVER_PMEM
#include <libpmem.h>

/* On persistent memory there are two ways. In the cache: a flush writes the lines of its words back, and a fence waits for them. Past the
 * cache, as libpmem itself copies more than a few lines: the next fence makes such stores safe, and no line is dirty. Which is faster is the
 * processor's affair (docs/SPEED.md): AMD's takes the second, every other the first, unless DRIVER_PAST_CACHE says which. */
#if !defined __x86_64__
#undef DRIVER_PAST_CACHE
#define DRIVER_PAST_CACHE 0
#else
#include <emmintrin.h>
#ifndef DRIVER_PAST_CACHE
#define DRIVER_PAST_CACHE __builtin_cpu_is("amd")
#endif
#endif

/* libpmem takes a path. This one names the file that is open and locked, whatever its own name means by now. */
static const uint64_t *map(struct driver_module *module)
{
    char path[32];
    snprintf(path, sizeof path, "/proc/self/fd/%d", module->file);
    const uint64_t *words = (const uint64_t *)pmem_map_file(path, 0, 0, 0, NULL, &module->flushes_lines);
    /* What was stored before it was opened is made safe. */
    if (words != NULL && module->flushes_lines)
        pmem_persist(words, 8 * module->count);
    module->past_cache = module->flushes_lines && DRIVER_PAST_CACHE;
    return words;
}

static void store(struct driver_module *module, uint64_t word, uint64_t value)
{
#if defined __x86_64__
    if (module->past_cache) {
        _mm_stream_si64((long long *)&module->words[word], (long long)value);
        return;
    }
#endif
    store_in_cache(module, word, value);
}

static void unmap(struct driver_module *module) { pmem_unmap((void *)module->words, 8 * module->count); }

static int flush(struct driver_module *module, uint64_t first, uint64_t count)
{
    if (!module->flushes_lines)
        return pmem_msync(&module->words[first], 8 * count);
    if (!module->past_cache)
        pmem_flush(&module->words[first], 8 * count);
    pmem_drain();
    return 0;
}

#else

static void store(struct driver_module *module, uint64_t word, uint64_t value) { store_in_cache(module, word, value); }

static const uint64_t *map(struct driver_module *module)
{
    void *words = mmap(NULL, 8 * module->count, PROT_READ | PROT_WRITE, MAP_SHARED, module->file, 0);
    return words == MAP_FAILED ? NULL : (const uint64_t *)words;
}

static void unmap(struct driver_module *module) { munmap((void *)module->words, 8 * module->count); }

/* msync takes whole pages. The mapping begins with one. */
static int flush(struct driver_module *module, uint64_t first, uint64_t count)
{
    size_t page = (size_t)sysconf(_SC_PAGESIZE), start = 8 * first / page * page;
    return msync((char *)module->words + start, 8 * (first + count) - start, MS_SYNC);
}

#endif
#endif

/* Closes a descriptor, if it is one, and leaves errno as it was. */
static void close_quietly(int file)
{
    int why = errno;
    if (file >= 0)
        close(file);
    errno = why;
}

/* The same file at a descriptor above 2: where a standard stream is closed, what the program prints must not reach the module. */
static int above_streams(int file)
{
    if (file < 0 || file > STDERR_FILENO)
        return file;
    int above = fcntl(file, F_DUPFD_CLOEXEC, STDERR_FILENO + 1);
    close_quietly(file);
    return above;
}

static int fails_with(int why)
{
    errno = why;
    return -1;
}

/* 0 for a regular file; else -1, and errno says what it is. */
static int need_regular(const struct stat *about)
{
    if (S_ISREG(about->st_mode))
        return 0;
    return fails_with(S_ISDIR(about->st_mode) ? EISDIR : ENODEV);
}

/* A FIFO or a device is not opened at all, since opening alone may block or do something. */
static int open_regular(const char *path)
{
    struct stat about;
    if (stat(path, &about) != 0 || need_regular(&about) != 0)
        return -1;
    return above_streams(open(path, O_RDWR | O_NONBLOCK | O_CLOEXEC));
}

/* Room on the disk for the whole file, so that no store can meet a full disk. */
static int make_room(int file, const struct stat *about)
{
    if (about->st_blocks >= (about->st_size + 511) / 512)
        return 0;
    int why = posix_fallocate(file, 0, about->st_size);
    return why == 0 ? 0 : fails_with(why);
}

/* The module in a file that is open and locked. Takes the descriptor over: it is closed where this fails. */
static struct driver_module *module_in(int file)
{
    struct stat about;
    struct driver_module *module = (struct driver_module *)calloc(1, sizeof *module);
    int good = module != NULL && fstat(file, &about) == 0 && need_regular(&about) == 0;
    if (good && (about.st_size == 0 || about.st_size % 8 != 0))
        good = fails_with(EINVAL) == 0;
    if (good && make_room(file, &about) == 0) {
        module->count = (size_t)about.st_size / 8;
        module->file = file;
        module->words = map(module);
        if (module->words != NULL)
            return module;
    }
    close_quietly(file);
    free(module);
    return NULL;
}

/* Whether `path` names the file that is open, of which fstat gave `about`. */
static int names(const char *path, const struct stat *about)
{
    struct stat named;
    return stat(path, &named) == 0 && named.st_dev == about->st_dev && named.st_ino == about->st_ino;
}

struct driver_module *driver_open(const char *path)
{
    /* A file that lost its name to another before it was locked is not the one that is meant. */
    for (int tries = 0; tries < 100; tries++) {
        struct stat about;
        int file = open_regular(path);
        if (file < 0)
            return NULL;
        if (flock(file, LOCK_EX | LOCK_NB) != 0 || fstat(file, &about) != 0) {
            close_quietly(file);
            return NULL;
        }
        if (names(path, &about))
            return module_in(file);
        close(file);
    }
    errno = ESTALE;
    return NULL;
}

/* A module with the ops carried out, in a new file of the directory; null, and no file, if that cannot be. */
static struct driver_module *make_under(int directory, const char *name, size_t words, const uint64_t *ops, size_t count)
{
    struct driver_module *module = NULL;
    int file = above_streams(openat(directory, name, O_RDWR | O_CREAT | O_EXCL | O_CLOEXEC, 0666));
    if (file < 0)
        return NULL;
    int why = flock(file, LOCK_EX | LOCK_NB) != 0 ? errno : posix_fallocate(file, 0, (off_t)(8 * words));
    errno = why;
    if (why != 0)
        close_quietly(file);
    else
        module = module_in(file);
    if (module != NULL && driver_carry(module, ops, count) == 0 && fsync(module->file) == 0)
        return module;
    why = errno;
    unlinkat(directory, name, 0);
    driver_close(module);
    errno = why;
    return NULL;
}

/* Gives a new file its name, and makes that safe. A name that is there already stays what it is. */
static int name_it(int directory, const char *old_name, const char *name)
{
    int done = renameat2(directory, old_name, directory, name, RENAME_NOREPLACE);
    /* Some file systems have no such rename, and others no link. */
    if (done != 0 && (errno == EINVAL || errno == ENOSYS)) {
        done = linkat(directory, old_name, directory, name, 0);
        if (done == 0)
            unlinkat(directory, old_name, 0);
    }
    if (done == 0 && fsync(directory) == 0)
        return 0;
    int why = errno;
    unlinkat(directory, done == 0 ? name : old_name, 0);
    errno = why;
    return -1;
}

/* 0 if a new file can have this path. */
static int need_free(const char *path)
{
    struct stat about;
    size_t length = strlen(path);
    if (length >= PATH_MAX)
        return fails_with(ENAMETOOLONG);
    if (lstat(path, &about) == 0)
        return fails_with(EEXIST);
    if (length == 0 || path[length - 1] == '/')
        return fails_with(length == 0 ? ENOENT : EISDIR);
    return 0;
}

struct driver_module *driver_make(const char *path, size_t words, const uint64_t *ops, size_t count)
{
    struct driver_module *module = NULL;
    char folder[PATH_MAX], last[PATH_MAX], under[64];
    if (words == 0 || words > SIZE_MAX / 16) {
        errno = EINVAL;
        return NULL;
    }
    if (need_free(path) != 0)
        return NULL;
    /* Opened before anything is made: where the directory cannot be made safe, no file is left. */
    int directory = above_streams(open(dirname(strcpy(folder, path)), O_RDONLY | O_DIRECTORY | O_CLOEXEC));
    if (directory < 0)
        return NULL;
    errno = EEXIST;
    for (int number = 0; module == NULL && errno == EEXIST && number < 100; number++) {
        snprintf(under, sizeof under, ".drivelog-%ld-%d", (long)getpid(), number);
        module = make_under(directory, under, words, ops, count);
    }
    if (module != NULL && name_it(directory, under, basename(strcpy(last, path))) != 0) {
        int why = errno;
        driver_close(module);
        module = NULL;
        errno = why;
    }
    close_quietly(directory);
    return module;
}

struct driver_module *driver_create(const char *path, size_t words) { return driver_make(path, words, NULL, 0); }

static int in_order(const struct driver_module *module, const uint64_t *op)
{
    uint64_t words = module->count;
    return (op[0] == STORE && op[1] < words) || (op[0] == FLUSH && op[1] < words && op[2] > 0 && op[2] <= words - op[1]);
}

int driver_carry(struct driver_module *module, const uint64_t *ops, size_t count)
{
    for (size_t i = 0; i < count; i++)
        if (!in_order(module, ops + OP_WORDS * i))
            return fails_with(EINVAL);
    for (size_t i = 0; i < count; i++) {
        const uint64_t *op = ops + OP_WORDS * i;
        if (op[0] == STORE)
            store(module, op[1], op[2]);
        else if (flush(module, op[1], op[2]) != 0)
            return -1;
    }
    return 0;
}

int driver_check(const struct driver_module *module, const char *path)
{
    struct stat about;
    if (fstat(module->file, &about) != 0)
        return -1;
    if (!names(path, &about))
        return fails_with(ESTALE);
    return (size_t)about.st_size == 8 * module->count ? 0 : fails_with(EINVAL);
}

void driver_close(struct driver_module *module)
{
    if (module == NULL)
        return;
    unmap(module);
    close(module->file);
    free(module);
}
