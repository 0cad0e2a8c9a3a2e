/* handle FOLDER: the handle alone, on files that it makes in the folder and takes away. One module and three, which ops reach which module
 * and in which turn, modules that are absent, fail, are pulled out, replaced or of another size, every refusal of its own. Status 1 and a
 * line for the first thing that is not as it should be. Linked with --wrap=driver_carry, so that it sees all ops and can fail a flush. */

#define _DEFAULT_SOURCE
#include "handle.h"

#include <errno.h>
#include <stdio.h>
#include <stdlib.h>
#include <string.h>
#include <unistd.h>

enum { WORDS = 64, MOST_SEEN = 1000 };

static int checks;
static struct handle drive;
static char a[300], b[300], c[300], *paths[] = {a, b, c};

#define EXPECT(fact) (checks++, (fact) ? (void)0 : fail(__LINE__, #fact))

static void fail(int line, const char *fact)
{
    fprintf(stderr, "handle: line %d: not so: %s (%s)\n", line, fact, strerror(errno));
    exit(1);
}

/* ---------------------------------------------------------------- what the driver gets */

/* Which module was given how many ops, and which one's flushes fail from when on. */
static struct { size_t module, count; } seen[MOST_SEEN];
static size_t seen_count, failing = 9, flushes_left;

int __real_driver_carry(struct driver_module *module, const uint64_t *ops, size_t count);
int __wrap_driver_carry(struct driver_module *module, const uint64_t *ops, size_t count);
int __wrap_driver_carry(struct driver_module *module, const uint64_t *ops, size_t count)
{
    size_t index = 0;
    while (index < HANDLE_MODULES && drive.modules[index].module != module)
        index++;
    if (seen_count < MOST_SEEN) {
        seen[seen_count].module = index;
        seen[seen_count++].count = count;
    }
    for (size_t i = 0; i < count; i++) {
        if (index == failing && ops[3 * i] == DRIVELOG_OP_FLUSH && flushes_left-- == 0) {
            flushes_left = 0;
            errno = EIO;
            return -1;
        }
        if (__real_driver_carry(module, ops + 3 * i, 1) != 0)
            return -1;
    }
    return 0;
}

static void fail_after(size_t module, size_t flushes)
{
    failing = module;
    flushes_left = flushes;
}

static size_t times_seen(size_t module)
{
    size_t times = 0;
    for (size_t i = 0; i < seen_count; i++)
        times += seen[i].module == module;
    return times;
}

/* ---------------------------------------------------------------- modules */

static void make(const char *path, size_t words, int formatted)
{
    static uint64_t state[DRIVELOG_STATE_WORDS], image[DRIVELOG_MAX_IMAGE_WORDS], ops[DRIVELOG_OPS_WORDS], reply[DRIVELOG_REPLY_WORDS];
    int64_t done = formatted ? drivelog_format(state, DRIVELOG_STATE_WORDS, image, words, ops, DRIVELOG_OPS_WORDS, reply, DRIVELOG_REPLY_WORDS) : 0;
    EXPECT(done == 0);
    unlink(path);
    driver_close(driver_make(path, words, ops, formatted ? reply[DRIVELOG_REPLY_OPS] : 0));
}

static void start(size_t count)
{
    failing = 9;
    handle_close(&drive);
    for (size_t i = 0; i < count; i++)
        make(paths[i], WORDS, 1);
    EXPECT(handle_open(&drive, paths, count) == (int64_t)count);
    EXPECT(handle_recover(&drive) == 0);
    seen_count = 0;
}

static int64_t add(const char *text) { return handle_append(&drive, 7, text, strlen(text), 1); }

/* The records, as text, with their LSNs. */
static const char *listed(void)
{
    static char text[1000];
    static struct handle_record record;
    size_t length = 0;
    int64_t found = handle_first(&drive);
    text[0] = '\0';
    while (found >= 0 && (found = handle_next(&drive, &record)) == 1)
        length += (size_t)snprintf(text + length, sizeof text - length, "%d:%.*s ", (int)record.lsn, (int)record.length, (const char *)record.bytes);
    EXPECT(found == 0);
    return text;
}

static int equal(size_t i, size_t j)
{
    return memcmp(drive.modules[i].module->words, drive.modules[j].module->words, (size_t)8 * WORDS) == 0;
}

static uint64_t epoch(size_t i)
{
    const uint64_t *words = drive.modules[i].module->words;
    return words[8 * (1 + words[0]) + 4];
}

/* ---------------------------------------------------------------- tests */

static void one_module(void)
{
    start(1);
    EXPECT(add("one") == 1 && drive.durable_lsn == 1);
    EXPECT(handle_append(&drive, 7, "two", 3, 8) == 2 && drive.durable_lsn == 1);
    EXPECT(handle_force(&drive, 2, 1) == 1 && drive.durable_lsn == 2);
    EXPECT(strcmp(listed(), "1:one 2:two ") == 0);
    EXPECT(handle_release(&drive, 1) == 0 && strcmp(listed(), "2:two ") == 0);
    EXPECT(handle_release(&drive, 1) == -DRIVELOG_NOT_LIVE);
    EXPECT(handle_recover(&drive) == 0 && strcmp(listed(), "2:two ") == 0 && drive.durable_lsn == 0);

    /* In pieces, and an append that an open record is in the way of. */
    EXPECT(handle_reserve(&drive, 9, 6) == 3 && handle_reserve(&drive, 9, 0) == 4);
    EXPECT(handle_complete(&drive, 4) == 0);
    seen_count = 0;
    EXPECT(add("no") == -DRIVELOG_UNFINISHED && drive.reply[DRIVELOG_REPLY_DETAIL] == 3 && seen_count == 0);
    /* Not where its force is deferred. All its ops go to the driver at once. */
    EXPECT(handle_append(&drive, 9, "later", 5, 64) == 5 && seen_count == 1 && seen[0].count == 5 && drive.durable_lsn == 0);
    EXPECT(handle_release_all(&drive) == -DRIVELOG_UNFINISHED);
    EXPECT(handle_copy(&drive, 3, 0, "thr", 3) == 0 && handle_copy(&drive, 3, 3, "ee!", 3) == 0);
    EXPECT(handle_copy(&drive, 3, 4, "ee!", 3) == -DRIVELOG_BEYOND_LENGTH);
    EXPECT(handle_complete(&drive, 3) == 0 && handle_complete(&drive, 3) == -DRIVELOG_WRONG_STAGE);
    EXPECT(strcmp(listed(), "2:two ") == 0);
    EXPECT(add("six") == 6 && drive.durable_lsn == 6 && strcmp(listed(), "2:two 3:three! 4: 5:later 6:six ") == 0);

    /* Refusals of an append change nothing. */
    seen_count = 0;
    EXPECT(handle_append(&drive, 0, "x", 1, 1) == -DRIVELOG_ARGUMENT && handle_append(&drive, 1, "x", 1, 0) == -DRIVELOG_ARGUMENT);
    EXPECT(handle_append(&drive, 1, drive.images, 1025, 1) == -DRIVELOG_ARGUMENT);
    EXPECT(handle_append(&drive, DRIVELOG_REPLACEMENT_KIND, drive.images, DRIVELOG_NAME_BYTES - 1, 1) == -DRIVELOG_ARGUMENT);
    EXPECT(handle_append(&drive, 1, drive.images, 1024, 1) == -DRIVELOG_NO_ROOM && seen_count == 0);
    EXPECT(handle_release_all(&drive) == 0 && strcmp(listed(), "") == 0);

    /* After a failed flush nothing is done until the next recovery. */
    fail_after(0, 0);
    EXPECT(add("seven") == -HANDLE_NOT_DURABLE && drive.modules[0].why == HANDLE_SYSTEM + EIO && drive.durable_lsn == 6);
    seen_count = 0;
    EXPECT(add("eight") == -HANDLE_TOO_FEW && handle_release_all(&drive) == -HANDLE_TOO_FEW && handle_force(&drive, 7, 1) == -HANDLE_NOT_DURABLE);
    EXPECT(seen_count == 0);
    EXPECT(handle_recover(&drive) == -HANDLE_SYSTEM - EIO);
    failing = 9;
    EXPECT(handle_recover(&drive) == 0 && add("seven again") >= 7);
}

static void three_modules(void)
{
    start(3);
    EXPECT(add("one") == 1 && equal(0, 1) && equal(1, 2));
    EXPECT(times_seen(0) == 1 && times_seen(1) == 1 && times_seen(2) == 1);
    for (size_t i = 0; i < seen_count; i++)
        EXPECT(seen[i].module == i % 3);
    EXPECT(handle_check(&drive) == 3);
    EXPECT(handle_release(&drive, 1) == 0 && add("two") == 2 && handle_release_all(&drive) == 0 && add("three") == 3);
    EXPECT(strcmp(listed(), "3:three ") == 0 && equal(0, 2));
}

/* A module is pulled out, comes back later, and is repaired. */
static void absent(void)
{
    char away[400];
    snprintf(away, sizeof away, "%s.away", b);
    start(3);
    EXPECT(add("one") == 1);
    EXPECT(rename(b, away) == 0);
    EXPECT(add("two") == 2 && drive.modules[1].why == HANDLE_SYSTEM + ESTALE && !drive.modules[1].in_step);
    seen_count = 0;
    EXPECT(add("three") == 3 && times_seen(0) == 1 && times_seen(1) == 0);
    handle_close(&drive);
    EXPECT(handle_open(&drive, paths, 3) == 2 && drive.modules[1].why == HANDLE_SYSTEM + ENOENT);
    EXPECT(handle_recover(&drive) == 0 && add("four") == 4);
    EXPECT(rename(away, b) == 0);

    /* The repair of 1, then the eleven ops, one on each module before the next; a module's words are flushed before they are read. */
    seen_count = 0;
    EXPECT(handle_recover(&drive) == 0 && seen_count == 3 + 3 + 33);
    for (size_t i = 0; i < seen_count; i++)
        EXPECT(seen[i].module == i % 3 && seen[i].count == (i == 4 ? WORDS + 4 : i == 3 || i == 5 ? 0 : 1));
    EXPECT(equal(0, 1) && equal(1, 2) && add("five") == 5);
    EXPECT(strcmp(listed(), "1:one 2:two 3:three 4:four 5:five ") == 0);

    /* Two are gone: nothing counts. */
    handle_close(&drive);
    unlink(a);
    unlink(c);
    EXPECT(handle_open(&drive, paths, 3) == -HANDLE_SYSTEM - ENOENT && handle_recover(&drive) == -DRIVELOG_TOO_FEW_COPIES);
    EXPECT(add("six") == -HANDLE_TOO_FEW);
    /* A blank one and a new one get what the third has only if two can be read. */
    make(a, WORDS, 0);
    EXPECT(handle_recover(&drive) == -DRIVELOG_TOO_FEW_COPIES);
    make(c, WORDS, 1);
    EXPECT(handle_recover(&drive) == 1 && add("six") == 6 && equal(0, 2) && equal(0, 1));
}

static void failing_modules(void)
{
    start(3);
    EXPECT(add("one") == 1);
    fail_after(2, 1); /* the second flush of a force */
    EXPECT(add("two") == 2 && drive.modules[2].why == HANDLE_SYSTEM + EIO && drive.durable_lsn == 2);
    seen_count = 0;
    EXPECT(add("three") == 3 && times_seen(2) == 0);
    fail_after(0, 0);
    EXPECT(add("four") == -HANDLE_NOT_DURABLE && drive.durable_lsn == 3);
    /* A force without ops does not count either, and no call is made. */
    seen_count = 0;
    EXPECT(handle_force(&drive, 3, 1) == -HANDLE_NOT_DURABLE);
    EXPECT(handle_reserve(&drive, 1, 1) == -HANDLE_TOO_FEW && handle_release(&drive, 1) == -HANDLE_TOO_FEW && handle_check(&drive) == -HANDLE_TOO_FEW);
    EXPECT(seen_count == 0 && strncmp(listed(), "1:one 2:two 3:three ", 20) == 0);
    failing = 9;
    EXPECT(handle_recover(&drive) >= 0 && equal(0, 1) && equal(1, 2));
    EXPECT(add("next") == 5 || add("next") == 6);

    /* A recovery that only one module gets through leaves its epoch on none. */
    start(3);
    EXPECT(add("one") == 1);
    handle_close(&drive);
    unlink(c);
    make(b, WORDS, 1);
    EXPECT(handle_open(&drive, paths, 3) == 2);
    uint64_t before = epoch(0);
    fail_after(1, 1); /* its words are flushed before they are read; then in the repair */
    EXPECT(handle_recover(&drive) == -HANDLE_TOO_FEW && drive.modules[1].why == HANDLE_SYSTEM + EIO);
    EXPECT(epoch(0) == before && add("two") == -HANDLE_TOO_FEW);
    make(c, WORDS, 1);
    failing = 9;
    EXPECT(handle_recover(&drive) == 0 && strcmp(listed(), "1:one ") == 0 && epoch(0) == before + 1);

    /* In its last ops: out of step, and the two others go on. */
    fail_after(1, 2);
    EXPECT(handle_recover(&drive) == 0 && !drive.modules[1].in_step && add("two") == 2);
    failing = 9;
    EXPECT(handle_recover(&drive) == 0 && handle_check(&drive) == 3);
}

/* Other files under the modules' paths. */
static void other_files(void)
{
    struct handle *second = (struct handle *)calloc(1, sizeof *second);
    start(3);
    EXPECT(second != NULL && handle_open(second, paths, 3) == -HANDLE_SYSTEM - EWOULDBLOCK);
    EXPECT(second->modules[0].module == NULL && handle_recover(second) == -DRIVELOG_TOO_FEW_COPIES);
    EXPECT(handle_open(second, paths, 2) == -DRIVELOG_ARGUMENT && handle_open(second, paths, 0) == -DRIVELOG_ARGUMENT);
    EXPECT(handle_recover(second) < 0 && handle_append(second, 1, "x", 1, 1) == -HANDLE_TOO_FEW);
    handle_close(second);
    EXPECT(add("one") == 1);
    make(b, WORDS + 1, 1);
    EXPECT(add("two") == 2 && drive.modules[1].why == HANDLE_SYSTEM + ESTALE);
    EXPECT(handle_recover(&drive) == 0 && drive.modules[1].why == DRIVELOG_IMAGE_SIZE && drive.modules[1].module == NULL);
    /* A recovery looks for itself. */
    make(b, WORDS, 1);
    EXPECT(handle_recover(&drive) == 0 && drive.modules[1].repaired && drive.modules[1].in_step);
    make(b, WORDS, 1);
    EXPECT(handle_recover(&drive) == 0 && drive.modules[1].repaired && drive.modules[1].in_step);
    make(b, WORDS + 1, 1);
    EXPECT(handle_recover(&drive) == 0 && drive.modules[1].why == DRIVELOG_IMAGE_SIZE);
    EXPECT(add("three") == 3);
    make(b, 39, 0);
    make(c, DRIVELOG_MAX_IMAGE_WORDS, 1);
    handle_close(&drive);
    EXPECT(handle_open(&drive, paths, 3) == 2 && drive.modules[1].why == DRIVELOG_IMAGE_SIZE);
    EXPECT(handle_recover(&drive) == -DRIVELOG_TOO_FEW_COPIES);
    make(b, WORDS, 1);
    EXPECT(handle_recover(&drive) == 0 && drive.modules[2].why == DRIVELOG_IMAGE_SIZE && strcmp(listed(), "1:one 2:two 3:three ") == 0);

    /* Another program writes to one. */
    uint64_t op[DRIVELOG_OP_WORDS] = {DRIVELOG_OP_STORE, 23, 99};
    EXPECT(handle_check(&drive) == 2 && __real_driver_carry(drive.modules[1].module, op, 1) == 0);
    EXPECT(handle_check(&drive) == -HANDLE_TOO_FEW && drive.modules[1].why == HANDLE_ALTERED);
    free(second);
}

/* New modules, all or none. */
static void formats(void)
{
    handle_close(&drive);
    unlink(a);
    unlink(b);
    EXPECT(handle_format(&drive, paths, 3, WORDS) == -HANDLE_SYSTEM - EEXIST && drive.modules[2].why == HANDLE_SYSTEM + EEXIST);
    EXPECT(access(a, F_OK) != 0 && access(b, F_OK) != 0 && access(c, F_OK) == 0 && add("no") == -HANDLE_TOO_FEW);
    unlink(c);
    EXPECT(handle_format(&drive, paths, 3, 39) == -DRIVELOG_IMAGE_SIZE && handle_format(&drive, paths, 2, WORDS) == -DRIVELOG_ARGUMENT);
    EXPECT(handle_format(&drive, paths, 3, WORDS) == 0 && handle_check(&drive) == 3 && add("one") == 1);
    EXPECT(handle_recover(&drive) == 0 && strcmp(listed(), "1:one ") == 0 && !drive.modules[1].repaired);
}

static void texts(void)
{
    for (int64_t number = 1; number <= 19; number++)
        EXPECT(number == 17 || number == 18 || strcmp(handle_text(-number), drivelog_refusal_text(number)) == 0);
    for (int64_t number = HANDLE_NOT_DURABLE; number <= HANDLE_ALTERED; number++)
        EXPECT(strcmp(handle_text(number), handle_text(-number)) == 0 && strcmp(handle_text(number), handle_text(99)) != 0);
    EXPECT(strcmp(handle_text(-HANDLE_SYSTEM - EIO), strerror(EIO)) == 0);
    EXPECT(strcmp(handle_text(INT64_MIN), "") != 0);
}

int main(int count, char **argument)
{
    if (count != 2) {
        fputs("usage: handle FOLDER\n", stderr);
        return 2;
    }
    for (size_t i = 0; i < HANDLE_MODULES; i++)
        snprintf(paths[i], sizeof a, "%.250s/handle-%c", argument[1], (int)('a' + i));
    one_module();
    three_modules();
    absent();
    failing_modules();
    other_files();
    formats();
    texts();
    handle_close(&drive);
    for (size_t i = 0; i < HANDLE_MODULES; i++)
        unlink(paths[i]);
    printf("handle: %d checks, one module and three\n", checks);
    return 0;
}
