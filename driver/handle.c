/* handle.c: see handle.h for what it promises. C11, and C++11 too. */

#include "handle.h"

#include <errno.h>
#include <stdio.h>
#include <string.h>
#include <sys/stat.h>

enum { RECOVERY_OPS = 11, COUNTS = DRIVELOG_REPLY_OPS }; /* a recovery's last ops; the reply's first count of ops */

/* What a call is lent. Op buffer 0 serves every call but the recovery of three, which fills one for each module. */
#define IMAGE(h) (h)->images[(h)->chosen], (h)->words
#define LENT(h) (h)->state, DRIVELOG_STATE_WORDS, IMAGE(h), (h)->ops[0], HANDLE_OPS_WORDS
#define REPLY(h) (h)->reply, DRIVELOG_REPLY_WORDS

/* A writing call, unless too few modules are in step for it to count. */
#define MADE(h, call) (enough(h) ? carried(h, call) : -HANDLE_TOO_FEW)

/* ---------------------------------------------------------------- modules */

static void put_out_of_step(struct handle_module *m, int why)
{
    m->in_step = 0;
    m->why = why;
}

static void put_out_by_system(struct handle_module *m) { put_out_of_step(m, HANDLE_SYSTEM + errno); }

/* One that is of no use is given back. */
static void put_away(struct handle_module *m, int why)
{
    put_out_of_step(m, why);
    driver_close(m->module);
    m->module = NULL;
    m->words = 0;
}

static size_t in_step(const struct handle *h)
{
    size_t count = 0;
    for (size_t i = 0; i < h->module_count; i++)
        count += h->modules[i].in_step != 0;
    return count;
}

/* "counts as kept when two of them .. have carried out its orders"; one module is enough where there is only one. */
static int enough(const struct handle *h) { return h->module_count > 0 && in_step(h) >= (h->module_count + 1) / 2; }

/* A module in step carries ops out, or is in step no more: after a failed flush it gets nothing. */
static void carry(struct handle_module *m, const uint64_t *ops, size_t count)
{
    if (m->in_step && driver_carry(m->module, ops, count) != 0)
        put_out_by_system(m);
}

/* What a writing call answered, with its ops carried out. */
static int64_t carried(struct handle *h, int64_t answer)
{
    if (answer < 0)
        return answer;
    for (size_t i = 0; i < h->module_count; i++)
        carry(&h->modules[i], h->ops[0], h->reply[DRIVELOG_REPLY_OPS]);
    return enough(h) ? answer : -HANDLE_TOO_FEW;
}

/* ---------------------------------------------------------------- open, recover, close */

static int is_size(uint64_t words) { return words >= DRIVELOG_MIN_IMAGE_WORDS && words <= HANDLE_WORDS; }

/* A file of a wrong size is not opened, and gets no room on the disk. */
static int is_no_image(const char *path)
{
    struct stat about;
    return stat(path, &about) == 0 && S_ISREG(about.st_mode) && (about.st_size % 8 != 0 || !is_size((uint64_t)about.st_size / 8));
}

/* Takes a module over that the driver gave, or null with errno. */
static void take(struct handle_module *m, struct driver_module *module)
{
    m->module = module;
    if (module == NULL)
        put_out_by_system(m);
    else if (is_size(module->count))
        m->words = module->count;
    else
        put_away(m, DRIVELOG_IMAGE_SIZE);
}

/* Opens a module, unless it is open, nothing is wrong with it, and its path still names it. */
static void have(struct handle_module *m)
{
    if (m->module != NULL && m->why == 0 && driver_check(m->module, m->path) == 0)
        return;
    put_away(m, 0);
    if (is_no_image(m->path))
        put_out_of_step(m, DRIVELOG_IMAGE_SIZE);
    else
        take(m, driver_open(m->path));
}

static int64_t begin(struct handle *h, char *const *paths, size_t count)
{
    memset(h, 0, sizeof *h);
    if (count != 1 && count != HANDLE_MODULES)
        return -DRIVELOG_ARGUMENT;
    h->module_count = count;
    for (size_t i = 0; i < count; i++)
        h->modules[i].path = paths[i];
    return 0;
}

int64_t handle_open(struct handle *h, char *const *paths, size_t count)
{
    int64_t begun = begin(h, paths, count), there = 0, why = 0;
    for (size_t i = 0; i < h->module_count; i++) {
        have(&h->modules[i]);
        there += h->modules[i].module != NULL;
        why = why == 0 ? h->modules[i].why : why;
    }
    return begun < 0 || there >= ((int64_t)count + 1) / 2 ? begun + there : -why;
}

/* Takes back what was made, if its path still names it. */
static void unmake(struct handle_module *m)
{
    if (driver_check(m->module, m->path) == 0)
        remove(m->path);
    put_away(m, 0);
}

int64_t handle_format(struct handle *h, char *const *paths, size_t count, size_t words)
{
    int64_t answer = begin(h, paths, count);
    h->words = words;
    if (answer == 0)
        answer = is_size(words) ? drivelog_format(LENT(h), REPLY(h)) : -DRIVELOG_IMAGE_SIZE;
    for (size_t i = 0; answer == 0 && i < h->module_count; i++) {
        take(&h->modules[i], driver_make(paths[i], words, h->ops[0], h->reply[DRIVELOG_REPLY_OPS]));
        h->modules[i].in_step = h->modules[i].module != NULL;
        answer = -h->modules[i].why;
        for (size_t made = 0; answer < 0 && made < i; made++)
            unmake(&h->modules[made]);
    }
    return answer;
}

/* The size of two modules, or of the lowest where no two have one size. */
static size_t common_words(const struct handle *h)
{
    size_t lowest = 0;
    for (size_t i = h->module_count; i-- > 0;) {
        lowest = h->modules[i].words > 0 ? h->modules[i].words : lowest;
        for (size_t j = 0; j < i; j++)
            if (h->modules[i].words > 0 && h->modules[j].words == h->modules[i].words)
                return lowest;
    }
    return lowest > 0 ? lowest : (size_t)DRIVELOG_MIN_IMAGE_WORDS;
}

/* How many of a recovery's ops repair the module: all but the last eleven. */
static size_t repair_ops(const struct handle *h, size_t index)
{
    uint64_t count = h->reply[COUNTS + index];
    return count > RECOVERY_OPS ? (size_t)count - RECOVERY_OPS : 0;
}

int64_t handle_choose(struct handle *h)
{
#define COPY(i) h->images[i], h->words
#define OPS(i) h->ops[i], HANDLE_OPS_WORDS
    uint64_t present = 0;
    int64_t answer = -h->modules[0].why;
    h->chosen = 0;
    h->words = common_words(h);
    for (size_t i = 0; i < h->module_count; i++) {
        if (h->modules[i].words > 0 && h->modules[i].words != h->words)
            put_away(&h->modules[i], DRIVELOG_IMAGE_SIZE);
        present |= (uint64_t)(h->modules[i].words > 0) << i;
    }
    if (h->module_count == HANDLE_MODULES)
        answer = drivelog_recover_three(h->state, DRIVELOG_STATE_WORDS, COPY(0), COPY(1), COPY(2), present, OPS(0), OPS(1), OPS(2), h->reply,
                                        DRIVELOG_THREE_REPLY_WORDS);
    else if (present)
        answer = drivelog_recover(LENT(h), REPLY(h));
    for (size_t i = 0; answer >= 0 && i < h->module_count; i++)
        h->modules[i].repaired = repair_ops(h, i) > 0;
    h->chosen = answer > 0 ? (size_t)answer : 0;
    return answer;
#undef COPY
#undef OPS
}

/* Reads a module's words into its image. They are flushed first: what a killed process or a failed flush left may still fall back, and
 * the theorem has it settled before a recovery reads it. */
static void read_module(struct handle *h, size_t index)
{
    struct handle_module *m = &h->modules[index];
    have(m);
    m->in_step = 0;
    const uint64_t settle[DRIVELOG_OP_WORDS] = {DRIVELOG_OP_FLUSH, 0, m->words};
    if (m->module != NULL && driver_carry(m->module, settle, 1) != 0)
        put_away(m, HANDLE_SYSTEM + errno);
    if (m->module != NULL)
        memcpy(h->images[index], m->module->words, 8 * m->words);
}

int64_t handle_recover(struct handle *h)
{
    h->durable_lsn = 0;
    for (size_t i = 0; i < h->module_count; i++)
        read_module(h, i);
    int64_t answer = handle_choose(h);
    if (answer < 0)
        return answer;
    /* "carried out only after all repairs; the repairs go one copy after another" */
    for (size_t i = 0; i < h->module_count; i++) {
        h->modules[i].in_step = h->modules[i].module != NULL;
        carry(&h->modules[i], h->ops[i], repair_ops(h, i));
    }
    for (size_t op = 0; op < RECOVERY_OPS && enough(h); op++)
        for (size_t i = 0; i < h->module_count; i++)
            carry(&h->modules[i], h->ops[i] + DRIVELOG_OP_WORDS * (repair_ops(h, i) + op), 1);
    return enough(h) ? answer : -HANDLE_TOO_FEW;
}

void handle_close(struct handle *h)
{
    for (size_t i = 0; i < h->module_count; i++)
        put_away(&h->modules[i], 0);
}

/* ---------------------------------------------------------------- the calls of the log */

int64_t handle_reserve(struct handle *h, uint64_t kind, uint64_t length)
{
    return MADE(h, drivelog_reserve(LENT(h), kind, length, REPLY(h)));
}

int64_t handle_copy(struct handle *h, uint64_t lsn, uint64_t offset, const void *bytes, size_t count)
{
    return MADE(h, drivelog_copy(LENT(h), lsn, offset, (const uint8_t *)bytes, count, REPLY(h)));
}

int64_t handle_complete(struct handle *h, uint64_t lsn) { return MADE(h, drivelog_complete(LENT(h), lsn, REPLY(h))); }

/* What a force, or that of an append, answers once its ops are carried out: `durable`, if the modules that have them are still there. */
static int64_t forced(struct handle *h, int64_t answer, uint64_t lsn, int64_t durable)
{
    for (size_t i = 0; answer >= 0 && i < h->module_count; i++)
        if (h->modules[i].in_step && driver_check(h->modules[i].module, h->modules[i].path) != 0)
            put_out_by_system(&h->modules[i]);
    if (!enough(h))
        return -HANDLE_NOT_DURABLE;
    if (lsn > h->durable_lsn)
        h->durable_lsn = lsn;
    return durable;
}

int64_t handle_force(struct handle *h, uint64_t lsn, uint64_t frequency)
{
    int64_t answer = MADE(h, drivelog_force(LENT(h), lsn, frequency, REPLY(h)));
    return answer == 1 || answer == -HANDLE_TOO_FEW ? forced(h, answer, lsn, 1) : answer;
}

int64_t handle_append(struct handle *h, uint64_t kind, const void *bytes, size_t count, uint64_t frequency)
{
    if (!enough(h))
        return -HANDLE_TOO_FEW;
    int64_t lsn = drivelog_append(LENT(h), kind, (const uint8_t *)bytes, count, frequency, REPLY(h)), answer = carried(h, lsn);
    return lsn >= 0 && h->reply[DRIVELOG_REPLY_SECOND] == 1 ? forced(h, answer, (uint64_t)lsn, lsn) : answer;
}

int64_t handle_release(struct handle *h, uint64_t lsn) { return MADE(h, drivelog_release(LENT(h), lsn, REPLY(h))); }

int64_t handle_release_all(struct handle *h) { return MADE(h, drivelog_release_all(LENT(h), REPLY(h))); }

int64_t handle_check(struct handle *h)
{
    for (size_t i = 0; i < h->module_count; i++) {
        struct handle_module *m = &h->modules[i];
        if (m->in_step && driver_check(m->module, m->path) != 0)
            put_out_by_system(m);
        else if (m->in_step && memcmp(m->module->words, h->images[h->chosen], 8 * h->words) != 0)
            put_out_of_step(m, HANDLE_ALTERED);
    }
    return enough(h) ? (int64_t)in_step(h) : -HANDLE_TOO_FEW;
}

/* ---------------------------------------------------------------- reading */

int64_t handle_first(struct handle *h) { return drivelog_open(IMAGE(h), h->cursor, DRIVELOG_CURSOR_WORDS, REPLY(h)); }

int64_t handle_next(struct handle *h, struct handle_record *record)
{
    uint64_t row[DRIVELOG_RECORD_WORDS];
    int64_t found;
    do
        found = drivelog_next(IMAGE(h), h->cursor, DRIVELOG_CURSOR_WORDS, row, DRIVELOG_RECORD_WORDS, REPLY(h));
    while (found == 1 && row[DRIVELOG_RECORD_MARK] == DRIVELOG_MARK_RELEASED);
    if (found != 1)
        return found;
    record->lsn = row[DRIVELOG_RECORD_LSN];
    record->kind = row[DRIVELOG_RECORD_KIND];
    record->epoch = row[DRIVELOG_RECORD_EPOCH];
    record->length = (size_t)row[DRIVELOG_RECORD_LENGTH];
    found = drivelog_fetch(IMAGE(h), row[DRIVELOG_RECORD_POS], record->length, record->bytes, sizeof record->bytes, REPLY(h));
    return found < 0 ? found : 1;
}

const char *handle_text(int64_t number)
{
    uint64_t positive = number < 0 ? 0 - (uint64_t)number : (uint64_t)number;
    switch (positive) {
    case 0: return "done";
    case HANDLE_NOT_DURABLE: return "not durable: too few modules in step have carried it out";
    case HANDLE_TOO_FEW: return "too few modules are in step; recover";
    case HANDLE_ALTERED: return "another program wrote to it";
    case HANDLE_SYSTEM + ESTALE: return "it was moved, removed or replaced while it was open";
    case HANDLE_SYSTEM + EWOULDBLOCK: return "another process has it open";
    default: return positive > HANDLE_SYSTEM ? strerror((int)(positive - HANDLE_SYSTEM)) : drivelog_refusal_text(number);
    }
}
