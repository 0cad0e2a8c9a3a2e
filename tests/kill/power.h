/* power.h: the driver's back end for tests, modules whose power fails.
 *
 * For each word of a module it keeps the flushed value and those stored since. After POWER_OPS ops, a number in the environment, counted
 * over all modules, power fails: each file gets, for each word for itself, its flushed value or any stored since, and the process ends by
 * SIGKILL. With POWER_LATE=1 it fails before the next op instead, so that the process may still report what it did. With no POWER_OPS it
 * fails for a module when that one is closed: what was stored and not flushed is never safe. POWER_SEED chooses the values.
 *
 * With POWER_FLUSH=N the flush after N others, counted over all modules, fails with EIO and makes nothing safe; so does, with POWER_AGAIN=N,
 * each one after N more, and with POWER_DEAD=1 each later flush of that module while it is open. Included by driver/driver.c. */

#include <signal.h>

enum { MOST_MODULES = 3 };

/* Values stored and not flushed, oldest first. */
struct pending {
    uint64_t *values;
    size_t count, room;
};

/* What is known of a module that is open. */
struct power {
    const struct driver_module *module; /* null: a place that is free */
    uint64_t *newest, *flushed;
    struct pending *pending;
    int dead;
};

static struct power powers[MOST_MODULES];
static uint64_t power_random, ops_left, flushes_left, flushes_between;
static int power_lasts, fails_late, flush_fails, stays_dead;

static struct power *power_of(const struct driver_module *module)
{
    for (size_t i = 0; i < MOST_MODULES; i++)
        if (powers[i].module == module)
            return &powers[i];
    abort();
}

static uint64_t from_environment(const char *name)
{
    const char *text = getenv(name);
    return text == NULL ? 0 : strtoull(text, NULL, 10);
}

/* xorshift64*: its upper bits are good. */
static uint64_t random_below(uint64_t limit)
{
    power_random ^= power_random >> 12;
    power_random ^= power_random << 25;
    power_random ^= power_random >> 27;
    return (power_random * 0x2545F4914F6CDD1D >> 33) % limit;
}

/* Writes what the failure leaves. Some failures keep nearly all stores, some nearly none. */
static void write_what_is_left(const struct power *power)
{
    const struct driver_module *module = power->module;
    uint64_t newest_of_8 = random_below(9), oldest_of_8 = random_below(9);
    for (size_t i = 0; i < module->count; i++) {
        const struct pending *since = &power->pending[i];
        if (since->count == 0)
            continue;
        size_t taken = random_below(since->count + 1);
        if (random_below(8) < newest_of_8)
            taken = since->count;
        else if (random_below(8) < oldest_of_8)
            taken = 0;
        if (taken > 0)
            power->flushed[i] = since->values[taken - 1];
    }
    if (pwrite(module->file, power->flushed, 8 * module->count, 0) != (ssize_t)(8 * module->count))
        abort();
}

static void power_fails(void)
{
    for (size_t i = 0; i < MOST_MODULES; i++)
        if (powers[i].module != NULL)
            write_what_is_left(&powers[i]);
    raise(SIGKILL);
}

/* Before an op, and after it. */
static void before_op(void)
{
    if (!power_lasts && ops_left == 0)
        power_fails();
}

static void after_op(void)
{
    if (!power_lasts && --ops_left == 0 && !fails_late)
        power_fails();
}

/* Once: what the environment says. */
static void begin_power(void)
{
    static int begun;
    if (begun)
        return;
    begun = 1;
    power_lasts = getenv("POWER_OPS") == NULL;
    ops_left = from_environment("POWER_OPS");
    fails_late = from_environment("POWER_LATE") == 1;
    flush_fails = getenv("POWER_FLUSH") != NULL;
    flushes_left = from_environment("POWER_FLUSH");
    flushes_between = getenv("POWER_AGAIN") == NULL ? UINT64_MAX : from_environment("POWER_AGAIN");
    stays_dead = from_environment("POWER_DEAD") == 1;
    power_random = from_environment("POWER_SEED") * 0x9E3779B97F4A7C15 + 1;
}

static const uint64_t *map(struct driver_module *module)
{
    size_t bytes = 8 * module->count;
    begin_power();
    struct power *power = power_of(NULL);
    power->newest = malloc(bytes);
    power->flushed = malloc(bytes);
    power->pending = calloc(module->count, sizeof *power->pending);
    if (power->newest == NULL || power->flushed == NULL || power->pending == NULL)
        abort();
    if (pread(module->file, power->flushed, bytes, 0) != (ssize_t)bytes)
        abort();
    power->module = module;
    power->dead = 0;
    memcpy(power->newest, power->flushed, bytes);
    return power->newest;
}

static void unmap(struct driver_module *module)
{
    struct power *power = power_of(module);
    write_what_is_left(power);
    for (size_t i = 0; i < module->count; i++)
        free(power->pending[i].values);
    free(power->pending);
    free(power->flushed);
    free(power->newest);
    power->module = NULL;
}

static void store(struct driver_module *module, uint64_t word, uint64_t value)
{
    before_op();
    struct power *power = power_of(module);
    struct pending *since = &power->pending[word];
    if (since->count == since->room) {
        since->room = 2 * since->room + 2;
        since->values = realloc(since->values, 8 * since->room);
        if (since->values == NULL)
            abort();
    }
    since->values[since->count++] = value;
    power->newest[word] = value;
    after_op();
}

static int flush(struct driver_module *module, uint64_t first, uint64_t count)
{
    before_op();
    struct power *power = power_of(module);
    int fails = power->dead || (flush_fails && flushes_left == 0);
    flushes_left = fails ? flushes_between : flushes_left - 1;
    power->dead = fails && stays_dead;
    for (uint64_t i = first; !fails && i < first + count; i++) {
        power->flushed[i] = power->newest[i];
        power->pending[i].count = 0;
    }
    after_op();
    errno = EIO;
    return fails ? -1 : 0;
}
