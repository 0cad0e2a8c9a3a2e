/* broken.c: the driver broken on purpose, in the way that BREAK in the environment names, to show that the fault tests can fail.
 *
 *     no-flush    flushes are left out
 *     short       a flush of the ring leaves its last word out: that of a force, the word behind the last record
 *     mark-first  a force, also that of an append, stores its marks before it flushes the records
 *     last        a call's last op is left out
 *     late        a call's ops are carried out with the next call
 *     forget      when the module is closed, the mark that was stored last is taken away again
 *     overflow    a byte after the ops is read, which a sanitizer finds
 *     hang        a force does not return
 *
 * The last three are for tests/cli/fuzz. It is driver/driver.c with another driver_carry and driver_close, so it takes every back end. */

#define driver_carry carry_in_turn
#define driver_close close_in_turn
#include "../../driver/driver.c"
#undef driver_carry
#undef driver_close

#include "drivelog.h"

enum { SUPERLINE = 24 };

static uint64_t held[DRIVELOG_OPS_WORDS];
static size_t held_count;
static uint64_t last_marked; /* the word that has the mark, 0 if there is none */
static volatile uint8_t seen;

/* Reads one byte too far of a copy of the ops. */
static void read_too_far(const uint64_t *ops, size_t count)
{
    uint8_t *copy = malloc(8 * OP_WORDS * count + 1);
    if (copy == NULL)
        abort();
    memcpy(copy, ops, 8 * OP_WORDS * count);
    seen = copy[8 * OP_WORDS * count + 1];
    free(copy);
}

static int carry_those(struct driver_module *module, const uint64_t *ops, size_t count, uint64_t code)
{
    for (size_t i = 0; i < count; i++)
        if (ops[OP_WORDS * i] == code && carry_in_turn(module, ops + OP_WORDS * i, 1) != 0)
            return -1;
    return 0;
}

/* Where a force begins in a call's ops, `count` if none does: only a force's begin with a flush, and only an append's with four stores or
 * more that are none of the superline's. */
static size_t force_in(const uint64_t *ops, size_t count)
{
    size_t first = 0;
    while (first < count && ops[OP_WORDS * first] == STORE && ops[OP_WORDS * first + 1] >= SUPERLINE)
        first++;
    return count > 1 && first < count && (first == 0 || first > 3) && ops[OP_WORDS * first] == FLUSH ? first : count;
}

int driver_carry(struct driver_module *module, const uint64_t *ops, size_t count)
{
    const char *way = getenv("BREAK");
    if (way == NULL || count > DRIVELOG_MAX_OPS)
        return carry_in_turn(module, ops, count);
    size_t first = force_in(ops, count);
    int forces = first < count;
    if (strcmp(way, "forget") == 0) {
        for (size_t i = first; i < count; i++)
            last_marked = ops[OP_WORDS * i] == STORE ? ops[OP_WORDS * i + 1] : last_marked;
        return carry_in_turn(module, ops, count);
    }
    if (strcmp(way, "overflow") == 0) {
        if (forces)
            read_too_far(ops, count);
        return carry_in_turn(module, ops, count);
    }
    if (strcmp(way, "hang") == 0) {
        while (forces)
            pause();
        return carry_in_turn(module, ops, count);
    }
    if (strcmp(way, "no-flush") == 0)
        return carry_those(module, ops, count, STORE);
    if (strcmp(way, "mark-first") == 0) {
        const uint64_t *force = ops + OP_WORDS * first;
        return carry_in_turn(module, ops, first) | carry_those(module, force, count - first, STORE) |
               carry_those(module, force, count - first, FLUSH);
    }
    if (strcmp(way, "last") == 0)
        return carry_in_turn(module, ops, count > 0 ? count - 1 : 0);
    if (strcmp(way, "late") == 0) {
        int done = carry_in_turn(module, held, held_count);
        memcpy(held, ops, 8 * OP_WORDS * count);
        held_count = count;
        return done;
    }
    if (strcmp(way, "short") == 0) {
        for (size_t i = 0; i < count; i++) {
            uint64_t op[OP_WORDS] = {ops[OP_WORDS * i], ops[OP_WORDS * i + 1], ops[OP_WORDS * i + 2]};
            if (op[0] == FLUSH && op[1] >= SUPERLINE && op[2] > 1)
                op[2]--;
            if (carry_in_turn(module, op, 1) != 0)
                return -1;
        }
        return 0;
    }
    errno = EINVAL;
    return -1;
}

void driver_close(struct driver_module *module)
{
    uint64_t word[OP_WORDS] = {STORE, last_marked, 0};
    if (last_marked != 0)
        carry_in_turn(module, word, 1);
    close_in_turn(module);
}
