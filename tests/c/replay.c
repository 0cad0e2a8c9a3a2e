/* Carries out a script of docs/REPLAY.md through the calls of include/drivelog.h and prints that document's lines, each at once, for
 * `reference compare` and `reference crash`.
 *
 * What a line says is what the call returned and told in its reply. Before it is printed, the two are held against each other and
 * against what the header says: the refusals that a call can give, and what it alters. A refusal leaves state, image, op buffer, cursor,
 * record and output as they were; a grant leaves the image that its ops make, and stays before the end of what it writes. Otherwise: a
 * message, and status 3. */

#include "lent.h"

#include "drivelog.h"

#include <inttypes.h>

enum { MOST_IMAGE = 9000, MOST_OPS = 26000, MOST_BYTES = 2048, OUTPUT_BYTE = 238, ENTRIES = 256 };

/* The commands by their numbers. */
enum { IMAGE = 1, POKE, OPS, FIELD, ENTRY, CURSOR };
enum { FORMAT = 10, RESERVE, COPY, COMPLETE, FORCE, RELEASE, RELEASE_ALL, RECOVER, APPEND };
enum { OPEN = 20, NEXT, FETCH };
enum { WORDS = 30, STATE };

/* A command's name, its fixed arguments, and for a call the refusals that the header lists. */
static const struct command {
    const char *name;
    int arguments;
    int refusals[8];
} commands[] = {
    [IMAGE] = {"image", 2, {0}},
    [POKE] = {"poke", 2, {0}},
    [OPS] = {"tape", 2, {0}},
    [FIELD] = {"field", 2, {0}},
    [ENTRY] = {"entry", 6, {0}},
    [CURSOR] = {"cursor", 6, {0}},
    [FORMAT] = {"format", 0, {DRIVELOG_IMAGE_SIZE, DRIVELOG_UNSOUND, DRIVELOG_OPS_SHORT}},
    [RESERVE] = {"reserve", 2,
                 {DRIVELOG_IMAGE_SIZE, DRIVELOG_UNSOUND, DRIVELOG_ARGUMENT, DRIVELOG_NUMBERS_SPENT, DRIVELOG_TABLE_FULL,
                  DRIVELOG_NO_ROOM, DRIVELOG_OPS_SHORT}},
    [COPY] = {"copy", 3,
              {DRIVELOG_IMAGE_SIZE, DRIVELOG_UNSOUND, DRIVELOG_NOT_LIVE, DRIVELOG_WRONG_STAGE, DRIVELOG_BEYOND_LENGTH,
               DRIVELOG_OPS_SHORT}},
    [COMPLETE] = {"complete", 1,
                  {DRIVELOG_IMAGE_SIZE, DRIVELOG_UNSOUND, DRIVELOG_NOT_LIVE, DRIVELOG_WRONG_STAGE, DRIVELOG_OPS_SHORT}},
    [FORCE] = {"force", 2,
               {DRIVELOG_IMAGE_SIZE, DRIVELOG_UNSOUND, DRIVELOG_ARGUMENT, DRIVELOG_NOT_LIVE, DRIVELOG_UNFINISHED, DRIVELOG_OPS_SHORT}},
    [RELEASE] = {"release", 1,
                 {DRIVELOG_IMAGE_SIZE, DRIVELOG_UNSOUND, DRIVELOG_NOT_LIVE, DRIVELOG_WRONG_STAGE, DRIVELOG_HELD, DRIVELOG_OPS_SHORT}},
    [RELEASE_ALL] = {"releaseall", 0, {DRIVELOG_IMAGE_SIZE, DRIVELOG_UNSOUND, DRIVELOG_UNFINISHED, DRIVELOG_OPS_SHORT}},
    [RECOVER] = {"takeup", 0,
                 {DRIVELOG_IMAGE_SIZE, DRIVELOG_UNSOUND, DRIVELOG_SUPERLINE, DRIVELOG_NUMBERS_SPENT, DRIVELOG_TOO_MANY,
                  DRIVELOG_DAMAGED, DRIVELOG_OPS_SHORT}},
    [APPEND] = {"append", 3,
                {DRIVELOG_IMAGE_SIZE, DRIVELOG_UNSOUND, DRIVELOG_ARGUMENT, DRIVELOG_NUMBERS_SPENT, DRIVELOG_TABLE_FULL, DRIVELOG_NO_ROOM,
                 DRIVELOG_UNFINISHED, DRIVELOG_OPS_SHORT}},
    [OPEN] = {"open", 0, {DRIVELOG_OUTPUT_SHORT, DRIVELOG_IMAGE_SIZE, DRIVELOG_SUPERLINE}},
    [NEXT] = {"next", 0,
              {DRIVELOG_OUTPUT_SHORT, DRIVELOG_IMAGE_SIZE, DRIVELOG_UNSOUND, DRIVELOG_TOO_MANY, DRIVELOG_DAMAGED}},
    [FETCH] = {"fetch", 3, {DRIVELOG_IMAGE_SIZE, DRIVELOG_ARGUMENT, DRIVELOG_OUTPUT_SHORT}},
    [WORDS] = {"words", 2, {0}},
    [STATE] = {"state", 0, {0}},
};

/* What the script works on. The calls are lent copies. */
static uint64_t image[MOST_IMAGE], ops[MOST_OPS], state[DRIVELOG_STATE_WORDS], cursor[DRIVELOG_CURSOR_WORDS + 2];
static size_t image_words, ops_words;

/* What the last call returned, and the reply's words after it. */
static int64_t result;
static uint64_t reply[DRIVELOG_REPLY_WORDS];

static struct place in_state, in_image, in_ops, in_bytes, in_cursor, in_record, in_output, in_reply;

/* What stands in reply and record before a call. */
static const uint64_t old[] = {~0ull, ~1ull, ~2ull, ~3ull, ~4ull, ~5ull, ~6ull, ~7ull};

static uint64_t digest_of(uint64_t digest, uint64_t value)
{
    const uint64_t prime = 2147483647;
    return (digest * 31 + value % prime) % prime;
}

static uint64_t digest_words(const uint64_t *words, size_t count)
{
    uint64_t digest = 7;
    for (size_t i = 0; i < count; i++)
        digest = digest_of(digest, words[i]);
    return digest;
}

static uint64_t digest_bytes(const uint8_t *bytes, size_t count)
{
    uint64_t digest = 7;
    for (size_t i = 0; i < count; i++)
        digest = digest_of(digest, bytes[i]);
    return digest;
}

/* Place, length, kind, stage and epoch of an entry, as the state's words hold them. */
static void entry_numbers(size_t i, uint64_t numbers[5])
{
    uint64_t first = state[8 + 2 * i];
    numbers[0] = first & 0xffff;
    numbers[1] = first >> 16 & 0xffff;
    numbers[2] = first >> 32 & 0xffff;
    numbers[3] = first >> 48;
    numbers[4] = state[9 + 2 * i];
}

static void set_entry(const uint64_t a[6])
{
    uint64_t i = a[0] % ENTRIES, stage = a[4] > 4 ? 0 : a[4];
    state[8 + 2 * i] = (a[1] & 0xffff) | (a[2] & 0xffff) << 16 | (a[3] & 0xffff) << 32 | stage << 48;
    state[9 + 2 * i] = a[5] & 0xffffffff;
}

static void print_digests(void)
{
    uint64_t digest = digest_words(state, 8), numbers[5];
    for (size_t i = 0; i < ENTRIES; i++) {
        entry_numbers(i, numbers);
        for (size_t k = 0; k < 5; k++)
            digest = digest_of(digest, numbers[k]);
    }
    printf(" = %" PRIu64 " %" PRIu64 " %" PRIu64, digest_words(image, image_words), digest_words(ops, ops_words), digest);
}

static void print_state(void)
{
    printf("state");
    for (size_t i = 0; i < 8; i++)
        printf(" %" PRIu64, state[i]);
    for (size_t i = 0; i < ENTRIES; i++) {
        uint64_t n[5];
        entry_numbers(i, n);
        if (n[3] != 0)
            printf(" [%zu %" PRIu64 " %" PRIu64 " %" PRIu64 " %" PRIu64 " %" PRIu64 "]", i, n[0], n[1], n[2], n[3], n[4]);
    }
    printf("\n");
}

static void print_words(uint64_t first, uint64_t count)
{
    printf("words");
    for (size_t i = 0; i < image_words; i++)
        if (i >= first && i - first < count)
            printf(" %" PRIu64, image[i]);
    printf("\n");
}

/* Four words for the reply, or some more. */
static size_t lend_reply(uint64_t **words)
{
    size_t count = DRIVELOG_REPLY_WORDS + call_number % 3;
    *words = lend(&in_reply, old, 8 * count);
    return count;
}

/* Takes the reply's four words; they and what was returned have to agree. The line begins with the call's name, and with its refusal. */
static void take_reply(const struct command *command)
{
    need(stayed(&in_reply, old, sizeof reply), "words behind the reply are altered");
    memcpy(reply, in_reply.lent, sizeof reply);
    uint64_t number = reply[DRIVELOG_REPLY_NUMBER], second = reply[DRIVELOG_REPLY_SECOND];
    if (result >= 0) {
        need(number == 0 && reply[DRIVELOG_REPLY_DETAIL] == 0, "granted, and the reply tells a refusal");
        printf("%s", command->name);
        return;
    }
    need(number == 0 - (uint64_t)result, "the refusal returned is not the one that the reply tells");
    need(reply[DRIVELOG_REPLY_OPS] == 0, "a refusal has ops");
    int listed = 0;
    for (size_t i = 0; i < 8; i++)
        listed |= number == (uint64_t)command->refusals[i];
    need(listed, "a refusal that the header does not list");
    static const char *const tests[] = {"", "mark", "kind", "length", "fit", "LSN", "check", "epoch"};
    if (number == DRIVELOG_DAMAGED)
        need(second >= DRIVELOG_TEST_MARK && second <= DRIVELOG_TEST_EPOCH, "no test of a damaged record");
    else
        need(second == 0, "a refusal with a second value");
    printf("%s refused %" PRIu64 " %" PRIu64, command->name, number, reply[DRIVELOG_REPLY_DETAIL]);
    if (number == DRIVELOG_DAMAGED)
        printf(" %s", tests[second]);
}

/* What a writing call that is granted has left: its ops in the op buffer, their stores in the image, the new state. */
static void take_ops(void)
{
    uint64_t count = reply[DRIVELOG_REPLY_OPS];
    need(count <= ops_words / 3 && count <= DRIVELOG_MAX_OPS, "more ops than there can be");
    need(stayed(&in_ops, ops, 3 * 8 * count), "the op buffer is altered behind the ops");
    memcpy(ops, in_ops.lent, 3 * 8 * count);
    for (uint64_t i = 0; i < count; i++) {
        const uint64_t *op = &ops[3 * i];
        need(op[0] == 1 || op[0] == 2, "an op that is neither store nor flush");
        need(op[0] == 1 ? op[1] < image_words : op[1] <= image_words && op[2] <= image_words - op[1], "an op beyond the image");
        if (op[0] == 1)
            image[op[1]] = op[2];
    }
    need(stayed(&in_image, image, 0), "the image is not what the ops make of it");
    need(stayed(&in_state, state, sizeof state), "words around the state are altered");
    memcpy(state, in_state.lent, sizeof state);
}

/* What a writing call answers where it is granted. */
static void print_granted(uint64_t number)
{
    uint64_t second = reply[DRIVELOG_REPLY_SECOND];
    need(number == RESERVE || (number == APPEND && second == 1) || second == 0, "a second value that no one asked for");
    if (number == RESERVE || number == APPEND) {
        need(result > 0, "no LSN is 0");
        printf(" ok %" PRId64 " %" PRIu64, result, second);
    } else if (number == FORCE) {
        need(result == 1 || (result == 0 && reply[DRIVELOG_REPLY_OPS] == 0), "neither durable nor deferred");
        printf(result == 1 ? " kept" : " putoff");
    } else {
        need(result == 0, "granted, and not 0");
        printf(" ok");
    }
}

/* Whether a command has so many bytes after it as its third argument says. */
static int has_data(uint64_t number) { return number == COPY || number == APPEND; }

static void make_writing(uint64_t number, const uint64_t a[6], const uint8_t *bytes)
{
    uint64_t *r, *s = lend(&in_state, state, sizeof state);
    uint64_t *w = lend(&in_image, image, 8 * image_words), *o = lend(&in_ops, ops, 8 * ops_words);
    size_t n = DRIVELOG_STATE_WORDS, wn = image_words, on = ops_words, rn = lend_reply(&r), count = has_data(number) ? a[2] : 0;
    uint8_t *b = lend(&in_bytes, bytes, count);
    switch (number) {
    case FORMAT:
        result = drivelog_format(s, n, w, wn, o, on, r, rn);
        break;
    case RESERVE:
        result = drivelog_reserve(s, n, w, wn, o, on, a[0], a[1], r, rn);
        break;
    case COPY:
        result = drivelog_copy(s, n, w, wn, o, on, a[0], a[1], b, count, r, rn);
        break;
    case COMPLETE:
        result = drivelog_complete(s, n, w, wn, o, on, a[0], r, rn);
        break;
    case FORCE:
        result = drivelog_force(s, n, w, wn, o, on, a[0], a[1], r, rn);
        break;
    case APPEND:
        result = drivelog_append(s, n, w, wn, o, on, a[0], b, count, a[1], r, rn);
        break;
    case RELEASE:
        result = drivelog_release(s, n, w, wn, o, on, a[0], r, rn);
        break;
    case RELEASE_ALL:
        result = drivelog_release_all(s, n, w, wn, o, on, r, rn);
        break;
    default:
        result = drivelog_recover(s, n, w, wn, o, on, r, rn);
    }
    need(stayed(&in_bytes, bytes, 0), "the bytes are altered");
    take_reply(&commands[number]);
    if (result < 0) {
        need(stayed(&in_state, state, 0), "a refusal alters the state");
        need(stayed(&in_image, image, 0), "a refusal alters the image");
        need(stayed(&in_ops, ops, 0), "a refusal alters the op buffer");
    } else {
        take_ops();
        print_granted(number);
    }
    printf(" orders %" PRIu64, reply[DRIVELOG_REPLY_OPS]);
    for (uint64_t i = 0; i < reply[DRIVELOG_REPLY_OPS]; i++)
        printf(" %c %" PRIu64 " %" PRIu64, ops[3 * i] == 1 ? 's' : 'f', ops[3 * i + 1], ops[3 * i + 2]);
    print_digests();
    printf("\n");
}

/* A cursor's six words, or some more. */
static size_t lend_cursor(uint64_t **words)
{
    size_t count = DRIVELOG_CURSOR_WORDS + call_number % 3;
    cursor[DRIVELOG_CURSOR_WORDS] = old[6];
    cursor[DRIVELOG_CURSOR_WORDS + 1] = old[7];
    *words = lend(&in_cursor, cursor, 8 * count);
    return count;
}

/* Takes a reading call's reply. It has no ops, and the image stays. */
static void take_reading(uint64_t number)
{
    need(stayed(&in_image, image, 0), "a reading call alters the image");
    take_reply(&commands[number]);
    need(reply[DRIVELOG_REPLY_OPS] == 0, "a reading call has ops");
}

static void take_cursor(void)
{
    need(stayed(&in_cursor, cursor, 8 * DRIVELOG_CURSOR_WORDS), "words behind the cursor are altered");
    memcpy(cursor, in_cursor.lent, 8 * DRIVELOG_CURSOR_WORDS);
}

static void make_open(void)
{
    uint64_t *r, *c, *w = lend(&in_image, image, 8 * image_words);
    size_t rn = lend_reply(&r), cn = lend_cursor(&c);
    result = drivelog_open(w, image_words, c, cn, r, rn);
    take_reading(OPEN);
    if (result < 0) {
        need(stayed(&in_cursor, cursor, 0), "a refusal alters the cursor");
    } else {
        need(result == 0 && reply[DRIVELOG_REPLY_SECOND] == 0, "granted, and not 0");
        take_cursor();
        printf(" ok");
        for (size_t i = 0; i < DRIVELOG_CURSOR_WORDS; i++)
            printf(" %" PRIu64, cursor[i]);
    }
    print_digests();
    printf("\n");
}

/* A cursor behind a record. The lines of a script show it only by what the next step finds. */
static void need_behind(const uint64_t *after, const uint64_t *record)
{
    uint64_t size = 3 + (record[DRIVELOG_RECORD_LENGTH] + 7) / 8, ring = image_words - 24;
    uint64_t behind[DRIVELOG_CURSOR_WORDS] = {(cursor[0] + size) % ring, cursor[1] + 1, cursor[2] + size, cursor[3] + 1,
                                              record[DRIVELOG_RECORD_EPOCH], cursor[5]};
    need(memcmp(after, behind, sizeof behind) == 0, "the cursor is not behind the record");
    need(record[DRIVELOG_RECORD_POS] == cursor[0] && record[DRIVELOG_RECORD_LSN] == cursor[1], "the record is not that at the cursor");
}

static void make_next(void)
{
    uint64_t *r, *c, *w = lend(&in_image, image, 8 * image_words);
    size_t rn = lend_reply(&r), cn = lend_cursor(&c), count = DRIVELOG_RECORD_WORDS + call_number % 3;
    uint64_t *record = lend(&in_record, old, 8 * count);
    result = drivelog_next(w, image_words, c, cn, record, count, r, rn);
    take_reading(NEXT);
    if (result <= 0) {
        need(stayed(&in_cursor, cursor, 0), "no record, and the cursor is altered");
        need(stayed(&in_record, old, 0), "no record, and the record is altered");
        if (result == 0)
            printf(" end %" PRIu64, reply[DRIVELOG_REPLY_SECOND]);
    } else {
        need(result == 1 && reply[DRIVELOG_REPLY_SECOND] == 0, "neither record nor end");
        need(stayed(&in_record, old, 8 * DRIVELOG_RECORD_WORDS), "words behind the record are altered");
        const uint64_t *f = (const uint64_t *)(const void *)in_record.lent;
        need_behind(c, f);
        take_cursor();
        printf(" record %" PRIu64 " %" PRIu64 " %" PRIu64, f[DRIVELOG_RECORD_POS], f[DRIVELOG_RECORD_LSN], f[DRIVELOG_RECORD_KIND]);
        printf(" %" PRIu64 " %" PRIu64 " %" PRIu64, f[DRIVELOG_RECORD_LENGTH], f[DRIVELOG_RECORD_MARK], f[DRIVELOG_RECORD_EPOCH]);
    }
    print_digests();
    printf("\n");
}

static void make_fetch(const uint64_t a[6])
{
    uint8_t before[MOST_BYTES];
    memset(before, OUTPUT_BYTE, sizeof before);
    uint64_t *r, *w = lend(&in_image, image, 8 * image_words);
    size_t rn = lend_reply(&r), room = a[2];
    uint8_t *output = lend(&in_output, before, room);
    result = drivelog_fetch(w, image_words, a[0], a[1], output, room, r, rn);
    take_reading(FETCH);
    if (result < 0) {
        need(stayed(&in_output, before, 0), "a refusal alters the output");
    } else {
        need((uint64_t)result == a[1] && a[1] <= room && reply[DRIVELOG_REPLY_SECOND] == 0, "granted, and not the length");
        need(stayed(&in_output, before, a[1]), "the output is altered behind the payload");
        printf(" ok");
    }
    print_digests();
    printf(" %" PRIu64 "\n", digest_bytes(in_output.lent, room));
}

static void fill(uint64_t *words, size_t count, uint64_t value)
{
    for (size_t i = 0; i < count; i++)
        words[i] = value;
}

static void carry_out(uint64_t number, const uint64_t a[6], const uint8_t *bytes)
{
    switch (number) {
    case IMAGE:
        image_words = a[0];
        fill(image, image_words, a[1]);
        break;
    case POKE:
        if (a[0] < image_words)
            image[a[0]] = a[1];
        break;
    case OPS:
        ops_words = a[0];
        fill(ops, ops_words, a[1]);
        break;
    case FIELD:
        if (a[0] < 8)
            state[a[0]] = a[1];
        break;
    case ENTRY:
        set_entry(a);
        break;
    case CURSOR:
        memcpy(cursor, a, 8 * DRIVELOG_CURSOR_WORDS);
        break;
    case OPEN:
        make_open();
        break;
    case NEXT:
        make_next();
        break;
    case FETCH:
        make_fetch(a);
        break;
    case WORDS:
        print_words(a[0], a[1]);
        break;
    case STATE:
        print_state();
        break;
    default:
        make_writing(number, a, bytes);
    }
}

static int beyond_limit(uint64_t number, const uint64_t a[6])
{
    return (number == IMAGE && a[0] > MOST_IMAGE) || (number == OPS && a[0] > MOST_OPS)
           || ((has_data(number) || number == FETCH) && a[2] > MOST_BYTES);
}

int main(void)
{
    uint64_t number, a[6] = {0};
    static uint8_t bytes[MOST_BYTES];
    while (fread(&number, 8, 1, stdin) == 1 && number != 0) {
        int known = number < sizeof commands / sizeof commands[0] && commands[number].name != NULL;
        size_t count = known ? (size_t)commands[number].arguments : 0;
        if (fread(a, 8, count, stdin) != count)
            break;
        if (!known || beyond_limit(number, a)) {
            printf("bad %" PRIu64 "\n", number);
            break;
        }
        size_t data = has_data(number) ? (a[2] + 7) / 8 : 0;
        if (fread(bytes, 8, data, stdin) != data)
            break;
        call_name = commands[number].name;
        call_number++;
        at_front = call_number % 2;
        carry_out(number, a, bytes);
        /* Whoever sends commands one by one waits for their answers. */
        fflush(stdout);
    }
    return 0;
}
