/* What no script of docs/REPLAY.md can ask of the writing and reading calls of include/drivelog.h: counts of words that are not those of a
 * state, a reply, a cursor or a record, words that no state or cursor has, and null pointers. Each call is otherwise one that is
 * granted, and each has to give the refusal that the header says, tell it in its reply, and alter nothing else.
 *
 * Standard output: how many calls were made. What is not as it should be: a message, and status 3. */

#include "lent.h"

#include "drivelog.h"

enum { STATE = DRIVELOG_STATE_WORDS, IMAGE = 200, OPS = DRIVELOG_OPS_WORDS, BYTES = 9, ENTRIES = 256 };

enum call { FORMAT, RESERVE, COPY, COMPLETE, FORCE, RELEASE, RELEASE_ALL, APPEND, RECOVER, WRITING, OPEN = WRITING, NEXT, FETCH, CALLS };
static const char *const names[] = {"format",      "reserve", "copy",    "complete", "force", "release",
                                    "release_all", "append",  "recover", "open",     "next",  "fetch"};

/* A log with what its calls need: three records, the first committed, the second complete, the third open; or all committed. */
struct log {
    uint64_t state[STATE + 1], image[DRIVELOG_MAX_IMAGE / 8 + 1], cursor[DRIVELOG_CURSOR_WORDS + 2];
};
static struct log mixed, settled;

/* How many words or bytes a call is lent. */
struct counts {
    size_t state, image, ops, reply, cursor, record, bytes;
};
static const struct counts usual = {STATE, IMAGE, OPS, 4, DRIVELOG_CURSOR_WORDS, DRIVELOG_RECORD_WORDS, BYTES};

static const uint64_t old_ops[OPS] = {5, 6, 7}, old_words[] = {~0ull, ~1ull, ~2ull, ~3ull, ~4ull, ~5ull, ~6ull, ~7ull};
static const uint8_t old_bytes[1024] = {1, 2, 3, 4, 5, 6, 7, 8, 9};
static const uint8_t longest[DRIVELOG_MAX_PAYLOAD + 1] = {7};

/* The force frequency of an append. With 8 it is deferred, also with the third record open. */
static uint64_t frequency = 8;

static struct place in_state, in_image, in_ops, in_bytes, in_cursor, in_record, in_reply;

/* Makes a call on copies of a log. With `length` 0 the record is reserved, copied or fetched with no bytes. */
static int64_t make(enum call call, const struct log *log, struct counts n, uint64_t length)
{
    call_name = names[call];
    call_number++;
    uint64_t *s = lend(&in_state, log->state, 8 * n.state), *w = lend(&in_image, log->image, 8 * n.image);
    uint64_t *o = lend(&in_ops, old_ops, 8 * n.ops), *r = lend(&in_reply, old_words, 8 * n.reply);
    uint64_t *c = lend(&in_cursor, log->cursor, 8 * n.cursor), *f = lend(&in_record, old_words, 8 * n.record);
    uint8_t *b = lend(&in_bytes, old_bytes, n.bytes);
    switch (call) {
    case FORMAT:
        return drivelog_format(s, n.state, w, n.image, o, n.ops, r, n.reply);
    case RESERVE:
        return drivelog_reserve(s, n.state, w, n.image, o, n.ops, 17, length, r, n.reply);
    case COPY:
        return drivelog_copy(s, n.state, w, n.image, o, n.ops, 3, 0, b, n.bytes, r, n.reply);
    case COMPLETE:
        return drivelog_complete(s, n.state, w, n.image, o, n.ops, 3, r, n.reply);
    case FORCE:
        return drivelog_force(s, n.state, w, n.image, o, n.ops, 2, 1, r, n.reply);
    case RELEASE:
        return drivelog_release(s, n.state, w, n.image, o, n.ops, 1, r, n.reply);
    case RELEASE_ALL:
        return drivelog_release_all(s, n.state, w, n.image, o, n.ops, r, n.reply);
    case APPEND:
        return drivelog_append(s, n.state, w, n.image, o, n.ops, 17, b, n.bytes, frequency, r, n.reply);
    case RECOVER:
        return drivelog_recover(s, n.state, w, n.image, o, n.ops, r, n.reply);
    case OPEN:
        return drivelog_open(w, n.image, c, n.cursor, r, n.reply);
    case NEXT:
        return drivelog_next(w, n.image, c, n.cursor, f, n.record, r, n.reply);
    default:
        return drivelog_fetch(w, n.image, log->cursor[0], length, b, n.bytes, r, n.reply);
    }
}

/* The log on which a call is granted. */
static const struct log *log_of(enum call call) { return call == RELEASE_ALL ? &settled : &mixed; }

static void need_reply(uint64_t number, uint64_t detail, uint64_t second)
{
    const uint64_t *reply = (const uint64_t *)(const void *)in_reply.lent;
    need(reply[0] == number && reply[1] == detail && reply[3] == second, "the reply tells something else");
    need(number == 0 || reply[2] == 0, "a refusal has ops");
    need(stayed(&in_reply, old_words, 32), "words behind the reply are altered");
}

/* A call has to give this refusal. A reply that is short is no reply. */
static void declines(enum call call, const struct log *log, struct counts n, int number, uint64_t detail)
{
    int64_t result = make(call, log, n, BYTES);
    need(result == -number, result < 0 ? "another refusal" : "it is granted");
    if (n.reply < 4)
        need(stayed(&in_reply, old_words, 0), "a short reply is altered");
    else
        need_reply((uint64_t)number, detail, 0);
    need(stayed(&in_state, log->state, 0), "a refusal alters the state");
    need(stayed(&in_image, log->image, 0), "a refusal alters the image");
    need(stayed(&in_ops, old_ops, 0), "a refusal alters the op buffer");
    need(stayed(&in_cursor, log->cursor, 0), "a refusal alters the cursor");
    need(stayed(&in_record, old_words, 0), "a refusal alters the record");
    need(stayed(&in_bytes, old_bytes, 0), "a refusal alters the bytes");
}

/* A call has to return this, with so many ops. */
static void grants(enum call call, const struct log *log, struct counts n, uint64_t length, int64_t value, uint64_t ops)
{
    need(make(call, log, n, length) == value, "another value");
    need_reply(0, 0, call == RESERVE ? log->state[3] : call == APPEND && frequency == 1);
    need(((const uint64_t *)(const void *)in_reply.lent)[2] == ops, "another count of ops");
    need(stayed(&in_state, log->state, 8 * n.state) && stayed(&in_image, log->image, 8 * n.image), "guard bytes are altered");
    need(stayed(&in_ops, old_ops, 24 * ops), "the op buffer is altered behind the ops");
    need(stayed(&in_cursor, log->cursor, 8 * DRIVELOG_CURSOR_WORDS), "words behind the cursor are altered");
    need(stayed(&in_record, old_words, 8 * DRIVELOG_RECORD_WORDS), "words behind the record are altered");
    need(stayed(&in_bytes, old_bytes, call == FETCH ? length : 0), "bytes are altered");
}

/* Makes a log's next call, which changes it. */
static void step(struct log *log, enum call call, uint64_t lsn)
{
    uint64_t ops[OPS], reply[4];
    int64_t result = 0;
    call_name = names[call];
    call_number++;
    if (call == FORMAT)
        result = drivelog_format(log->state, STATE, log->image, IMAGE, ops, OPS, reply, 4);
    else if (call == RESERVE)
        result = drivelog_reserve(log->state, STATE, log->image, IMAGE, ops, OPS, 16 + lsn, BYTES, reply, 4) - (int64_t)lsn;
    else if (call == COMPLETE)
        result = drivelog_complete(log->state, STATE, log->image, IMAGE, ops, OPS, lsn, reply, 4);
    else if (call == FORCE)
        result = drivelog_force(log->state, STATE, log->image, IMAGE, ops, OPS, lsn, 1, reply, 4) - 1;
    else
        result = drivelog_open(log->image, IMAGE, log->cursor, DRIVELOG_CURSOR_WORDS, reply, 4);
    need(result == 0, "a log is not made");
}

static void make_logs(void)
{
    step(&mixed, FORMAT, 0);
    for (uint64_t lsn = 1; lsn <= 3; lsn++) {
        step(&mixed, RESERVE, lsn);
        if (lsn < 3)
            step(&mixed, COMPLETE, lsn);
    }
    step(&mixed, FORCE, 1);
    step(&mixed, OPEN, 0);
    settled = mixed;
    step(&settled, COMPLETE, 3);
    step(&settled, FORCE, 3);
}

/* What the calls do with the usual counts, and with more words than a reply, a cursor or a record needs. */
static void usual_counts(void)
{
    static const int64_t values[] = {0, 4, 0, 0, 1, 0, 0, 4, 0, 0, 1, BYTES};
    static const uint64_t ops[] = {11, 6, 2, 1, 3, 10, 9, 6, 11, 0, 0, 0};
    for (size_t more = 0; more < 3; more++) {
        struct counts n = usual;
        n.reply += more;
        n.cursor += more;
        n.record += more;
        for (enum call call = 0; call < CALLS; call++)
            grants(call, log_of(call), n, BYTES, values[call], ops[call]);
    }
    /* Due: refused with the third record open, and else the stores, a flush, a mark and its flush. */
    frequency = 1;
    declines(APPEND, &mixed, usual, DRIVELOG_UNFINISHED, 3);
    grants(APPEND, &settled, usual, 0, 4, 9);
    frequency = 0;
    declines(APPEND, &settled, usual, DRIVELOG_ARGUMENT, 0);
    frequency = 8;
    need(drivelog_state_words() == DRIVELOG_STATE_WORDS, "the archive has another count of words for a state");
}

/* Counts that are none of a state, and fewer words than a reply, a cursor or a record has. */
static void wrong_counts(void)
{
    static const size_t images[] = {0, 1, 39, IMAGE - 1, IMAGE, IMAGE + 1, 8192, 8193}, states[] = {0, 1, 8, 519, 521};
    for (size_t i = 0; i < 8; i++) {
        size_t image = images[i];
        int size_ok = image >= 40 && image <= 8192;
        for (enum call call = 0; call < WRITING; call++)
            for (size_t k = 0; k < 5; k++) {
                struct counts n = usual;
                n.image = image;
                n.state = states[k];
                declines(call, log_of(call), n, size_ok ? DRIVELOG_UNSOUND : DRIVELOG_IMAGE_SIZE, 0);
            }
        for (enum call call = 0; call < CALLS; call++)
            for (size_t reply = 0; reply < 4; reply++) {
                struct counts n = usual;
                n.image = image;
                n.reply = reply;
                declines(call, log_of(call), n, DRIVELOG_OUTPUT_SHORT, 0);
                n.state = states[(i + reply) % 5];
                n.ops = n.cursor = n.record = n.bytes = 0;
                declines(call, log_of(call), n, DRIVELOG_OUTPUT_SHORT, 0);
            }
        for (size_t few = 0; few < 6; few++) {
            struct counts cursor = usual, record = usual;
            cursor.image = record.image = image;
            cursor.cursor = record.record = few;
            declines(OPEN, &mixed, cursor, DRIVELOG_OUTPUT_SHORT, 0);
            declines(NEXT, &mixed, cursor, DRIVELOG_OUTPUT_SHORT, 0);
            declines(NEXT, &mixed, record, DRIVELOG_OUTPUT_SHORT, 0);
        }
    }
}

/* A log with one word of its state changed is none that a call left; the first word is the image's size. Format and recover do not ask. */
static void broken_state(struct log *log, size_t word, uint64_t value)
{
    uint64_t old = log->state[word];
    log->state[word] = value;
    for (enum call call = RESERVE; call < RECOVER; call++)
        if (log_of(call) == log)
            declines(call, log, usual, word == 0 ? DRIVELOG_IMAGE_SIZE : DRIVELOG_UNSOUND, 0);
    if (log == &mixed) {
        grants(FORMAT, log, usual, BYTES, 0, 11);
        grants(RECOVER, log, usual, BYTES, 0, 11);
    }
    log->state[word] = old;
}

static void broken_states(struct log *log)
{
    /* Numbers that are as they were but for a bit that no number has. */
    for (size_t field = 0; field < 8; field++)
        for (int bit = 32; bit < 64; bit++)
            broken_state(log, field, log->state[field] ^ 1ull << bit);
    for (size_t i = 0; i < ENTRIES; i++) {
        size_t word = 8 + 2 * i;
        uint64_t numbers = log->state[word] & 0xffffffffffff, stage = log->state[word] >> 48, epoch = log->state[word + 1];
        /* Stages that are none, some of which end in the bits of one that is. */
        for (uint64_t no = 5; no < 16; no++)
            broken_state(log, word, numbers | no << 48);
        for (int bit = 3; bit < 16; bit++)
            broken_state(log, word, numbers | (stage | 1ull << bit) << 48);
        broken_state(log, word, numbers | 65535ull << 48);
        /* Epochs that no word of 32 bits holds. */
        for (int bit = 32; bit < 64; bit++)
            broken_state(log, word + 1, epoch | 1ull << bit);
        broken_state(log, word + 1, ~0ull);
        /* A free entry is all zero. */
        for (int bit = 0; stage == 0 && bit < 64; bit++) {
            broken_state(log, word, 1ull << bit);
            broken_state(log, word + 1, 1ull << bit);
        }
    }
}

/* A cursor as it was but for a bit that no cursor has. */
static void broken_cursors(void)
{
    static const size_t words[] = {0, 2, 3, 4};
    for (size_t i = 0; i < 4; i++)
        for (int bit = 32; bit < 64; bit++) {
            mixed.cursor[words[i]] ^= 1ull << bit;
            declines(NEXT, &mixed, usual, DRIVELOG_UNSOUND, 0);
            mixed.cursor[words[i]] ^= 1ull << bit;
        }
}

/* A log of five durable records in 64 words. */
static void five_records(uint64_t *state, uint64_t *image)
{
    uint64_t ops[OPS], reply[4];
    need(drivelog_format(state, STATE, image, 64, ops, OPS, reply, 4) == 0, "format");
    for (uint64_t lsn = 1; lsn <= 5; lsn++) {
        need(drivelog_reserve(state, STATE, image, 64, ops, OPS, 17, BYTES, reply, 4) == (int64_t)lsn, "reserve");
        need(drivelog_complete(state, STATE, image, 64, ops, OPS, lsn, reply, 4) == 0, "complete");
    }
    need(drivelog_force(state, STATE, image, 64, ops, OPS, 5, 1, reply, 4) == 1, "force");
}

/* How many single-bit changes of a sound state a reserve takes for another sound state. The header says so: soundness is no check. */
static void flipped_state(void)
{
    uint64_t good[STATE], good_image[64] = {0}, state[STATE], image[64], ops[OPS], reply[4];
    unsigned granted = 0;
    call_name = "a flipped state";
    five_records(good, good_image);
    for (size_t bit = 0; bit < 64 * STATE; bit++) {
        memcpy(state, good, sizeof state);
        memcpy(image, good_image, sizeof image);
        state[bit / 64] ^= 1ull << bit % 64;
        granted += drivelog_reserve(state, STATE, image, 64, ops, OPS, 1, 0, reply, 4) >= 0;
    }
    need(granted == 127, "another number of single-bit changes is granted than the header says");
}

/* What one bit of an image can do, which README says: a record's mark is not covered by its check. Of all single-bit flips of the log,
 * five make a shorter list that ends as if it were whole; each is the lowest bit of a mark. */
static void flipped_image(void)
{
    uint64_t state[STATE], image[64] = {0};
    const uint8_t *bytes = (const uint8_t *)(const void *)image;
    unsigned shorter = 0;
    call_name = "a flipped image";
    five_records(state, image);
    for (size_t bit = 0; bit < 64 * 64; bit++) {
        image[bit / 64] ^= 1ull << bit % 64;
        int64_t count = drivelog_count(bytes, sizeof image);
        image[bit / 64] ^= 1ull << bit % 64;
        need(count <= 5, "a longer list");
        need(count < 0 || count == 5 || bit % 64 == 48, "a bit that is no mark's shortens the list");
        shorter += count >= 0 && count < 5;
    }
    need(shorter == 5, "not five flips shorten the list");
}

/* The header's constants for the words of ops, cursors, records and rows. */
static void constants(void)
{
    uint64_t ops[OPS], reply[4], c[DRIVELOG_CURSOR_WORDS], f[DRIVELOG_RECORD_WORDS];
    uint64_t rows[DRIVELOG_ROW_WORDS * DRIVELOG_MAX_RECORDS];
    struct log log = settled;
    uint64_t *s = log.state, *w = log.image;
    call_name = "constants";
    need(drivelog_release(s, STATE, w, IMAGE, ops, OPS, 2, reply, 4) == 0 && reply[DRIVELOG_REPLY_OPS] == 1, "release");
    need(ops[0] == DRIVELOG_OP_STORE && ops[2] >> 48 == DRIVELOG_MARK_RELEASED, "the op of a release");
    need(drivelog_recover(s, STATE, w, IMAGE, ops, OPS, reply, 4) == 0 && reply[DRIVELOG_REPLY_OPS] == 11, "recover");
    const uint64_t *last = ops + DRIVELOG_OP_WORDS * 10;
    need(last[0] == DRIVELOG_OP_FLUSH && last[1] == 0 && last[2] == 1, "the last op of a recovery");

    need(drivelog_open(w, IMAGE, c, DRIVELOG_CURSOR_WORDS, reply, 4) == 0, "open");
    need(c[DRIVELOG_CURSOR_POS] == 0 && c[DRIVELOG_CURSOR_LSN] == 1, "a cursor at the head");
    need(c[DRIVELOG_CURSOR_USED] == 0 && c[DRIVELOG_CURSOR_COUNT] == 0, "a cursor at the head");
    need(c[DRIVELOG_CURSOR_LAST_EPOCH] == 0 && c[DRIVELOG_CURSOR_SUPERLINE_EPOCH] == 2, "epochs of a cursor");
    for (uint64_t lsn = 1; lsn <= 2; lsn++) {
        uint64_t mark = lsn == 2 ? DRIVELOG_MARK_RELEASED : DRIVELOG_MARK_COMMITTED;
        need(drivelog_next(w, IMAGE, c, DRIVELOG_CURSOR_WORDS, f, DRIVELOG_RECORD_WORDS, reply, 4) == 1, "next");
        need(f[DRIVELOG_RECORD_MARK] == mark && f[DRIVELOG_RECORD_LSN] == lsn && f[DRIVELOG_RECORD_EPOCH] == 1, "a record");
        need(f[DRIVELOG_RECORD_KIND] == 16 + lsn && f[DRIVELOG_RECORD_LENGTH] == BYTES, "a record");
        need(f[DRIVELOG_RECORD_POS] == 5 * (lsn - 1), "a record's position");
    }
    need(c[DRIVELOG_CURSOR_POS] == 10 && c[DRIVELOG_CURSOR_LSN] == 3, "a cursor after two records");
    need(c[DRIVELOG_CURSOR_USED] == 10 && c[DRIVELOG_CURSOR_COUNT] == 2, "a cursor after two records");
    need(c[DRIVELOG_CURSOR_LAST_EPOCH] == 1, "the last epoch of a cursor");

    need(drivelog_list((const uint8_t *)(const void *)w, 8 * IMAGE, rows, sizeof rows / 8) == 2, "list");
    const uint64_t *row = rows + DRIVELOG_ROW_WORDS;
    need(row[DRIVELOG_ROW_LSN] == 3 && row[DRIVELOG_ROW_KIND] == 19, "a row");
    need(row[DRIVELOG_ROW_LENGTH] == BYTES && row[DRIVELOG_ROW_POS] == 10, "a row");
}

/* The header's limits: each number is granted, and the next one is not. */
static void limits(void)
{
    static uint64_t state[STATE], image[DRIVELOG_MAX_IMAGE_WORDS + 1], ops[OPS], reply[4];
    enum { MIN = DRIVELOG_MIN_IMAGE_WORDS, MAX = DRIVELOG_MAX_IMAGE_WORDS };
    call_name = "limits";
    need(drivelog_format(state, STATE, image, MIN - 1, ops, OPS, reply, 4) == -DRIVELOG_IMAGE_SIZE, "an image too small");
    need(drivelog_format(state, STATE, image, MAX + 1, ops, OPS, reply, 4) == -DRIVELOG_IMAGE_SIZE, "an image too large");
    need(drivelog_format(state, STATE, image, MIN, ops, OPS, reply, 4) == 0, "the smallest image");
    need(drivelog_format(state, STATE, image, MAX, ops, OPS, reply, 4) == 0, "the largest image");
    for (int more = 0; more < 2; more++) {
        int64_t due = more ? -DRIVELOG_ARGUMENT : 1;
        int64_t kind = drivelog_reserve(state, STATE, image, MAX, ops, OPS, DRIVELOG_MAX_KIND + more, 0, reply, 4);
        need(kind == due, "the last kind, or one more");
        int64_t length = drivelog_reserve(state, STATE, image, MAX, ops, OPS, 1, DRIVELOG_MAX_PAYLOAD + more, reply, 4);
        need(length == (more ? due : 2), "the longest payload, or one more");
        kind = drivelog_append(state, STATE, image, MAX, ops, OPS, DRIVELOG_MAX_KIND + more, NULL, 0, 8, reply, 4);
        need(kind == (more ? due : 3), "the last kind of an append, or one more");
        length = drivelog_append(state, STATE, image, MAX, ops, OPS, 1, longest, DRIVELOG_MAX_PAYLOAD + more, 8, reply, 4);
        need(length == (more ? due : 4), "the longest payload of an append, or one more");
        uint64_t name = DRIVELOG_NAME_BYTES - more;
        int64_t named = drivelog_append(state, STATE, image, MAX, ops, OPS, DRIVELOG_REPLACEMENT_KIND, longest, name, 8, reply, 4);
        need(named == (more ? due : 5), "the bytes that name a record, or one fewer");
    }
}

/* The longest list of ops: an append whose force has 256 records, the last of them of the longest payload, round the ring's end. */
static void most_ops(void)
{
    static uint64_t state[STATE], image[DRIVELOG_MAX_IMAGE_WORDS], ops[OPS], reply[4];
    enum { MAX = DRIVELOG_MAX_IMAGE_WORDS, BEFORE = 62 };
    call_name = "the most ops";
    need(drivelog_format(state, STATE, image, MAX, ops, OPS, reply, 4) == 0, "format");
    /* So many of 131 words each leave less than one at the end of the ring's 8,168. */
    for (int i = 0; i < BEFORE; i++) {
        need(drivelog_append(state, STATE, image, MAX, ops, OPS, 1, longest, DRIVELOG_MAX_PAYLOAD, 1, reply, 4) > 0, "append");
        need(drivelog_release_all(state, STATE, image, MAX, ops, OPS, reply, 4) == 0, "release all");
    }
    for (int i = 1; i < DRIVELOG_MAX_RECORDS; i++)
        need(drivelog_append(state, STATE, image, MAX, ops, OPS, 1, NULL, 0, 1000, reply, 4) == BEFORE + i && reply[3] == 0, "deferred");
    int64_t lsn = drivelog_append(state, STATE, image, MAX, ops, OPS - 1, 1, longest, DRIVELOG_MAX_PAYLOAD, 1, reply, 4);
    need(lsn == -DRIVELOG_OPS_SHORT && reply[1] == OPS, "the op buffer is a word too short");
    lsn = drivelog_append(state, STATE, image, MAX, ops, OPS, 1, longest, DRIVELOG_MAX_PAYLOAD, 1, reply, 4);
    need(lsn == BEFORE + DRIVELOG_MAX_RECORDS && reply[2] == DRIVELOG_MAX_OPS && reply[3] == 1, "the most ops");
}

/* No words or bytes at all. */
static void nothing_lent(void)
{
    static const uint64_t needed[] = {33, 18, 6, 3, 9, 30, 27, 18, 33};
    static struct log empty;
    step(&empty, FORMAT, 0);
    struct counts n = usual;
    n.ops = 0;
    for (enum call call = 0; call < WRITING; call++)
        declines(call, log_of(call), n, DRIVELOG_OPS_SHORT, needed[call]);
    grants(RELEASE_ALL, &empty, n, 0, 0, 0);
    /* One word too few for an append, deferred and due. */
    n.ops = 17;
    declines(APPEND, &mixed, n, DRIVELOG_OPS_SHORT, 18);
    frequency = 1;
    n.ops = 26;
    declines(APPEND, &settled, n, DRIVELOG_OPS_SHORT, 27);
    frequency = 8;
    n.ops = 0;
    /* What is durable already needs no ops. */
    grants(FORCE, &settled, n, 0, 1, 0);
    n.bytes = 0;
    grants(COPY, &mixed, n, 0, 0, 0);
    grants(FETCH, &mixed, n, 0, 0, 0);
    declines(FETCH, &mixed, n, DRIVELOG_OUTPUT_SHORT, 0);
    n.ops = OPS;
    grants(APPEND, &mixed, n, 0, 4, 4);
    n = usual;
    n.image = 0;
    for (enum call call = 0; call < CALLS; call++)
        declines(call, log_of(call), n, DRIVELOG_IMAGE_SIZE, 0);
    struct counts none = {0, 0, 0, 0, 0, 0, 0};
    for (enum call call = 0; call < CALLS; call++)
        declines(call, log_of(call), none, DRIVELOG_OUTPUT_SHORT, 0);
}

int main(void)
{
    make_logs();
    for (at_front = 0; at_front < 2; at_front++) {
        usual_counts();
        wrong_counts();
        broken_states(&mixed);
        broken_states(&settled);
        broken_cursors();
        nothing_lent();
        constants();
        limits();
        most_ops();
        flipped_state();
        flipped_image();
    }
    printf("words: %llu calls answered as they should be\n", (unsigned long long)call_number);
    return 0;
}
