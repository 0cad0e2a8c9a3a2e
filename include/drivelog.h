/* drivelog.h: the records of a drive's memory module, for C and C++.
 *
 * A program hands in the bytes of a module as they were copied, the image, and asks: how many records are listed, and for one of
 * them, counted from 0, its kind, its LSN (serial number), its epoch or its payload; or, in one pass, for a row of numbers of each; or
 * which test a damaged record fails. Records that the drive has released are not listed. What the bytes mean is in docs/FORMAT.md. Link
 * with target/lib/libdrivelog.a, which `make lib` writes.
 *
 * Every call answers for every input, as its definition in crates/ says (docs/PROOF.md has the map); that is proved.
 * There is no set-up, no handle and nothing to free. A call keeps nothing, allocates nothing and writes nowhere but to the output or the
 * rows, so calls may run in several threads at once as long as nobody writes the image meanwhile.
 *
 * Memory: `image` points to `bytes` bytes that can be read, `output` to `room` bytes that can be written, `rows` to `room` words that
 * can be written. Image and output need no alignment, rows that of uint64_t. Where the length is 0 the pointer is not followed and may
 * be null. What is written may not overlap the image.
 *
 * Stack: a call takes at most 77,824 bytes (76 KB): the words of the largest image, 64 KB, whatever the size of this one, for
 * drivelog_list the rows of 257 records, 8 KB, and less than 4 KB more.
 *
 * Time: every call but drivelog_payload_at tests the superline, then reads the whole log and computes the check of every record,
 * whatever it is asked; a payload is copied after that. On a full image of the largest size a call takes 25 to 40 microseconds
 * (docs/SPEED.md), so that to ask one record at a time, count and then kind, LSN and payload of 64 records, takes 193 calls and 5 to
 * 9 milliseconds. To go through all records, ask drivelog_list once, and drivelog_payload_at for the payloads that matter.
 */

#ifndef DRIVELOG_H
#define DRIVELOG_H

#include <stddef.h>
#include <stdint.h>

#ifdef __cplusplus
extern "C" {
#endif

/* The version of this header and of the archive that is built with it. */
#define DRIVELOG_VERSION "0.8.0"
enum drivelog_version { DRIVELOG_VERSION_MAJOR = 0, DRIVELOG_VERSION_MINOR = 8, DRIVELOG_VERSION_PATCH = 0 };

/* Why a call declines. A call returns the number with a minus sign, as -DRIVELOG_DAMAGED. The tests run in this order, and the
 * first that fails decides; while the log is read, DRIVELOG_TOO_MANY is tested before DRIVELOG_DAMAGED at each record. */
enum drivelog_refusal {
    DRIVELOG_IMAGE_SIZE = 1,      /* the image has not 40 to 8,192 words (320 to 65,536 bytes, a multiple of 8), or not the state's size */
    DRIVELOG_UNSOUND = 2,         /* the state or the cursor is not sound, or has not its count of words */
    DRIVELOG_ARGUMENT = 3,        /* a kind, length, position or frequency is out of its range */
    DRIVELOG_SUPERLINE = 4,       /* the words that say where the log begins are wrong: no log, or one of another size */
    DRIVELOG_NOT_LIVE = 5,        /* no live record has this LSN */
    DRIVELOG_WRONG_STAGE = 6,     /* the record is not open, as copy and complete need it, or not committed, as release does */
    DRIVELOG_HELD = 20,           /* release: a later committed record of kind 600 names the record; detail: the lowest such LSN */
    DRIVELOG_BEYOND_LENGTH = 7,   /* the bytes do not fit the record from the offset on */
    DRIVELOG_NUMBERS_SPENT = 8,   /* no LSN is left for a record, or no epoch to recover with */
    DRIVELOG_TABLE_FULL = 9,      /* 256 records are live */
    DRIVELOG_NO_ROOM = 10,        /* the log has no room for the record */
    DRIVELOG_UNFINISHED = 11,     /* a record is still open (force, append), or not committed (release all); detail: its LSN */
    DRIVELOG_TOO_MANY = 13,       /* more than 256 records before the end; detail: the LSN of the first too many */
    DRIVELOG_DAMAGED = 12,        /* a record is damaged; the whole list is refused, also what is before the damage; detail: its LSN */
    DRIVELOG_NO_SUCH_RECORD = 16, /* index is not below the number of listed records */
    DRIVELOG_OUTPUT_SHORT = 14,   /* the output, the rows, the reply, the cursor or the record have too little room */
    DRIVELOG_OPS_SHORT = 15,      /* the op buffer is too short; detail: the words needed */
    DRIVELOG_TOO_FEW_COPIES = 19, /* of three modules fewer than two can be read */
    DRIVELOG_BAD_OP = 21,         /* an op is not one that the call takes; detail: its number, counted from 0, the lowest such one's */
    DRIVELOG_TOO_MANY_CRASHES = 22, /* more than DRIVELOG_MAX_CRASHES crashes */
    DRIVELOG_NO_SUCH_CRASH = 23   /* number is not below that of the crashes */
};

static inline const char *drivelog_refusal_text(int64_t number)
/*
     A refusal in words, without its detail. `number` is what a call returned, -12, or the number itself, 12.

     Returns a text that is always there; of a number that is no refusal it says so.

     Example:

         if (count < 0)
             fprintf(stderr, "refused %d: %s\n", (int)-count, drivelog_refusal_text(count));
*/
{
    switch (number < 0 ? 0 - (uint64_t)number : (uint64_t)number) {
    case DRIVELOG_IMAGE_SIZE: return "not the size of an image";
    case DRIVELOG_UNSOUND: return "the state or the cursor is not sound";
    case DRIVELOG_ARGUMENT: return "a number is out of its range";
    case DRIVELOG_SUPERLINE: return "no log begins here";
    case DRIVELOG_NOT_LIVE: return "no live record has this LSN";
    case DRIVELOG_WRONG_STAGE: return "the record is not in the stage for this call";
    case DRIVELOG_BEYOND_LENGTH: return "more bytes than the record has";
    case DRIVELOG_NUMBERS_SPENT: return "no LSN or no epoch is left";
    case DRIVELOG_TABLE_FULL: return "256 records are live";
    case DRIVELOG_NO_ROOM: return "no room for this record";
    case DRIVELOG_UNFINISHED: return "a record is not complete or not committed";
    case DRIVELOG_DAMAGED: return "a record is damaged";
    case DRIVELOG_TOO_MANY: return "too many records";
    case DRIVELOG_OUTPUT_SHORT: return "too little room for the answer";
    case DRIVELOG_OPS_SHORT: return "the op buffer is too short";
    case DRIVELOG_NO_SUCH_RECORD: return "no such record";
    case DRIVELOG_TOO_FEW_COPIES: return "fewer than two copies can be read";
    case DRIVELOG_HELD: return "a later record rests on this one";
    case DRIVELOG_BAD_OP: return "an op is not one that the call takes";
    case DRIVELOG_TOO_MANY_CRASHES: return "more than 4096 crashes";
    case DRIVELOG_NO_SUCH_CRASH: return "no crash has this number";
    default: return "no refusal of this version";
    }
}

enum drivelog_limit {
    DRIVELOG_MIN_IMAGE_WORDS = 40,
    DRIVELOG_MAX_IMAGE_WORDS = 8192,
    DRIVELOG_MAX_IMAGE = 8 * DRIVELOG_MAX_IMAGE_WORDS, /* bytes of the largest image */
    DRIVELOG_MAX_RECORDS = 256,                        /* records that a log holds at most */
    DRIVELOG_MAX_KIND = 65535,                         /* kinds are 1 to this */
    DRIVELOG_MAX_PAYLOAD = 1024,                       /* bytes of the longest payload: an output of this size is always enough */
    DRIVELOG_REPLACEMENT_KIND = 600,                   /* the kind of a record that names the one that it rests on */
    DRIVELOG_NAME_BYTES = 8                            /* the bytes in which it does, the first of its payload */
};

int64_t drivelog_count(const uint8_t *image, size_t bytes);
/*
     The number of listed records, 0 to 256.

     Returns the number, or -DRIVELOG_IMAGE_SIZE, -DRIVELOG_SUPERLINE, -DRIVELOG_TOO_MANY or -DRIVELOG_DAMAGED. An image for which
   this call returns a number is whole: on the same bytes, the calls below decline only an index or a room.

     Example:

         int64_t count = drivelog_count(image, bytes);
         if (count < 0)
             fprintf(stderr, "refused %d\n", (int)-count);
*/

int64_t drivelog_damage(const uint8_t *image, size_t bytes);
/*
     Why drivelog_count returns -DRIVELOG_DAMAGED: the first test that the damaged record fails, so that a bad cell can be
   distinguished from a bad copy. The tests of a record run in the order of the enum below.

     Returns the number of the test, or 0 if the log reaches its end, or -DRIVELOG_IMAGE_SIZE, -DRIVELOG_SUPERLINE or
   -DRIVELOG_TOO_MANY.

     Example:

         if (drivelog_damage(image, bytes) == DRIVELOG_TEST_CHECK)
             puts("a bit is wrong in a record or in its check");
*/
enum drivelog_test {
    DRIVELOG_TEST_MARK = 1,   /* the mark is above 2 */
    DRIVELOG_TEST_KIND = 2,   /* the kind is 0 */
    DRIVELOG_TEST_LENGTH = 3, /* the length is above 1,024 */
    DRIVELOG_TEST_FIT = 4,    /* with the records before it, the record does not fit the log */
    DRIVELOG_TEST_LSN = 5,    /* the LSN is not the expected one, or out of range */
    DRIVELOG_TEST_CHECK = 6,  /* the check is not that of the record */
    DRIVELOG_TEST_EPOCH = 7   /* the epoch is below that of the record before it, or above the superline's */
};

int64_t drivelog_kind(const uint8_t *image, size_t bytes, uint64_t index);
/*
     The kind of one listed record, 1 to 65,535. Index 0 is the oldest listed record, the number of records less 1 the newest.

     Returns the kind, or what drivelog_count returns where that is a refusal, or -DRIVELOG_NO_SUCH_RECORD.

     Example:

         for (int64_t i = 0; i < count; i++)
             if (drivelog_kind(image, bytes, (uint64_t)i) == 3)
                 exchanged++;
*/

int64_t drivelog_lsn(const uint8_t *image, size_t bytes, uint64_t index);
/*
     The LSN of one listed record, 1 to 4,611,686,018,427,387,903 (2^62 - 1). LSNs rise with the index. They rise by more than 1
   where a released record was left out.

     Returns the LSN, or what drivelog_kind returns where that is a refusal.

     Example:

         printf("the newest record is %lld\n", (long long)drivelog_lsn(image, bytes, (uint64_t)count - 1));
*/

int64_t drivelog_epoch(const uint8_t *image, size_t bytes, uint64_t index);
/*
     The epoch of one listed record, 0 to 4,294,967,295 (2^32 - 1), which says between which restarts of the drive it was written: a
   formatted module is in epoch 1, and each restart goes on in a later one. Epochs never fall with the index. 0 is for a record that was
   stored before there were epochs, or that was loaded from a listing; such records are before all others.

     Returns the epoch, or what drivelog_kind returns where that is a refusal.

     Example:

         if (drivelog_epoch(image, bytes, 1) > drivelog_epoch(image, bytes, 0))
             puts("the drive was restarted between the two oldest records");
*/

int64_t drivelog_payload(const uint8_t *image, size_t bytes, uint64_t index, uint8_t *output, size_t room);
/*
     Copies the payload of one listed record to the front of the output, which has room for `room` bytes. The bytes of the output
   after the payload stay as they are.

     Returns the payload's length, 0 to 1,024, or what drivelog_kind returns where that is a refusal, or -DRIVELOG_OUTPUT_SHORT if
   the payload is longer than room. A call that declines leaves all of the output as it is. There is no call for the length alone:
   an output of DRIVELOG_MAX_PAYLOAD bytes holds every payload. An empty payload answers 0, also with a null output of room 0.

     Example:

         uint8_t payload[DRIVELOG_MAX_PAYLOAD];
         int64_t length = drivelog_payload(image, bytes, 0, payload, sizeof payload);
         if (length >= 0)
             fwrite(payload, 1, (size_t)length, stdout);
*/

int64_t drivelog_list(const uint8_t *image, size_t bytes, uint64_t *rows, size_t room);
/*
     Writes a row of four words for each listed record, oldest first, in the order of the enum below. `room` is the number of words;
   DRIVELOG_ROW_WORDS * DRIVELOG_MAX_RECORDS are always enough. The words after the rows stay as they are.

     Returns the number of listed records, as drivelog_count does, or -DRIVELOG_OUTPUT_SHORT if room is below four times that number.
   A call that declines leaves all of the rows as they are.

     Example:

         uint64_t rows[DRIVELOG_ROW_WORDS * DRIVELOG_MAX_RECORDS];
         int64_t count = drivelog_list(image, bytes, rows, sizeof rows / sizeof rows[0]);
         for (int64_t i = 0; i < count; i++) {
             const uint64_t *row = rows + DRIVELOG_ROW_WORDS * i;
             printf("%llu: kind %llu\n", (unsigned long long)row[DRIVELOG_ROW_LSN], (unsigned long long)row[DRIVELOG_ROW_KIND]);
         }
*/
enum drivelog_row {
    DRIVELOG_ROW_LSN = 0,
    DRIVELOG_ROW_KIND = 1,
    DRIVELOG_ROW_LENGTH = 2, /* bytes of its payload */
    DRIVELOG_ROW_POS = 3,    /* its ring position, for drivelog_payload_at */
    DRIVELOG_ROW_WORDS = 4
};

int64_t drivelog_payload_at(const uint8_t *image, size_t bytes, uint64_t pos, uint64_t length, uint8_t *output, size_t room);
/*
     Copies the payload of the record of `length` bytes at `pos` to the front of the output, which has room for `room` bytes: for a
   row that drivelog_list wrote of the same bytes. The bytes of the output after the payload stay as they are. The call reads no log
   and tests no record: of a position that is no record's it copies what is there.

     Returns the length, or -DRIVELOG_IMAGE_SIZE, -DRIVELOG_ARGUMENT, or -DRIVELOG_OUTPUT_SHORT if length is more than room. A call
   that declines leaves all of the output as it is.

     Example, with a row from above:

         uint8_t payload[DRIVELOG_MAX_PAYLOAD];
         int64_t length = drivelog_payload_at(image, bytes, row[DRIVELOG_ROW_POS], row[DRIVELOG_ROW_LENGTH], payload, sizeof payload);
*/

/* The log itself -----------------------------------------------------------------------------------------------------------------
 *
 * The calls below write the log and read it record by record (a drive holds all that they are lent in a handle, driver/handle.h;
 * examples/c/write.c is a whole program over it). They do not touch the memory
 * module: a call stores into the working image and fills the op buffer, three words an op, as enum drivelog_op says. The program then
 * carries the ops out on the module, in turn, all of them before the next call (driver/driver.h does that for a module in a file):
 *
 *     for (const uint64_t *op = ops; op < ops + DRIVELOG_OP_WORDS * reply[DRIVELOG_REPLY_OPS]; op += DRIVELOG_OP_WORDS)
 *         if (op[0] == DRIVELOG_OP_STORE)
 *             store(op[1], op[2]);
 *         else
 *             flush(op[1], op[2]);
 *
 * State: DRIVELOG_STATE_WORDS words that the program keeps and lends to each call. drivelog_format or drivelog_recover fills them, and
 * nobody else need know what they hold. Words that are not sound are declined with DRIVELOG_UNSOUND: numbers out of their range, or
 * that do not fit one another. That is no check of the words: a sound state made by hand is accepted, and a flipped bit of the state in
 * memory is not always caught (of the 33,280 single-bit changes of the state of a log of five records, drivelog_reserve grants 127).
 *
 * Reply: four words or more that each call writes, in the order of the enum below, whether it is granted or declined. The words after
 * them stay as they are.
 *
 * A call returns 0 or more, or minus the number of a refusal. A call that declines alters no word that it is lent but the reply's. A
 * reply of fewer than four words is declined before all else with DRIVELOG_OUTPUT_SHORT, and then nothing is altered.
 *
 * Every call answers for every input, as its definition in crates/ says (docs/PROOF.md has the map); that is proved, and so is what a
 * crash leaves of a log that these calls format and write, each lent the state's words and the image that the one before left, and after
 * a crash any words. Counts are of words, not bytes; an image's words are little-endian in bytes.
 *
 * Memory: each pointer is to as many words as the count after it says, `bytes` to `count` bytes. They need the alignment of their
 * type. Where the count is 0 the pointer is not followed and may be null. What is written may overlap nothing else that is lent to
 * the same call. A call keeps nothing and allocates nothing, so calls with different words may run in several threads at once.
 *
 * Stack: a call takes at most 20,480 bytes (20 KB), the recovery of three 32,768; reserve, copy, complete, force, append, release and
 * vet take at most 1,024.
 *
 * Time: every call tests the whole state, so that it grows with the live records. A record by reserve, copy, complete, force at
 * every eighth record and a release takes about 0.5 microseconds with no live record and 2 to 3 with 250, plus the CRC-32 of a longer
 * payload and what carrying the ops out takes (docs/SPEED.md).
 */

/* An op has three words: its code, a word number, and a value or a count. */
enum drivelog_op {
    DRIVELOG_OP_STORE = 1, /* the word gets the value */
    DRIVELOG_OP_FLUSH = 2, /* so many words, from that word on, keep their newest value whatever happens */
    DRIVELOG_OP_WORDS = 3
};

enum drivelog_reply {
    DRIVELOG_REPLY_NUMBER = 0, /* the refusal's number, 0 if granted */
    DRIVELOG_REPLY_DETAIL = 1, /* its detail, 0 if it has none */
    DRIVELOG_REPLY_OPS = 2,    /* how many ops the call put into the op buffer, 0 if it declines */
    DRIVELOG_REPLY_SECOND = 3  /* a second value: the ring position (reserve), 1 if the record is durable (append), the end's LSN (next),
                                  the test that a damaged record fails (enum drivelog_test, with DRIVELOG_DAMAGED), else 0 */
};

enum drivelog_words {
    DRIVELOG_STATE_WORDS = 520,
    DRIVELOG_REPLY_WORDS = 4,
    DRIVELOG_CURSOR_WORDS = 6,
    DRIVELOG_RECORD_WORDS = 6,
    DRIVELOG_MAX_OPS = 646, /* ops that one call puts at most: an append of 1,024 bytes, 132 stores, with the force of 256 records, 514
                               ops where it goes round the ring's end */
    DRIVELOG_OPS_WORDS = 3 * DRIVELOG_MAX_OPS /* words of an op buffer that is always enough */
};

/* The words of a cursor, which drivelog_open and drivelog_next write. */
enum drivelog_cursor {
    DRIVELOG_CURSOR_POS = 0,            /* the ring position of the next record */
    DRIVELOG_CURSOR_LSN = 1,            /* the LSN that it has to have; after open, that of the head */
    DRIVELOG_CURSOR_USED = 2,           /* words of the records before it */
    DRIVELOG_CURSOR_COUNT = 3,          /* how many those are */
    DRIVELOG_CURSOR_LAST_EPOCH = 4,     /* the epoch of the last of them, 0 at open */
    DRIVELOG_CURSOR_SUPERLINE_EPOCH = 5 /* the log's */
};

/* How far a record has got. */
enum drivelog_mark {
    DRIVELOG_MARK_NONE = 0, /* not committed: for a reader the log ends here, so drivelog_next gives no such record */
    DRIVELOG_MARK_COMMITTED = 1,
    DRIVELOG_MARK_RELEASED = 2
};

/* The words of a record that drivelog_next writes. */
enum drivelog_record {
    DRIVELOG_RECORD_POS = 0,    /* its ring position, for drivelog_fetch */
    DRIVELOG_RECORD_LSN = 1,
    DRIVELOG_RECORD_KIND = 2,
    DRIVELOG_RECORD_LENGTH = 3, /* bytes of its payload */
    DRIVELOG_RECORD_MARK = 4,   /* DRIVELOG_MARK_COMMITTED or DRIVELOG_MARK_RELEASED */
    DRIVELOG_RECORD_EPOCH = 5   /* of the state that completed it, or 0 */
};

uint64_t drivelog_state_words(void);
/*
     The words of a state: DRIVELOG_STATE_WORDS of the archive that is linked.
*/

int64_t drivelog_format(uint64_t *state, size_t state_words, uint64_t *image, size_t image_words, uint64_t *ops, size_t ops_words,
                        uint64_t *reply, size_t reply_words);
/*
     Makes an empty log in an image of 40 to 8,192 words, whatever image and state held. 11 ops.

     Returns 0, or -DRIVELOG_IMAGE_SIZE, -DRIVELOG_UNSOUND (state_words is not DRIVELOG_STATE_WORDS) or -DRIVELOG_OPS_SHORT.

     Example, which the ones below go on with:

         uint64_t state[DRIVELOG_STATE_WORDS], image[2048], ops[DRIVELOG_OPS_WORDS], reply[DRIVELOG_REPLY_WORDS];
         int64_t done = drivelog_format(state, DRIVELOG_STATE_WORDS, image, 2048, ops, DRIVELOG_OPS_WORDS, reply, 4);
         carry_out(ops, reply[DRIVELOG_REPLY_OPS]);
*/

int64_t drivelog_reserve(uint64_t *state, size_t state_words, uint64_t *image, size_t image_words, uint64_t *ops, size_t ops_words,
                         uint64_t kind, uint64_t length, uint64_t *reply, size_t reply_words);
/*
     Room for a record of a kind, 1 to 65,535, and a length, 0 to 1,024 bytes, after the last one. The record is open, its payload
   zeros. One store for each word of the record and one for the word after it, no flush. A record of kind 600 reports a replacement:
   its first 8 bytes, least significant first, are the LSN of the inspection that it rests on, 0 for none, so that its length is 8 or
   more.

     Returns its LSN, 1 or more, or -DRIVELOG_IMAGE_SIZE, -DRIVELOG_UNSOUND, -DRIVELOG_ARGUMENT, -DRIVELOG_NUMBERS_SPENT,
   -DRIVELOG_TABLE_FULL, -DRIVELOG_NO_ROOM or -DRIVELOG_OPS_SHORT. The second value is its ring position.

     Example:

         int64_t lsn = drivelog_reserve(state, DRIVELOG_STATE_WORDS, image, 2048, ops, DRIVELOG_OPS_WORDS, 17, sizeof event, reply, 4);
         carry_out(ops, reply[DRIVELOG_REPLY_OPS]);
*/

int64_t drivelog_copy(uint64_t *state, size_t state_words, uint64_t *image, size_t image_words, uint64_t *ops, size_t ops_words,
                      uint64_t lsn, uint64_t offset, const uint8_t *bytes, size_t count, uint64_t *reply, size_t reply_words);
/*
     Bytes into an open record's payload, from an offset on. One store for each word of the payload that they touch.

     Returns 0, or -DRIVELOG_IMAGE_SIZE, -DRIVELOG_UNSOUND, -DRIVELOG_NOT_LIVE, -DRIVELOG_WRONG_STAGE, -DRIVELOG_BEYOND_LENGTH or
   -DRIVELOG_OPS_SHORT.

     Example:

         drivelog_copy(state, DRIVELOG_STATE_WORDS, image, 2048, ops, DRIVELOG_OPS_WORDS, (uint64_t)lsn, 0, event, sizeof event, reply, 4);
         carry_out(ops, reply[DRIVELOG_REPLY_OPS]);
*/

int64_t drivelog_complete(uint64_t *state, size_t state_words, uint64_t *image, size_t image_words, uint64_t *ops, size_t ops_words,
                          uint64_t lsn, uint64_t *reply, size_t reply_words);
/*
     An open record's payload is all there: its check is stored. 1 op.

     Returns 0, or -DRIVELOG_IMAGE_SIZE, -DRIVELOG_UNSOUND, -DRIVELOG_NOT_LIVE, -DRIVELOG_WRONG_STAGE or -DRIVELOG_OPS_SHORT.

     Example:

         drivelog_complete(state, DRIVELOG_STATE_WORDS, image, 2048, ops, DRIVELOG_OPS_WORDS, (uint64_t)lsn, reply, 4);
         carry_out(ops, reply[DRIVELOG_REPLY_OPS]);
*/

int64_t drivelog_force(uint64_t *state, size_t state_words, uint64_t *image, size_t image_words, uint64_t *ops, size_t ops_words,
                       uint64_t lsn, uint64_t frequency, uint64_t *reply, size_t reply_words);
/*
     Makes every record up to an LSN durable: once the ops are carried out they survive a power failure. With a frequency above 1 the
   force is deferred, with no ops, as long as no multiple of it is among the LSNs not yet committed up to this one. If each record is
   completed and forced with the same frequency F before the next is reserved, a power failure loses at most the F newest of those
   completed since the last recovery.

     Returns 1 if they are durable, 0 if that is deferred, or -DRIVELOG_IMAGE_SIZE, -DRIVELOG_UNSOUND, -DRIVELOG_ARGUMENT (frequency 0),
   -DRIVELOG_NOT_LIVE, -DRIVELOG_UNFINISHED (the detail is the lowest LSN that is still open) or -DRIVELOG_OPS_SHORT.

     Example:

         if (drivelog_force(state, DRIVELOG_STATE_WORDS, image, 2048, ops, DRIVELOG_OPS_WORDS, (uint64_t)lsn, 1, reply, 4) == 1)
             carry_out(ops, reply[DRIVELOG_REPLY_OPS]);
*/

int64_t drivelog_append(uint64_t *state, size_t state_words, uint64_t *image, size_t image_words, uint64_t *ops, size_t ops_words,
                        uint64_t kind, const uint8_t *bytes, size_t count, uint64_t frequency, uint64_t *reply, size_t reply_words);
/*
     A record of a kind with these bytes, 0 to 1,024, in one call: drivelog_reserve, drivelog_copy of all bytes, drivelog_complete and
   drivelog_force with the frequency, one after another, and it leaves the same image and state. It stores each word of the record once,
   and one word after it, and then come the ops of the force, if it is due. What may be left of a log after a power failure in this call
   may also be left by one in the four.

     Returns its LSN, 1 or more, or -DRIVELOG_IMAGE_SIZE, -DRIVELOG_UNSOUND, -DRIVELOG_ARGUMENT (kind, count, frequency 0, or kind 600
   with fewer than 8 bytes), -DRIVELOG_NUMBERS_SPENT, -DRIVELOG_TABLE_FULL, -DRIVELOG_NO_ROOM, -DRIVELOG_UNFINISHED (the force is due,
   and an older record is still open; the detail is the lowest such LSN) or -DRIVELOG_OPS_SHORT. The second value is 1 if the record is
   durable once the ops are carried out, 0 if that is deferred.

     Example, a record that is durable at once:

         int64_t lsn = drivelog_append(state, DRIVELOG_STATE_WORDS, image, 2048, ops, DRIVELOG_OPS_WORDS, 17, event, sizeof event, 1,
                                       reply, 4);
         carry_out(ops, reply[DRIVELOG_REPLY_OPS]);
*/

int64_t drivelog_release(uint64_t *state, size_t state_words, uint64_t *image, size_t image_words, uint64_t *ops, size_t ops_words,
                         uint64_t lsn, uint64_t *reply, size_t reply_words);
/*
     Gives a committed record back. 1 op, or 10 for the oldest live record, which moves the log's head on. As long as a later committed
   record of kind 600 names it, it is held: that one is given back first, or all of them by drivelog_release_all.

     Returns 0, or -DRIVELOG_IMAGE_SIZE, -DRIVELOG_UNSOUND, -DRIVELOG_NOT_LIVE, -DRIVELOG_WRONG_STAGE, -DRIVELOG_HELD (the detail is the
   lowest LSN that holds it) or -DRIVELOG_OPS_SHORT.

     Example:

         drivelog_release(state, DRIVELOG_STATE_WORDS, image, 2048, ops, DRIVELOG_OPS_WORDS, (uint64_t)lsn, reply, 4);
         carry_out(ops, reply[DRIVELOG_REPLY_OPS]);
*/

int64_t drivelog_release_all(uint64_t *state, size_t state_words, uint64_t *image, size_t image_words, uint64_t *ops, size_t ops_words,
                             uint64_t *reply, size_t reply_words);
/*
     Gives every record back. 9 ops, or none where nothing is live.

     Returns 0, or -DRIVELOG_IMAGE_SIZE, -DRIVELOG_UNSOUND, -DRIVELOG_UNFINISHED (the detail is the lowest LSN that is not committed) or
   -DRIVELOG_OPS_SHORT.

     Example:

         drivelog_release_all(state, DRIVELOG_STATE_WORDS, image, 2048, ops, DRIVELOG_OPS_WORDS, reply, 4);
         carry_out(ops, reply[DRIVELOG_REPLY_OPS]);
*/

int64_t drivelog_recover(uint64_t *state, size_t state_words, uint64_t *image, size_t image_words, uint64_t *ops, size_t ops_words,
                         uint64_t *reply, size_t reply_words);
/*
     The state of an image that a power failure left, or that was carried over, whatever the state's words held. 11 ops.

     Returns 0, or -DRIVELOG_IMAGE_SIZE, -DRIVELOG_UNSOUND (state_words is not DRIVELOG_STATE_WORDS), -DRIVELOG_SUPERLINE,
   -DRIVELOG_NUMBERS_SPENT, -DRIVELOG_TOO_MANY, -DRIVELOG_DAMAGED or -DRIVELOG_OPS_SHORT.

     Example, with the module's words in the image:

         if (drivelog_recover(state, DRIVELOG_STATE_WORDS, image, 2048, ops, DRIVELOG_OPS_WORDS, reply, 4) == 0)
             carry_out(ops, reply[DRIVELOG_REPLY_OPS]);
*/

int64_t drivelog_recover_three(uint64_t *state, size_t state_words, uint64_t *image0, size_t image0_words, uint64_t *image1,
                               size_t image1_words, uint64_t *image2, size_t image2_words, uint64_t present, uint64_t *ops0,
                               size_t ops0_words, uint64_t *ops1, size_t ops1_words, uint64_t *ops2, size_t ops2_words, uint64_t *reply,
                               size_t reply_words);
/*
     The state of a log that is kept on three modules, from their images, which have one length. Bit i of `present` says that module i
   is there; the other bits do not count. Image and op buffer of an absent module are neither read nor written, only the image's length
   is looked at. A present copy is readable if drivelog_recover would read it to its end. Of the readable copies the one with the
   greatest epoch is chosen, of these the one with the greatest end LSN, of these the lowest.

     Each present module gets the 11 ops of drivelog_recover, on the chosen copy. One that differs from that copy in any word is first
   made equal to it: with n words that takes n + 4 more ops, so an op buffer of DRIVELOG_THREE_OPS_WORDS words is always enough, one
   of DRIVELOG_OPS_WORDS is not. Carry out all repairs, one module after another, and then the last 11 ops of each. Afterwards
   each present image holds the same words: it is the working image of the calls that follow, whose ops go to each module that was
   present and has carried out all its ops since.

     The reply has five words: number, detail, and the count of ops of module 0, 1 and 2; a shorter one is -DRIVELOG_OUTPUT_SHORT. The
   detail of DRIVELOG_OPS_SHORT is that of the lowest present module whose op buffer is too short.

     Returns the number of the chosen copy, 0 to 2, or -DRIVELOG_IMAGE_SIZE (unequal lengths too), -DRIVELOG_UNSOUND (state_words is
   not DRIVELOG_STATE_WORDS), -DRIVELOG_TOO_FEW_COPIES, -DRIVELOG_NUMBERS_SPENT or -DRIVELOG_OPS_SHORT.

     It takes at most 32,768 bytes of stack (32 KB), and the time of a drivelog_recover for each present module, with a pass more over the
   words of one that differs.

     Example, with module 1 absent:

         uint64_t room = DRIVELOG_THREE_OPS_WORDS, reply[DRIVELOG_THREE_REPLY_WORDS];
         int64_t chosen = drivelog_recover_three(state, DRIVELOG_STATE_WORDS, a, 2048, b, 2048, c, 2048, 1 | 4, ops_a, room, ops_b, room,
                                                 ops_c, room, reply, DRIVELOG_THREE_REPLY_WORDS);
*/
enum drivelog_three {
    DRIVELOG_THREE_REPLY_WORDS = 5,
    DRIVELOG_THREE_OPS_WORDS = 24621 /* words of an op buffer that is always enough for a module: 3 * (8192 + 15) */
};

int64_t drivelog_vet(const uint64_t *state, size_t state_words, const uint64_t *image, size_t image_words, const uint64_t *ops,
                     size_t ops_words, uint64_t *reply, size_t reply_words);
/*
     Whether ops that somebody else made, such as notes in free words, may be carried out. They pass if each is a store to a word of the
   log area, which begins at word 24, that is no live record's and not the one at the next position, where the terminator is; or a flush
   of one or more words, all inside the image. Released records are live until the head is past them, and so are those not yet committed.
   A store may have any value, and a flush may cover any words. Every word of `ops` counts, three to an op; of the image only the length
   does. Nothing is written but the reply, whose count of ops is 0, since the call puts none.

     For whoever makes the ops: have them vetted, and then carry them out at once, with no call between, for a call may put a record where
   a word was free; the stores go into the working image too. Ops that pass do no harm: a power failure in them leaves a log that reads
   and recovers like one that a power failure just before them could have left.

     Returns the number of ops, ops_words / 3, or -DRIVELOG_IMAGE_SIZE, -DRIVELOG_UNSOUND or -DRIVELOG_BAD_OP, whose detail is the number
   of the lowest op that does not pass, counted from 0. One or two words left over at the end are an op that does not pass. No ops pass.

     It takes about half a microsecond with 250 live records, and one or two nanoseconds for each op.

     Example, with ops from elsewhere:

         int64_t passed = drivelog_vet(state, DRIVELOG_STATE_WORDS, image, 2048, notes, notes_words, reply, 4);
         for (const uint64_t *op = notes; passed > 0 && op < notes + notes_words; op += DRIVELOG_OP_WORDS)
             if (op[0] == DRIVELOG_OP_STORE)
                 image[op[1]] = op[2];
         if (passed > 0)
             carry_out(notes, (uint64_t)passed);
*/

int64_t drivelog_crash_count(const uint64_t *image, size_t image_words, const uint64_t *ops, size_t ops_words, uint64_t *reply,
                             size_t reply_words);
/*
     How many crashes there are while the ops of a buffer are carried out on a module that holds the image, all of it flushed: for a
   test that runs every one of them. A crash is a point, from no op done to all done, and at that point a choice of values: of each
   word its flushed value or one stored since. Words that hold the same value are one choice. `ops_words` is 3 for each op, and any
   op buffer will do whose stores are to words of the image and whose flushes are of one or more words inside it.

     Returns the number, 1 to DRIVELOG_MAX_CRASHES, or -DRIVELOG_IMAGE_SIZE, -DRIVELOG_BAD_OP (also a last group of fewer than 3 words;
   the detail is the number of the lowest such op) or -DRIVELOG_TOO_MANY_CRASHES.

     It takes a pass over the ops, and of each op that stores one over those before it.

     Example:

         int64_t crashes = drivelog_crash_count(image, 2048, ops, 3 * reply[DRIVELOG_REPLY_OPS], told, DRIVELOG_REPLY_WORDS);
*/

int64_t drivelog_crash_image(const uint64_t *image, size_t image_words, const uint64_t *ops, size_t ops_words, uint64_t number,
                             uint64_t *output, size_t output_words, uint64_t *reply, size_t reply_words);
/*
     The image that crash `number` leaves, put into the output. Crashes are numbered from 0, by their points and at one point by their
   choices: of each word the flushed value and then those stored since, the oldest first, and the lowest word changes fastest. At one
   point each image that a power failure may leave has one number, and no other image has one.

     Returns the crash point: how many ops are done. Or -DRIVELOG_IMAGE_SIZE (output_words is not image_words too), -DRIVELOG_BAD_OP,
   -DRIVELOG_TOO_MANY_CRASHES or -DRIVELOG_NO_SUCH_CRASH; then the output stays as it was.

     It takes at most twice the time of drivelog_crash_count, a copy of the image, and of each op before the point that stores a pass
   over the ops before the point. Neither call needs more than 4,096 bytes of stack.

     Example, every crash of a call in turn:

         for (uint64_t i = 0; i < (uint64_t)crashes; i++)
             drivelog_crash_image(image, 2048, ops, 3 * count, i, left, 2048, told, DRIVELOG_REPLY_WORDS);
*/
enum drivelog_crashes { DRIVELOG_MAX_CRASHES = 4096 };

int64_t drivelog_open(const uint64_t *image, size_t image_words, uint64_t *cursor, size_t cursor_words, uint64_t *reply,
                      size_t reply_words);
/*
     A cursor at the oldest record of an image, in the first DRIVELOG_CURSOR_WORDS words lent for it. The words after them stay.

     Returns 0, or -DRIVELOG_OUTPUT_SHORT (fewer words lent for the cursor), -DRIVELOG_IMAGE_SIZE or -DRIVELOG_SUPERLINE.

     Example:

         uint64_t cursor[DRIVELOG_CURSOR_WORDS];
         int64_t opened = drivelog_open(image, 2048, cursor, DRIVELOG_CURSOR_WORDS, reply, 4);
*/

int64_t drivelog_next(const uint64_t *image, size_t image_words, uint64_t *cursor, size_t cursor_words, uint64_t *record,
                      size_t record_words, uint64_t *reply, size_t reply_words);
/*
     The record at a cursor, in the first DRIVELOG_RECORD_WORDS words lent for it, and the cursor moved past it. Released records are
   given too, with their mark.

     Returns 1 with a record; 0 at the end, whose LSN is the second value, and then cursor and record stay; or -DRIVELOG_OUTPUT_SHORT
   (fewer words lent for cursor or record), -DRIVELOG_IMAGE_SIZE, -DRIVELOG_UNSOUND (the cursor is not sound),
   -DRIVELOG_TOO_MANY or -DRIVELOG_DAMAGED, whose second value is the test that the record fails.

     Example:

         uint64_t record[DRIVELOG_RECORD_WORDS];
         while (drivelog_next(image, 2048, cursor, DRIVELOG_CURSOR_WORDS, record, DRIVELOG_RECORD_WORDS, reply, 4) == 1)
             printf("%llu\n", (unsigned long long)record[DRIVELOG_RECORD_LSN]);
*/

int64_t drivelog_fetch(const uint64_t *image, size_t image_words, uint64_t pos, uint64_t length, uint8_t *output, size_t room,
                       uint64_t *reply, size_t reply_words);
/*
     Copies the payload of the record of `length` bytes at `pos` to the front of the output, which has room for `room` bytes: for a
   record that drivelog_next gave of the same image. The bytes of the output after the payload stay as they are.

     Returns the length, or -DRIVELOG_IMAGE_SIZE, -DRIVELOG_ARGUMENT, or -DRIVELOG_OUTPUT_SHORT if length is more than room.

     Example:

         uint8_t payload[DRIVELOG_MAX_PAYLOAD];
         int64_t length = drivelog_fetch(image, 2048, record[DRIVELOG_RECORD_POS], record[DRIVELOG_RECORD_LENGTH], payload, sizeof payload,
                                         reply, 4);
*/

#ifdef __cplusplus
}
#endif

#endif
