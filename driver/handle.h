/* handle.h: a drive's log in one hand, on one module or on three.
 *
 * A handle holds all that the calls of drivelog.h are lent (state, working image, op buffers, reply) and the modules of driver.h on which
 * their ops are carried out: all ops of a call before the next call. It allocates nothing itself and may be in static storage, where it
 * belongs: it has 792,000 bytes, or, with -DHANDLE_WORDS=1024 for modules of at most so many words, 104,000 (the same for handle.c and all
 * that includes this file). It is C, tested and not proved; the calls that it makes are proved. One caller at a time.
 *
 *     static struct handle log;
 *     char *paths[] = {"/dev/module0", "/dev/module1", "/dev/module2"};
 *     if (handle_open(&log, paths, 3) >= 0 && handle_recover(&log) >= 0)
 *         lsn = handle_append(&log, 1, "4120 hours", 10, 1);
 *
 * Answers: a call returns 0 or more, or minus a number that handle_text has in words: a refusal of drivelog.h, 1 to 99; one of the handle's
 * own, enum handle_number; or HANDLE_SYSTEM plus an errno. A call that the log refuses changes nothing.
 *
 * In step is a module that was there at the last recovery, or formatted since, and has carried out every op since, that recovery's included.
 * One whose flush fails, or that is gone when a force looks for it, is out of step: nothing more is done on it until the next recovery, which
 * repairs it. A drive on one module needs that one in step, a drive on three needs two. With fewer, no call of the log is made any more, and
 * each answers HANDLE_TOO_FEW (a force HANDLE_NOT_DURABLE); what the working image holds can still be read, and handle_recover tries again.
 *
 * What is promised on three modules, by the theorem `append_three_safe` (slip 9, crates/append_three/specs/AppendThree.antt), as far as the
 * driver does what it owes (driver.h). If
 *
 *     - the formatting was carried out on all three,
 *     - the recovery is granted, for which two copies have to be readable, and
 *     - no earlier recovery left its raised epoch on exactly one copy,
 *
 * then every record that a force answered durable, with no release of it begun on any module, is listed after the recovery, whichever
 * module is absent; every record listed was completed, with its kind, length and bytes; and the LSNs of the log, released records
 * included, are consecutive. A force counts only if two modules in step have carried out all its ops, also one that has no ops, and an append
 * only if they have carried out all of its own. That is why they answer durable in no other case.
 *
 * What is not promised. A release that was carried out on two modules may come undone: the third ties and is chosen. A record that is not
 * durable is listed or not, as its module is there. Two power failures inside repairs can leave one readable copy, and 19 from then on.
 * A module that was replaced, by a blank one or by an older copy, is behind until a recovery has repaired it; of two that are behind at
 * once the theorem says nothing. Where power fails between the first and the second module's last ops of a recovery, its raised epoch may
 * be on exactly one copy; the theorem says nothing then, and it is wise to have that copy there at the next recovery. On one module the
 * promise is that of drivelog.h.
 */

#ifndef HANDLE_H
#define HANDLE_H

#include "driver.h"
#include "drivelog.h"

#ifdef __cplusplus
extern "C" {
#endif

#ifndef HANDLE_WORDS
#define HANDLE_WORDS DRIVELOG_MAX_IMAGE_WORDS
#endif

enum handle_limit {
    HANDLE_MODULES = 3,
    /* An op buffer that is always enough, for a repair and for every other call. */
    HANDLE_REPAIR_OPS_WORDS = DRIVELOG_OP_WORDS * (HANDLE_WORDS + 15),
    HANDLE_OPS_WORDS = HANDLE_REPAIR_OPS_WORDS > (int)DRIVELOG_OPS_WORDS ? HANDLE_REPAIR_OPS_WORDS : (int)DRIVELOG_OPS_WORDS
};

enum handle_number {
    HANDLE_NOT_DURABLE = 101, /* a force that fewer modules in step than needed have carried out */
    HANDLE_TOO_FEW = 102,     /* fewer modules in step than needed: recover */
    HANDLE_ALTERED = 103,     /* of a module: another program wrote to it */
    HANDLE_SYSTEM = 1000      /* and an errno above it: what the system says */
};

struct handle_module {
    const char *path;
    struct driver_module *module; /* null: absent */
    size_t words;                 /* of its image; 0: absent */
    int in_step;
    int repaired; /* the last recovery found that it differed from the chosen one */
    int why;      /* 0, or the number of what made it absent or put it out of step */
};

/* Of these a program reads modules, module_count, durable_lsn, the working image, and the reply of the last call; it writes none. */
struct handle {
    struct handle_module modules[HANDLE_MODULES];
    size_t module_count;  /* 1 or 3 */
    size_t words;         /* of each module */
    size_t chosen;        /* images[chosen] is the working image */
    uint64_t durable_lsn; /* since the recovery a force answered durable for every record up to this LSN; 0: none */
    uint64_t cursor[DRIVELOG_CURSOR_WORDS];
    uint64_t state[DRIVELOG_STATE_WORDS];
    uint64_t reply[DRIVELOG_THREE_REPLY_WORDS];
    uint64_t images[HANDLE_MODULES][HANDLE_WORDS];
    uint64_t ops[HANDLE_MODULES][HANDLE_OPS_WORDS];
};

int64_t handle_open(struct handle *h, char *const *paths, size_t count);
/*
     Opens the modules in one file, or in three. A path where nothing is, which is no module (not 40 to HANDLE_WORDS whole words), or which
   cannot be had is an absent module: modules[i].why has the number. No word is altered. The paths have to stay as long as the handle is
   open. Whatever this call answers, handle_close gives back what it has.

     Returns how many modules there are; or, if they are fewer than needed (one of one, two of three), minus the number of the lowest
   absent one; or -DRIVELOG_ARGUMENT (count is neither 1 nor 3).
*/

int64_t handle_format(struct handle *h, char *const *paths, size_t count, size_t words);
/*
     Makes new modules, one or three, of 40 to HANDLE_WORDS words, with an empty log, and opens them: all are in step. A file that is there
   already is not touched. Where one cannot be made, those that were made are taken away again, and modules[i].why says which one it is.

     Returns 0, -DRIVELOG_ARGUMENT (count), -DRIVELOG_IMAGE_SIZE, or -HANDLE_SYSTEM less what the system says, such as EEXIST.
*/

int64_t handle_recover(struct handle *h);
/*
     What a drive does at power-up, and whenever modules are out of step: opens anew what is absent or out of step, flushes every word of
   each module, so that what is read is what a power failure leaves, and recovers. On three modules those that differ from the chosen one
   are repaired, one after another; then the eleven ops of a recovery are carried out, each of them on every module before the next. Where
   fewer than two modules get through the repairs none of the eleven is carried out, so that no epoch is raised on one copy alone. A
   module whose size is not that of two others is absent.

     Returns the number of the chosen module, 0 to 2; or what drivelog_recover or drivelog_recover_three refuses; or -HANDLE_TOO_FEW if
   fewer modules than needed have carried out all ops; or, on one module that is absent, minus its number. Then no call
   of the log is made until a recovery succeeds.
*/

int64_t handle_append(struct handle *h, uint64_t kind, const void *bytes, size_t count, uint64_t frequency);
/*
     drivelog_append, with its ops carried out on each module in step: one record, complete, and forced with a frequency. With 1 it is
   durable, with more it is deferred, as durable_lsn tells, until a multiple of the frequency is among the LSNs. Where it is durable, it is
   looked for the modules' paths as in handle_force.

     Returns its LSN; or what drivelog_append refuses, and then nothing is changed: -DRIVELOG_UNFINISHED only where the record would be
   durable and an older one is open, whose LSN is the detail; or -HANDLE_TOO_FEW: if too few were in step before it, nothing was done, and
   if it was to be deferred and made them too few, the next recovery lists it or not; or -HANDLE_NOT_DURABLE: it was to be durable, fewer
   modules than needed have it, and the next recovery lists it or not.
*/

int64_t handle_reserve(struct handle *h, uint64_t kind, uint64_t length);
int64_t handle_copy(struct handle *h, uint64_t lsn, uint64_t offset, const void *bytes, size_t count);
int64_t handle_complete(struct handle *h, uint64_t lsn);
int64_t handle_release(struct handle *h, uint64_t lsn);
int64_t handle_release_all(struct handle *h);
/*
     drivelog_reserve and the others, with their ops carried out on each module in step.

     Returns what that call returns, or -HANDLE_TOO_FEW: if too few were in step before it, nothing was done; if it made them too few,
   some modules have some of its ops, and the next recovery finds what they hold.
*/

int64_t handle_force(struct handle *h, uint64_t lsn, uint64_t frequency);
/*
     The same for drivelog_force. Before it answers durable it looks whether the path of each module in step still names its file.

     Returns 1 if every record up to the LSN is durable, 0 if that is deferred; what drivelog_force refuses; or -HANDLE_NOT_DURABLE if
   fewer modules than needed are in step, or have carried out all its ops and are still there.
*/

int64_t handle_check(struct handle *h);
/*
     Looks at each module in step: one whose path names another file by now, or whose words are not the working image's, is out of step.
   For programs whose files others may write to.

     Returns how many are in step, or -HANDLE_TOO_FEW.
*/

/* A record of the log. */
struct handle_record {
    uint64_t lsn, kind, epoch;
    size_t length;
    uint8_t bytes[DRIVELOG_MAX_PAYLOAD];
};

int64_t handle_first(struct handle *h);
int64_t handle_next(struct handle *h, struct handle_record *record);
/*
     Goes through the records of the working image that are committed and not released, oldest first: handle_first goes to the front,
   and each handle_next gives one. It reads no module. A writing call between them is no harm, but for releases.

     Returns 1 with a record, 0 at the end, or what drivelog_open or drivelog_next refuses.

     Example:

         for (int64_t found = handle_first(&log); found >= 0 && (found = handle_next(&log, &record)) == 1;)
             printf("%d\n", (int)record.lsn);
*/

int64_t handle_choose(struct handle *h);
/*
     For a program that only reads: it has put module_count, the words of each copy into images[i], and their count into modules[i].words
   (0: absent). A copy whose size is not that of two others becomes absent, and the copies are recovered in memory, with no op carried out.
   What handle_recover would choose and repair is then in `chosen` and in modules[i].repaired.

     Returns what drivelog_recover or drivelog_recover_three returns.
*/

void handle_close(struct handle *h);
/*
     Gives the modules back. It flushes nothing. Calls after it answer HANDLE_TOO_FEW.
*/

const char *handle_text(int64_t number);
/*
     What a call answered, or a module's `why`, in words: with a minus sign or without. The text is always there; that of an errno is
   the system's, until the next call of strerror.
*/

#ifdef __cplusplus
}
#endif

#endif
