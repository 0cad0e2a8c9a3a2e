/* driver.h: a memory module in a file, and the ops of the log's calls carried out on it.
 *
 * The library touches no module. Each writing call leaves a list of ops, three words each, and the driver carries them out:
 *
 *     1, word number, value           store: the word gets the value
 *     2, first word number, count     flush: those words keep their newest value whatever happens
 *
 * What the driver owes, in document 01's words (tape: the op buffer; order: op; cut: a crash):
 *
 *     "The driver carries a call's orders out in turn, all of them before the next call is made. Per word the module has a flushed
 *     value, at first what format got, and those stored since. A flush order makes each of its words' newest value the flushed one
 *     and drops the rest. A cut falls after any number of a call's orders, none or all included: the state is gone, each word for
 *     itself holds its flushed value or any stored since."
 *
 * So: ops in turn, none left out and none added; a store reaches its word whole and no other word; a flush returns when its words are
 * safe; driver_carry returns when all ops are carried out. Everything that is proved of the log holds on a module only as far as its
 * driver does this. Words are in memory as x86-64 has them, little-endian, which is the image's own order.
 */

#ifndef DRIVER_H
#define DRIVER_H

#include <stddef.h>
#include <stdint.h>

#ifdef __cplusplus
extern "C" {
#endif

struct driver_module {
    const uint64_t *words; /* the module's words, to be read; only driver_carry alters them */
    size_t count;          /* how many */
    int file;              /* locked as long as the module is open; never a standard stream's descriptor, 0 to 2 */
    int flushes_lines;     /* libpmem only: the file is on persistent memory, and no msync is needed */
    int past_cache;        /* and stores go past the cache, so that a flush is a fence */
};

struct driver_module *driver_open(const char *path);
/*
     Opens the module in the file `path`, for one process alone. Nothing is created and no word is altered. Parts of the file that have
   no room on the disk yet (holes) get it, so that no store meets a full disk.

     Returns the module, or null with errno: EWOULDBLOCK if another process has it open, EISDIR or ENODEV if it is a directory or another
   thing that is not a regular file (a FIFO or a device is not opened), EINVAL if the file is empty or not whole words, ENOSPC if the
   disk has no room for its holes, or what the system says.
*/

struct driver_module *driver_make(const char *path, size_t words, const uint64_t *ops, size_t count);
/*
     Makes the file, of so many words that are all 0, carries `count` ops out on it, and opens it. The file gets its name when all of
   that is safe: a process that fails or is killed meanwhile leaves nothing under the name `path`. (One that is killed may leave a file
   .drivelog-PROCESS-NUMBER in the directory, which is of no use.) A file that is there already is not touched.

     Returns the module, or null with errno: EEXIST if something has that name already, or what the system says. After an error nothing
   is left.
*/

struct driver_module *driver_create(const char *path, size_t words);
/*
     The same with no ops.
*/

int driver_carry(struct driver_module *module, const uint64_t *ops, size_t count);
/*
     Carries `count` ops out, in turn. All of them are looked at first: if one is neither a store to a word of the module nor a flush of
   one or more of its words, none is carried out.

     Returns 0, or -1 with errno. After EINVAL nothing was done. After any other error a flush failed, and the words it was for may or
   may not be safe: make no further call, close the module, and recover from what it holds.

     A file that another program cuts short while it is open ends the process with SIGBUS, as every mapped file does, unless the program
   catches it, as cli/write.c does.
*/

int driver_check(const struct driver_module *module, const char *path);
/*
     Whether `path` still names the module's file, and the file still has its size. A program that asks after driver_carry and before it
   says that a record is durable does not say so of a file that nobody finds again.

     Returns 0, or -1 with errno: ESTALE if the name is gone or is another file's, EINVAL if the size is another, or what the system
   says.
*/

void driver_close(struct driver_module *module);
/*
     Gives the module back; null is no module, and nothing is done. It flushes nothing: what was stored and not flushed may still be
   lost.
*/

#ifdef __cplusplus
}
#endif

#endif
