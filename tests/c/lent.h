/* lent.h: memory that a test lends to a call of include/drivelog.h, so that it is seen what the call touches.
 *
 * It begins behind a page that nobody may touch or ends before one, so that a byte read or written too far ends the program; on its
 * other side are guard bytes. What is lent is a copy: the program's own bytes say how it was before the call. */

#ifndef LENT_H
#define LENT_H

#define _DEFAULT_SOURCE
#include <stdint.h>
#include <stdio.h>
#include <stdlib.h>
#include <string.h>
#include <sys/mman.h>
#include <unistd.h>

enum { GUARD = 512, GUARD_BYTE = 0xA7 };

/* A place for one argument of a call: whole pages between two that nobody may touch. All zero at first. */
struct place {
    uint8_t *pages;
    size_t size;
    uint8_t *lent;
    size_t bytes;
};

/* The call that is made, for messages. */
static const char *call_name = "no call";
static uint64_t call_number;

/* On which side of what is lent the page is that nobody may touch. */
static int at_front;

/* Something is not as include/drivelog.h says: a message, and status 3. */
static void need(int holds, const char *what)
{
    if (holds)
        return;
    fprintf(stderr, "call %llu, %s: %s\n", (unsigned long long)call_number, call_name, what);
    exit(3);
}

/* The copy of some bytes that a call is lent. Of no bytes it is a null pointer, or one to a page that nobody may touch. */
static void *lend(struct place *place, const void *from, size_t bytes)
{
    if (place->size < bytes + GUARD) {
        size_t page = (size_t)sysconf(_SC_PAGESIZE), size = ((bytes + GUARD) / page + 1) * page;
        if (place->pages != NULL)
            munmap(place->pages - page, place->size + 2 * page);
        uint8_t *all = mmap(NULL, size + 2 * page, PROT_NONE, MAP_PRIVATE | MAP_ANONYMOUS, -1, 0);
        need(all != MAP_FAILED && mprotect(all + page, size, PROT_READ | PROT_WRITE) == 0, "no memory");
        place->pages = all + page;
        place->size = size;
    }
    place->bytes = bytes;
    place->lent = at_front ? place->pages : place->pages + place->size - bytes;
    memset(at_front ? place->lent + bytes : place->lent - GUARD, GUARD_BYTE, GUARD);
    if (bytes == 0)
        return at_front ? NULL : place->lent;
    memcpy(place->lent, from, bytes);
    return place->lent;
}

/* Whether the guard bytes stayed, and all that was lent from some byte on. */
static int stayed(const struct place *place, const void *from, size_t first)
{
    const uint8_t *guard = place->lent == place->pages ? place->lent + place->bytes : place->lent - GUARD;
    for (size_t i = 0; i < GUARD; i++)
        if (guard[i] != GUARD_BYTE)
            return 0;
    return first >= place->bytes || memcmp(place->lent + first, (const uint8_t *)from + first, place->bytes - first) == 0;
}

#endif
