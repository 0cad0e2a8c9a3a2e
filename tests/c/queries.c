/* Makes the calls of include/drivelog.h that standard input asks for and prints what each did, for `reference c-calls`.
 *
 * Standard input, words of 8 bytes, little-endian:
 *     1 bytes place gap, then the bytes    the image of the requests behind this one
 *     2                                    drivelog_count
 *     3 index                              drivelog_kind
 *     4 index                              drivelog_lsn
 *     5 index room place gap, then room bytes that the output holds before the call: drivelog_payload
 *     6 room place gap, then room words that the rows hold before the call: drivelog_list
 *     7 pos length room place gap, then room bytes that the output holds before the call: drivelog_payload_at
 *     8                                    drivelog_damage
 *     9 index                              drivelog_epoch
 * Place 0 is a null pointer, of length 0. Place 1 begins `gap` bytes behind a page that nobody may touch, place 2 ends `gap` bytes
 * before one, so that a byte read or written too far ends the program. The image's pages are read-only.
 *
 * Standard output, a line a call: its name, the numbers asked, and what it returned. Behind that, for a payload or a list: all of the
 * output as hex pairs ("-" if there is none), and `kept` or `touched` for the bytes around it. Input that is not of this form: status 2. */

#define _DEFAULT_SOURCE
#include "drivelog.h"

#include <inttypes.h>
#include <stdio.h>
#include <stdlib.h>
#include <string.h>
#include <sys/mman.h>
#include <unistd.h>

enum { MOST_BYTES = 1 << 20 };

/* Whole pages between two that nobody may touch, and some bytes in them. */
struct lent {
    uint8_t *pages;
    size_t size;
    uint8_t *bytes;
    size_t count;
};

static void fail(const char *what)
{
    fprintf(stderr, "driver: %s\n", what);
    exit(2);
}

static uint64_t word(void)
{
    uint64_t value;
    if (fread(&value, sizeof value, 1, stdin) != 1)
        fail("a request ends early");
    return value;
}

static struct lent lend(uint64_t count, uint64_t place, uint64_t gap)
{
    struct lent lent = {NULL, 0, NULL, (size_t)count};
    if (count > MOST_BYTES || place > 2 || gap > 4096 || (place == 0 && count > 0))
        fail("a length or place that no request has");
    if (place == 0)
        return lent;
    size_t page = (size_t)sysconf(_SC_PAGESIZE);
    lent.size = ((size_t)(count + gap) / page + 1) * page;
    uint8_t *all = mmap(NULL, lent.size + 2 * page, PROT_NONE, MAP_PRIVATE | MAP_ANONYMOUS, -1, 0);
    if (all == MAP_FAILED || mprotect(all + page, lent.size, PROT_READ | PROT_WRITE) != 0)
        fail("no memory");
    lent.pages = all + page;
    lent.bytes = place == 1 ? lent.pages + gap : lent.pages + lent.size - gap - count;
    for (size_t i = 0; i < lent.size; i++)
        lent.pages[i] = (uint8_t)(31 * i + 7);
    if (count > 0 && fread(lent.bytes, 1, lent.count, stdin) != lent.count)
        fail("the bytes of a request end early");
    return lent;
}

static void give_back(struct lent lent)
{
    size_t page = (size_t)sysconf(_SC_PAGESIZE);
    if (lent.pages != NULL && munmap(lent.pages - page, lent.size + 2 * page) != 0)
        fail("memory is not given back");
}

static int kept_around(struct lent lent)
{
    for (size_t i = 0; i < lent.size; i++) {
        size_t start = (size_t)(lent.bytes - lent.pages);
        if ((i < start || i >= start + lent.count) && lent.pages[i] != (uint8_t)(31 * i + 7))
            return 0;
    }
    return 1;
}

/* The end of a line: what a call left in the output, and around it. */
static void show(struct lent output)
{
    for (size_t i = 0; i < output.count; i++)
        printf("%02x", output.bytes[i]);
    printf("%s %s\n", output.count == 0 ? "-" : "", kept_around(output) ? "kept" : "touched");
    give_back(output);
}

static void payload(struct lent image)
{
    uint64_t index = word(), room = word(), place = word(), gap = word();
    struct lent output = lend(room, place, gap);
    int64_t result = drivelog_payload(image.bytes, image.count, index, output.bytes, output.count);
    printf("payload %" PRIu64 " %" PRIu64 " %" PRId64 " ", index, room, result);
    show(output);
}

static void list(struct lent image)
{
    uint64_t room = word(), place = word(), gap = word();
    if (room > MOST_BYTES / 8 || gap % 8 != 0)
        fail("words at a place that no request has");
    struct lent output = lend(8 * room, place, gap);
    int64_t result = drivelog_list(image.bytes, image.count, (uint64_t *)(void *)output.bytes, output.count / 8);
    printf("list %" PRIu64 " %" PRId64 " ", room, result);
    show(output);
}

static void payload_at(struct lent image)
{
    uint64_t pos = word(), length = word(), room = word(), place = word(), gap = word();
    struct lent output = lend(room, place, gap);
    int64_t result = drivelog_payload_at(image.bytes, image.count, pos, length, output.bytes, output.count);
    printf("payload_at %" PRIu64 " %" PRIu64 " %" PRIu64 " %" PRId64 " ", pos, length, room, result);
    show(output);
}

int main(void)
{
    struct lent image = {NULL, 0, NULL, 0};
    uint64_t request;
    while (fread(&request, sizeof request, 1, stdin) == 1) {
        uint64_t index = request == 3 || request == 4 || request == 9 ? word() : 0;
        switch (request) {
        case 1: {
            uint64_t bytes = word(), place = word(), gap = word();
            give_back(image);
            image = lend(bytes, place, gap);
            if (image.pages != NULL && mprotect(image.pages, image.size, PROT_READ) != 0)
                fail("pages are not made read-only");
            break;
        }
        case 2:
            printf("count %" PRId64 "\n", drivelog_count(image.bytes, image.count));
            break;
        case 3:
            printf("kind %" PRIu64 " %" PRId64 "\n", index, drivelog_kind(image.bytes, image.count, index));
            break;
        case 4:
            printf("lsn %" PRIu64 " %" PRId64 "\n", index, drivelog_lsn(image.bytes, image.count, index));
            break;
        case 5:
            payload(image);
            break;
        case 6:
            list(image);
            break;
        case 7:
            payload_at(image);
            break;
        case 8:
            printf("damage %" PRId64 "\n", drivelog_damage(image.bytes, image.count));
            break;
        case 9:
            printf("epoch %" PRIu64 " %" PRId64 "\n", index, drivelog_epoch(image.bytes, image.count, index));
            break;
        default:
            fail("no such request");
        }
        /* What was answered before a call that ends the program is seen. */
        fflush(stdout);
    }
    give_back(image);
    return 0;
}
