/* orders IMAGE: prints what to order for one drive, from the copy of its memory module in the file IMAGE.
 *
 * Kinds that it takes, the payload being decimal digits, two to a byte, as the drive of `make demo` writes them:
 *     kind 1, bearing hours: from 20000 hours on in the newest such record, one set of bearings
 *     kind 3, a part exchanged: one part with that number, to fill the store again
 * Other kinds are passed over. Where an image is refused nothing is ordered, not even for what is before the damage: the
 * number and what it means go to standard error, status 1. Status 2: no file, or a record without digits, which is named there.
 *
 *     make lib
 *     gcc -std=c11 -Wall -Wextra -Werror -Iinclude -c examples/c/orders.c -o target/orders.o
 *     gcc target/orders.o -Ltarget/lib -ldrivelog -o target/orders
 */

#include "drivelog.h"

#include <stdio.h>
#include <stdlib.h>

enum { BEARING_HOURS = 1, PART_EXCHANGED = 3, HOURS_OF_BEARINGS = 20000 };

/* One byte more than an image can have, so that a file that is too long is refused as one. */
static uint8_t image[DRIVELOG_MAX_IMAGE + 1];
static size_t bytes;
static char digits[2 * DRIVELOG_MAX_PAYLOAD + 1];
static int status = 0;

/* What a call answered; a refusal ends the program. */
static int64_t answered(int64_t answer)
{
    if (answer >= 0)
        return answer;
    fprintf(stderr, "orders: refused %d: %s\n", (int)-answer, drivelog_refusal_text(answer));
    exit(1);
}

static long long lsn(uint64_t index) { return answered(drivelog_lsn(image, bytes, index)); }

/* Puts the digits of a record's payload into `digits`; 0 if it has none, or something else among them. */
static int read_digits(uint64_t index)
{
    uint8_t payload[DRIVELOG_MAX_PAYLOAD];
    int64_t length = answered(drivelog_payload(image, bytes, index, payload, sizeof payload));
    int good = length > 0;
    for (int64_t i = 0; i < length; i++) {
        good = good && payload[i] >> 4 <= 9 && (payload[i] & 15) <= 9;
        snprintf(digits + 2 * i, 3, "%02x", payload[i]);
    }
    if (!good) {
        fprintf(stderr, "orders: no digits in record %lld\n", lsn(index));
        status = 2;
    }
    return good;
}

int main(int argc, char **argv)
{
    FILE *file = argc == 2 ? fopen(argv[1], "rb") : NULL;
    if (file == NULL) {
        fputs("usage: orders IMAGE, a file that can be read\n", stderr);
        return 2;
    }
    bytes = fread(image, 1, sizeof image, file);
    fclose(file);

    uint64_t count = (uint64_t)answered(drivelog_count(image, bytes)), hours = count;
    for (uint64_t i = 0; i < count; i++) {
        int64_t kind = answered(drivelog_kind(image, bytes, i));
        if (kind == BEARING_HOURS)
            hours = i;
        if (kind == PART_EXCHANGED && read_digits(i))
            printf("1 part %s (record %lld)\n", digits, lsn(i));
    }
    if (hours < count && read_digits(hours) && strtoull(digits, NULL, 10) >= HOURS_OF_BEARINGS)
        printf("1 set of bearings (%s hours, record %lld)\n", digits, lsn(hours));
    return status;
}
