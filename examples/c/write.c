/* write FILE, or write A B C: recovers the log in a module, or in three, as a drive does at power-up, and appends a record. Modules to
 * start with: drivelog format FILE 64, or drivelog format A,B,C 64
 *
 *     make lib
 *     gcc -std=c11 -Wall -Iinclude -Idriver examples/c/write.c driver/driver.c driver/handle.c target/lib/libdrivelog.a -o target/write
 */
#include "handle.h"
#include <stdio.h>
#include <string.h>

static struct handle drive;

int main(int count, char **argument)
{
    const char *text = "4120 hours";
    int64_t lsn = handle_open(&drive, argument + 1, (size_t)count - 1);
    if (lsn >= 0)
        lsn = handle_recover(&drive);
    if (lsn >= 0)
        lsn = handle_append(&drive, 1, text, strlen(text), 1);
    if (lsn >= 0)
        printf("record %d is durable\n", (int)lsn);
    else
        printf("not durable: %s\n", handle_text(lsn));
    handle_close(&drive);
    return lsn < 0;
}
