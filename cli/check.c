/* check.c: what the workshop asks of a copy: whether all is well with it, in words, and why a record is listed or not. */

#define _DEFAULT_SOURCE
#include "reader.h"

#include <inttypes.h>
#include <stdio.h>

static struct reading reading;

static const char *plural(uint64_t count) { return count == 1 ? "" : "s"; }

/* "LSN 3" or "LSN 3 to 7". */
static void say_range(uint64_t first, uint64_t last)
{
    printf("LSN %" PRIu64, first);
    if (last > first)
        printf(" to %" PRIu64, last);
}

static void say_room(void)
{
    int64_t longest = longest_payload(&reading);
    if (longest < 0)
        fputs("for no record", stdout);
    else
        printf("for a record of %" PRId64 " bytes", longest);
}

/* ---------------------------------------------------------------- what stands after the end */

/* The records of a reading that follow those found are the ones after the end, the first of them with no mark. */
static void say_after_end(void)
{
    const uint64_t *first = reading.records[reading.count];
    uint64_t lsn = first[DRIVELOG_RECORD_LSN], old = first[DRIVELOG_RECORD_EPOCH] < reading.cursor[DRIVELOG_CURSOR_SUPERLINE_EPOCH];
    say_range(lsn, lsn + reading.after - 1);
    printf(" stand%s after the end, whole, with the right check%s: ", reading.after == 1 ? "s" : "", plural(reading.after));
    if (reading.after_marked == 0)
        printf("no mark is set, so %s never forced, or a mark was lost", reading.after == 1 ? "it was" : "they were");
    else
        printf("the first one's mark is not set and %" PRIu64 " later %s: that mark was lost, or power failed in the middle of a force",
               reading.after_marked, reading.after_marked == 1 ? "one's is" : "ones' are");
    if (old && first[DRIVELOG_RECORD_EPOCH] > 0)
        printf("; epoch %" PRIu64 " is from before the last restart, which speaks for a lost mark", first[DRIVELOG_RECORD_EPOCH]);
}

/* ---------------------------------------------------------------- check */

static uint64_t count_orphans(void)
{
    uint64_t count = 0;
    for (uint64_t i = 0; i < reading.count; i++)
        count += missing_inspection(&reading, i) != 0;
    return count;
}

static void say_records(void)
{
    uint64_t released = reading.count - reading.listed;
    if (reading.count == 0)
        fputs("no records", stdout);
    else
        printf("%" PRIu64 " record%s, ", reading.listed, plural(reading.listed));
    if (reading.count > 0)
        say_range(reading.head_lsn, reading.head_lsn + reading.count - 1);
    if (released > 0)
        printf(", %" PRIu64 " released", released);
}

/* Of three modules, those that are absent or differ from the chosen one. */
static int modules_apart(void)
{
    int apart = 0;
    for (size_t i = 0; path_count == HANDLE_MODULES && i < HANDLE_MODULES; i++)
        apart += drive.modules[i].why != 0 || drive.modules[i].repaired;
    return apart;
}

/* The line of a file. */
static int say_verdict(uint64_t orphan_count)
{
    put_name(path);
    if (status_of(&reading) != DONE) {
        char text[200];
        printf(": NOT WELL: ");
        if (reading.error == 0)
            printf("refused %" PRIu64 ": ", (uint64_t)-reading.found);
        fputs(ending_in_words(&reading, text, sizeof text), stdout);
        if (reading.ring > 0) {
            fputs("; before that ", stdout);
            say_records();
        }
        puts("");
        return status_of(&reading);
    }
    int apart = modules_apart(), well = reading.after == 0 && orphan_count == 0 && apart == 0;
    fputs(well ? ": well: " : ": NOT WELL: ", stdout);
    if (apart > 0)
        printf("%d of %d modules %s absent or differ%s from the chosen one; ", apart, HANDLE_MODULES, apart == 1 ? "is" : "are", apart == 1 ? "s" : "");
    if (reading.after > 0) {
        say_after_end();
        fputs("; ", stdout);
    }
    if (orphan_count > 0)
        printf("%" PRIu64 " orphan%s, which name%s an inspection that is not listed; ", orphan_count, plural(orphan_count), orphan_count == 1 ? "s" : "");
    say_records();
    printf(", epoch %" PRIu64 ", room ", reading.cursor[DRIVELOG_CURSOR_SUPERLINE_EPOCH]);
    say_room();
    puts("");
    return well ? DONE : REFUSED;
}

static void say_superline(void)
{
    uint64_t active = chosen_image()[0];
    printf("  superline  copy %" PRIu64 ", which the selector names: its first word, ring, head, epoch and check are right\n", active);
    const uint64_t *spare = chosen_image() + COPY_WORDS * (2 - active);
    printf("  spare copy copy %" PRIu64 ": ", 1 - active);
    if (has_its_check(spare))
        printf("its check is right; head LSN %" PRIu64 " at position %" PRIu64 ", epoch %" PRIu64 "\n", spare[COPY_HEAD_LSN],
               spare[COPY_HEAD_POS], spare[COPY_EPOCH]);
    else
        puts("its check is wrong, as before the first restart of a new log; nothing reads it");
}

/* Records that one run of the drive wrote follow one another. */
static void say_epochs(void)
{
    uint64_t epoch = reading.cursor[DRIVELOG_CURSOR_SUPERLINE_EPOCH];
    printf("  epochs     %" PRIu64 " now: %" PRIu64 " restart%s since the log was formatted or loaded\n", epoch, epoch - 1, plural(epoch - 1));
    for (uint64_t i = 0, first = 0; i < reading.count; i++) {
        uint64_t here = reading.records[i][DRIVELOG_RECORD_EPOCH];
        if (i + 1 < reading.count && reading.records[i + 1][DRIVELOG_RECORD_EPOCH] == here)
            continue;
        fputs("             ", stdout);
        say_range(reading.head_lsn + first, reading.head_lsn + i);
        printf(": epoch %" PRIu64 "%s\n", here, here == 0 ? ", from before there were epochs, or loaded" : "");
        first = i + 1;
    }
}

static void say_orphans(void)
{
    for (uint64_t i = 0; i < reading.count; i++) {
        uint64_t named = missing_inspection(&reading, i);
        if (named != 0)
            printf("  orphan     LSN %" PRIu64 " names inspection %" PRIu64 ", which no earlier listed record has\n",
                   reading.records[i][DRIVELOG_RECORD_LSN], named);
    }
}

/* Every test in words, and what it found. */
static void say_details(uint64_t orphan_count)
{
    if (reading.error != 0)
        return;
    int wrong_size = reading.found == -DRIVELOG_IMAGE_SIZE;
    printf("  size       %" PRIu64 " bytes: %s\n", file_bytes[drive.chosen], wrong_size ? "no image's" : "right");
    if (reading.ring == 0) {
        if (!wrong_size)
            puts("  superline  wrong: the log cannot be read");
        return;
    }
    uint64_t lsn = reading.cursor[DRIVELOG_CURSOR_LSN], pos = reading.cursor[DRIVELOG_CURSOR_POS];
    printf("  words      %zu, of which the ring has %" PRIu64 "\n", drive.words, reading.ring);
    say_superline();
    printf("  head       LSN %" PRIu64 " at position %" PRIu64 "\n", reading.head_lsn, reading.head_pos);
    printf("  records    %" PRIu64 " listed, %" PRIu64 " released: mark, kind, length, fit, LSN, check and epoch of each are right\n",
           reading.listed, reading.count - reading.listed);
    if (reading.found == 0)
        printf("  end        LSN %" PRIu64 " at position %" PRIu64 "\n", lsn, pos);
    else
        printf("  stopped    LSN %" PRIu64 " at position %" PRIu64 ": %s\n", lsn, pos,
               reading.found == -DRIVELOG_DAMAGED ? test_in_words(drive.reply[DRIVELOG_REPLY_SECOND]) : "one record too many");
    if (reading.found == 0 && reading.after == 0)
        puts("  after end  no whole record");
    for (uint64_t i = reading.count; i < reading.count + reading.after; i++) {
        const uint64_t *record = reading.records[i];
        printf("  after end  LSN %" PRIu64 ", kind %" PRIu64 ", %" PRIu64 " bytes, epoch %" PRIu64 ", mark %" PRIu64 "\n", record[DRIVELOG_RECORD_LSN],
               record[DRIVELOG_RECORD_KIND], record[DRIVELOG_RECORD_LENGTH], record[DRIVELOG_RECORD_EPOCH], record[DRIVELOG_RECORD_MARK]);
    }
    if (orphan_count == 0)
        puts("  orphans    none");
    say_orphans();
    say_epochs();
    if (reading.found == 0) {
        printf("  room       %" PRIu64 " words: ", room_words(&reading));
        say_room();
        puts("");
    }
}

int check_files(const char *const *names, int count, int verbose)
{
    int status = DONE, wrong = 0;
    for (int i = 0; i < count && !ferror(stdout); i++) {
        say_progress(i, count);
        read_log(names[i], &reading);
        look_after_end(&reading);
        uint64_t orphan_count = count_orphans();
        int found = say_verdict(orphan_count);
        if (verbose)
            say_details(orphan_count);
        wrong += found != DONE;
        status = worse(status, found);
    }
    say_progress(count, count);
    if (wrong > 0) {
        fflush(stdout);
        fprintf(stderr, "drivelog: %d of %d file%s not well\n", wrong, count, count == 1 ? " is" : wrong == 1 ? "s is" : "s are");
    }
    return status;
}

/* ---------------------------------------------------------------- why */

static void say_found(const uint64_t *record)
{
    if (is_listed(record))
        printf("is listed: kind %" PRIu64 ", %" PRIu64 " bytes, epoch %" PRIu64 "\n", record[DRIVELOG_RECORD_KIND], record[DRIVELOG_RECORD_LENGTH],
               record[DRIVELOG_RECORD_EPOCH]);
    else
        puts("is not listed: it was released");
}

static void say_not_found(uint64_t lsn)
{
    uint64_t at = reading.cursor[DRIVELOG_CURSOR_LSN];
    const char *test = test_in_words(drive.reply[DRIVELOG_REPLY_SECOND]);
    if (lsn < reading.head_lsn)
        printf("is not listed: it is below the head, LSN %" PRIu64 ": %s\n", reading.head_lsn,
               lsn == 0 ? "LSNs begin with 1" : "it was released, or the log began later");
    else if (reading.found == -DRIVELOG_DAMAGED && lsn == at)
        printf("is not listed: it is damaged: %s\n", test);
    else if (reading.found == -DRIVELOG_DAMAGED)
        printf("is not listed: record %" PRIu64 " before it is damaged (%s), and what follows cannot be read\n", at, test);
    else if (reading.found == -DRIVELOG_TOO_MANY)
        printf("is not listed: the log has too many records: LSN %" PRIu64 " is the 257th\n", at);
    else if (lsn - at < reading.after)
        printf("is not listed: the log ends at LSN %" PRIu64 "; it stands there whole, but %s, or a mark was lost\n", at,
               reading.after_marked == 0 ? "was never forced" : "power failed in the middle of a force");
    else
        printf("is not listed: the log ends before it, at LSN %" PRIu64 ": it was never written, or not durable\n", at);
}

/* Damage is an answer here, and no error. */
int why(const char *name, const uint64_t *lsns, int count)
{
    read_log(name, &reading);
    look_after_end(&reading);
    if (reading.ring == 0) {
        if (reading.error == 0)
            printf("refused %" PRIu64 "\n", (uint64_t)-reading.found);
        say_ending(&reading);
        return status_of(&reading);
    }
    for (int i = 0; i < count; i++) {
        uint64_t index = lsns[i] - reading.head_lsn;
        printf("LSN %" PRIu64 " ", lsns[i]);
        if (lsns[i] >= reading.head_lsn && index < reading.count)
            say_found(reading.records[index]);
        else
            say_not_found(lsns[i]);
    }
    return DONE;
}
