/* write.c: the commands that write. Each does what a drive does at power-up: it opens the module, or the three, recovers, and then makes its
 * own calls, all by the handle of driver/handle.h. */

#define _DEFAULT_SOURCE
#include "tool.h"

#include <errno.h>
#include <inttypes.h>
#include <limits.h>
#include <poll.h>
#include <signal.h>
#include <stdio.h>
#include <stdlib.h>
#include <string.h>
#include <sys/signalfd.h>
#include <sys/stat.h>
#include <unistd.h>

enum {
    MAX_DIGITS = 20,                                     /* of a number below 2^64 */
    MAX_LINE = MAX_DIGITS + 1 + DRIVELOG_MAX_PAYLOAD + 1 /* KIND, space, TEXT, line feed */
};

/* ---------------------------------------------------------------- the file */

/* A mapped file that another program cuts short, or whose disk fails, raises SIGBUS: that ends in a message. */
static char lost_page_text[PATH_MAX + 100];

static void on_lost_page(int number)
{
    ssize_t written = write(STDERR_FILENO, lost_page_text, strlen(lost_page_text));
    (void)number, (void)written;
    _exit(REFUSED);
}

static void catch_lost_pages(void)
{
    struct sigaction action;
    memset(&action, 0, sizeof action);
    action.sa_handler = on_lost_page;
    snprintf(lost_page_text, sizeof lost_page_text, "drivelog: %s: it was cut short, or its disk failed, while it was open\n", path);
    sigaction(SIGBUS, &action, NULL);
}

/* Before anything is said to be done: whoever opens these paths next finds what the calls stored. */
static void need_files(void) { granted(handle_check(&drive)); }

/* A file that cannot be an image is not opened for writing, and gets no room on the disk. One of three is left out. */
static void need_size(void)
{
    struct stat about;
    if (path_count != 1 || stat(path, &about) != 0 || !S_ISREG(about.st_mode))
        return;
    if (about.st_size < 8 * DRIVELOG_MIN_IMAGE_WORDS || about.st_size > DRIVELOG_MAX_IMAGE || about.st_size % 8 != 0) {
        read_images();
        refuse(DRIVELOG_IMAGE_SIZE);
    }
}

/* Opens the modules; 0 if another process has one of them, which is then no absent module. */
static int open_modules(void)
{
    int had = 1;
    handle_open(&drive, paths, path_count);
    for (size_t i = 0; i < path_count; i++)
        had = had && drive.modules[i].why != HANDLE_SYSTEM + EWOULDBLOCK;
    if (!had)
        handle_close(&drive);
    errno = EWOULDBLOCK;
    return had;
}

/* What a drive does at power-up. */
static void power_up(void)
{
    catch_lost_pages();
    need_size();
    int had;
    while (!(had = open_modules()) && try_again()) {
    }
    errno = had && path_count == 1 ? drive.modules[0].why - HANDLE_SYSTEM : EWOULDBLOCK;
    if (!had || (path_count == 1 && drive.modules[0].why > HANDLE_SYSTEM))
        fail_by_system();
    for (size_t i = 0; i < path_count; i++)
        file_bytes[i] = 8 * (uint64_t)drive.modules[i].words;
    granted(handle_recover(&drive));
}

/* Gives the modules back; what was printed before that is true of the files. */
static int done(int status)
{
    handle_close(&drive);
    return status;
}

int format(uint64_t asked_words)
{
    if (asked_words < DRIVELOG_MIN_IMAGE_WORDS || asked_words > DRIVELOG_MAX_IMAGE_WORDS) {
        char text[100];
        snprintf(text, sizeof text, "refused 1: %" PRIu64 " words are not the size of an image, which has 40 to 8192", asked_words);
        fail(text);
    }
    catch_lost_pages();
    if (handle_format(&drive, paths, path_count, (size_t)asked_words) < 0)
        for (size_t i = 0; i < path_count; i++)
            if (drive.modules[i].why != 0) {
                path = paths[i];
                errno = drive.modules[i].why - HANDLE_SYSTEM;
                fail_by_system();
            }
    need_files();
    printf("formatted, %zu words%s\n", drive.words, path_count == 1 ? "" : ", three modules");
    return done(DONE);
}

/* ---------------------------------------------------------------- one record, or all */

/* Scans the working image: the number of live records, the LSN that the next one gets, and the log's epoch. */
static uint64_t live_records(uint64_t *next_lsn, uint64_t *epoch)
{
    uint64_t cursor[DRIVELOG_CURSOR_WORDS], record[DRIVELOG_RECORD_WORDS], count = 0;
    granted(drivelog_open(IMAGE, cursor, DRIVELOG_CURSOR_WORDS, REPLY));
    while (granted(next(cursor, record)) == 1)
        count++;
    *next_lsn = drive.reply[DRIVELOG_REPLY_SECOND];
    *epoch = cursor[DRIVELOG_CURSOR_SUPERLINE_EPOCH];
    return count;
}

int recover(void)
{
    uint64_t next_lsn, epoch;
    power_up();
    uint64_t live = live_records(&next_lsn, &epoch);
    need_files();
    for (size_t i = 0; i < path_count; i++)
        if (drive.modules[i].repaired && drive.modules[i].in_step)
            printf("repaired %s from %s\n", paths[i], paths[drive.chosen]);
    printf("recovered, %" PRIu64 " live records, next LSN %" PRIu64 ", epoch %" PRIu64 "\n", live, next_lsn, epoch);
    return done(DONE);
}

/* An LSN that no record can have is refused before the recovery writes. */
int release(uint64_t lsn)
{
    asked_lsn = lsn;
    if (lsn == 0 || lsn > MAX_LSN)
        refuse(DRIVELOG_NOT_LIVE);
    power_up();
    granted(handle_release(&drive, lsn));
    need_files();
    printf("%" PRIu64 " released\n", lsn);
    return done(DONE);
}

int release_all(void)
{
    uint64_t next_lsn, epoch;
    power_up();
    uint64_t live = live_records(&next_lsn, &epoch);
    granted(handle_release_all(&drive));
    need_files();
    printf("all released, %" PRIu64 " live records before, next LSN %" PRIu64 "\n", live, next_lsn);
    return done(DONE);
}

/* Appends a record: its LSN, or minus the log's refusal. */
static int64_t put_record(uint64_t kind, const char *payload, size_t length, uint64_t frequency)
{
    asked_kind = kind;
    asked_length = length;
    int64_t answer = handle_append(&drive, kind, payload, length, frequency);
    return answer < 0 && answer > -HANDLE_NOT_DURABLE ? answer : (int64_t)granted(answer);
}

/* Whether a record is durable. Nothing is said to be so before the files were looked at. */
static int is_durable(uint64_t lsn)
{
    int durable = lsn <= drive.durable_lsn;
    if (durable)
        need_files();
    return durable;
}

/* Standard input to its end, or as much as shows that it is too long. */
static size_t read_payload(char *payload, size_t room)
{
    size_t length = 0;
    ssize_t got;
    while (length < room && (got = read(STDIN_FILENO, payload + length, room - length)) != 0) {
        if (got < 0 && errno == EINTR)
            continue;
        if (got < 0)
            fail_to_read_input();
        length += (size_t)got;
    }
    return length;
}

/* A kind or a length that the log would refuse whatever it holds is refused before the recovery writes. */
int append(uint64_t kind, const char *text)
{
    static char payload[DRIVELOG_MAX_PAYLOAD + 1];
    asked_kind = kind;
    if (kind == 0 || kind > DRIVELOG_MAX_KIND)
        refuse(DRIVELOG_ARGUMENT);
    asked_length = text == NULL ? read_payload(payload, sizeof payload) : strlen(text);
    if (asked_length > DRIVELOG_MAX_PAYLOAD)
        refuse(DRIVELOG_ARGUMENT);
    power_up();
    uint64_t lsn = granted(put_record(kind, text == NULL ? payload : text, asked_length, 1));
    need_files();
    printf("%" PRIu64 " durable\n", lsn);
    return done(DONE);
}

/* ---------------------------------------------------------------- a record for each line */

/* How the lines end, or that one is there. */
enum input { LINE, END, TOO_LONG, UNREADABLE, STOPPED };

static int stop;                      /* the signal that ends the writer, 0 as long as there is none; a closed pipe counts as SIGPIPE */
static int input_error, output_error; /* errno of the standard stream that failed, else 0 */
static int signals;                   /* a descriptor from which signals are read */
static int pipe_ignored;              /* the caller ignores SIGPIPE */
static sigset_t held_back;

/* Signals wait until the writer looks for them, so that none ends it between two ops. One that the caller ignores stays ignored. */
static void hold_signals(void)
{
    static const int numbers[] = {SIGINT, SIGTERM, SIGHUP};
    sigemptyset(&held_back);
    for (size_t i = 0; i < sizeof numbers / sizeof numbers[0]; i++) {
        struct sigaction old;
        if (sigaction(numbers[i], NULL, &old) == 0 && old.sa_handler != SIG_IGN)
            sigaddset(&held_back, numbers[i]);
    }
    pipe_ignored = signal(SIGPIPE, SIG_IGN) == SIG_IGN;
    sigprocmask(SIG_BLOCK, &held_back, NULL);
    signals = signalfd(-1, &held_back, SFD_CLOEXEC | SFD_NONBLOCK);
    if (signals < 0)
        fail(strerror(errno));
}

/* Waits until a descriptor is ready; 0 if a signal comes first, or nobody reads standard output any more. */
static int ready(int descriptor, short events)
{
    struct pollfd watched[] = {{signals, POLLIN, 0}, {STDOUT_FILENO, 0, 0}, {descriptor, events, 0}};
    struct signalfd_siginfo pending;
    while (poll(watched, 3, -1) < 0 && errno == EINTR) {
    }
    if ((watched[0].revents & POLLIN) != 0 && read(signals, &pending, sizeof pending) == (ssize_t)sizeof pending)
        stop = (int)pending.ssi_signo;
    else if ((watched[1].revents & POLLERR) != 0)
        stop = SIGPIPE;
    return stop == 0;
}

/* The next line, without its line feed. No more of it is held than a record can have; the last one needs no line feed. */
static enum input next_line(const char **line, size_t *length)
{
    static char bytes[MAX_LINE];
    static size_t start, count;
    static int ended;
    for (;;) {
        const char *feed = memchr(bytes + start, '\n', count);
        if (feed != NULL || (ended && count > 0)) {
            *line = bytes + start;
            *length = feed != NULL ? (size_t)(feed - *line) : count;
            start += *length + (feed != NULL);
            count -= *length + (feed != NULL);
            return LINE;
        }
        if (ended)
            return END;
        if (count == sizeof bytes)
            return TOO_LONG;
        memmove(bytes, bytes + start, count);
        start = 0;
        if (!ready(STDIN_FILENO, POLLIN))
            return STOPPED;
        ssize_t got = read(STDIN_FILENO, bytes + count, sizeof bytes - count);
        if (got < 0 && errno != EINTR && errno != EAGAIN) {
            input_error = errno;
            return UNREADABLE;
        }
        ended = got == 0;
        count += got > 0 ? (size_t)got : 0;
    }
}

/* What is wrong with a line that is to be 'KIND TEXT', or null; TEXT is then the bytes from `text` to the line's end. */
static const char *parse(const char *line, size_t length, uint64_t *kind, const char **text)
{
    size_t digits = read_number(line, length, kind);
    if (length == 0)
        return "is empty";
    if (line[length - 1] == '\r')
        return "ends with CR LF, not with LF alone";
    if (digits == 0 || (digits < length && line[digits] != ' '))
        return "is not KIND TEXT";
    *text = line + digits + (digits < length);
    return NULL;
}

static void say(uint64_t lsn, int durable)
{
    if (dprintf(STDOUT_FILENO, "%" PRIu64 " %s\n", lsn, durable ? "durable" : "deferred") >= 0)
        return;
    output_error = errno;
    if (errno == EPIPE)
        stop = SIGPIPE;
}

/* Whether standard output can be written without waiting: a writer that is stopped waits for nobody. */
static int output_free(void)
{
    struct pollfd output = {STDOUT_FILENO, POLLOUT, 0};
    return poll(&output, 1, 0) == 1 && (output.revents & (POLLOUT | POLLERR)) == POLLOUT;
}

/* Says to the user why the writer ends, and what is durable. */
static void say_end(const char *why, uint64_t last)
{
    fprintf(stderr, "drivelog: %s: %s; ", path, why);
    if (last == 0)
        fputs("no record was written\n", stderr);
    else
        fprintf(stderr, "all records up to LSN %" PRIu64 " are durable\n", last);
}

/* Ends the writer as the signal would have. */
static int end_by_signal(uint64_t last)
{
    char text[100];
    snprintf(text, sizeof text, "stopped by signal %d (%s)", stop, strsignal(stop));
    say_end(text, last);
    handle_close(&drive);
    if (stop == SIGPIPE && pipe_ignored)
        return NO_OUTPUT;
    signal(stop, SIG_DFL);
    kill(getpid(), stop);
    sigprocmask(SIG_UNBLOCK, &held_back, NULL);
    return 128 + stop;
}

static int end_without_output(uint64_t last)
{
    char text[100];
    snprintf(text, sizeof text, "standard output cannot be written: %s", strerror(output_error));
    say_end(text, last);
    return done(NO_OUTPUT);
}

/* How the lines ended. `wrong` says what is wrong with line number `count`, if anything; for a refusal it is in the reply. */
static int end_of_lines(enum input input, const char *wrong, uint64_t count)
{
    if (input == UNREADABLE) {
        errno = input_error;
        fail_to_read_input();
    }
    if (wrong == NULL && input != TOO_LONG)
        return done(DONE);
    if (input == TOO_LONG) {
        wrong = "is longer than a record can be";
        count++;
    }
    fprintf(stderr, "drivelog: line %" PRIu64 " of standard input %s\n", count, wrong);
    if (drive.reply[DRIVELOG_REPLY_NUMBER] != 0)
        say_refusal();
    return done(REFUSED);
}

/* Makes records up to an LSN durable after all, and says so unless nobody can read it now. The reply stays as it is. */
static void settle(uint64_t last)
{
    uint64_t kept[DRIVELOG_REPLY_WORDS];
    memcpy(kept, drive.reply, sizeof kept);
    granted(handle_force(&drive, last, 1));
    need_files();
    memcpy(drive.reply, kept, sizeof kept);
    if (output_error == 0 && (stop == 0 ? ready(STDOUT_FILENO, POLLOUT) : output_free()))
        say(last, 1);
}

/* Every line is a record until one is wrong or refused, or the writer is stopped; what went before is made durable in any case. */
int write_lines(uint64_t frequency)
{
    const char *line = NULL, *text = NULL, *wrong = NULL;
    size_t length = 0;
    uint64_t kind, count = 0, last = 0, said = 0; /* said: the LSN that was last said to be durable */
    enum input input = LINE;

    power_up();
    hold_signals();
    while (stop == 0 && output_error == 0 && (input = next_line(&line, &length)) == LINE) {
        count++;
        wrong = parse(line, length, &kind, &text);
        int64_t lsn = wrong == NULL ? put_record(kind, text, (size_t)(line + length - text), frequency) : 0;
        if (lsn < 0)
            wrong = "is refused";
        if (wrong != NULL)
            break;
        last = (uint64_t)lsn;
        int durable = is_durable(last);
        if (!ready(STDOUT_FILENO, POLLOUT))
            break;
        say(last, durable);
        said = durable ? last : said;
    }
    if (last != said)
        settle(last);
    if (stop != 0)
        return end_by_signal(last);
    if (output_error != 0)
        return end_without_output(last);
    return end_of_lines(input, wrong, count);
}
