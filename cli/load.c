/* load.c: a file from a listing. The proved program logload reads the listing and writes the image; it is run as a child process, and has
 * to be in the folder of this tool. The image is then read to its end by the calls, and made a file as format makes one. */

#define _GNU_SOURCE /* pipe2 */
#include "tool.h"

#include "driver.h"

#include <errno.h>
#include <fcntl.h>
#include <inttypes.h>
#include <limits.h>
#include <stdio.h>
#include <stdlib.h>
#include <string.h>
#include <sys/stat.h>
#include <sys/wait.h>
#include <unistd.h>

enum { LISTING_FORM = 17, LISTING_LSN = 18 }; /* refusals that only logload gives */

/* The path of logload beside this tool. */
static const char *program(void)
{
    static char place[PATH_MAX + sizeof "logload"];
    ssize_t length = readlink("/proc/self/exe", place, PATH_MAX);
    while (length > 0 && place[length - 1] != '/')
        length--;
    strcpy(place + (length < 0 ? 0 : length), "logload");
    if (length > 0 && access(place, X_OK) == 0)
        return place;
    fprintf(stderr, "drivelog: load needs the program logload, and %s is none\n", place);
    exit(REFUSED);
}

_Noreturn void fail_to_read(const char *what, const char *name)
{
    fprintf(stderr, "drivelog: the %s %s cannot be read: %s\n", what, name, strerror(errno));
    exit(REFUSED);
}

int open_input(const char *what, const char *name)
{
    struct stat about;
    int file = strcmp(name, "-") == 0 ? STDIN_FILENO : open(name, O_RDONLY | O_CLOEXEC);
    if (file >= 0 && fstat(file, &about) == 0 && S_ISDIR(about.st_mode)) {
        errno = EISDIR;
        fail_to_read(what, name);
    }
    if (file >= 0 && (fcntl(file, F_GETFL) < 0 || (fcntl(file, F_GETFL) & O_ACCMODE) == O_WRONLY)) {
        errno = EBADF;
        fail_to_read(what, name);
    }
    if (file < 0)
        fail_to_read(what, name);
    return file;
}

/* Starts logload on a listing; the descriptor from which its answer is read. */
static int start(const char *logload, int listing, pid_t *child)
{
    int ends[2];
    if (pipe2(ends, O_CLOEXEC) != 0 || (*child = fork()) < 0)
        fail(strerror(errno));
    if (*child == 0) {
        if (dup2(listing, STDIN_FILENO) >= 0 && dup2(ends[1], STDOUT_FILENO) >= 0)
            execl(logload, "logload", (char *)NULL);
        _exit(127);
    }
    close(ends[1]);
    if (listing != STDIN_FILENO)
        close(listing);
    return ends[0];
}

/* What logload answers, and how many bytes that are. */
static size_t answer_of(const char *logload, int listing, char *answer, size_t room)
{
    pid_t child = 0;
    int from = start(logload, listing, &child), ended = 0;
    size_t length = 0;
    ssize_t got;
    while (length < room && ((got = read(from, answer + length, room - length)) > 0 || (got < 0 && errno == EINTR)))
        length += got > 0 ? (size_t)got : 0;
    close(from);
    while (waitpid(child, &ended, 0) < 0 && errno == EINTR) {
    }
    if (!WIFEXITED(ended) || WEXITSTATUS(ended) != 0)
        fail("logload did not end as it should");
    return length;
}

static _Noreturn void refuse_listing(uint64_t number)
{
    char text[200];
    const char *cause = number == LISTING_FORM  ? "a line of the listing is not in its form, or the end line is missing"
                      : number == LISTING_LSN ? "an LSN of the listing is not the next one"
                                              : drivelog_refusal_text((int64_t)number);
    snprintf(text, sizeof text, "refused %" PRIu64 ": %s", number, cause);
    fail(text);
}

size_t put_stores(uint64_t *ops, const uint64_t *from, size_t count)
{
    for (size_t i = 0; i < count; i++) {
        uint64_t *op = ops + DRIVELOG_OP_WORDS * i;
        op[0] = DRIVELOG_OP_STORE;
        op[1] = i;
        op[2] = from[i];
    }
    uint64_t *last = ops + DRIVELOG_OP_WORDS * count;
    last[0] = DRIVELOG_OP_FLUSH;
    last[1] = 0;
    last[2] = count;
    return count + 1;
}

int load(const char *listing, const char *name)
{
    static uint64_t loaded[DRIVELOG_MAX_IMAGE_WORDS + 1], ops[DRIVELOG_OP_WORDS * (DRIVELOG_MAX_IMAGE_WORDS + 1)];
    uint64_t cursor[DRIVELOG_CURSOR_WORDS], record[DRIVELOG_RECORD_WORDS], answer[DRIVELOG_REPLY_WORDS], number, count = 0;
    name_files(name);
    if (path_count != 1)
        fail("load makes one module; format and write make three");
    const char *logload = program();
    size_t length = answer_of(logload, open_input("listing", listing), (char *)loaded, sizeof loaded);
    const char *text = (const char *)loaded;
    size_t heading = strlen("refused ");
    if (length > heading && memcmp(text, "refused ", heading) == 0 && read_number(text + heading, length - heading, &number) > 0)
        refuse_listing(number);
    size_t loaded_words = length == DRIVELOG_MAX_IMAGE ? DRIVELOG_MAX_IMAGE_WORDS : 0;
    int64_t found = drivelog_open(loaded, loaded_words, cursor, DRIVELOG_CURSOR_WORDS, answer, DRIVELOG_REPLY_WORDS) < 0 ? -1 : 1;
    while (found == 1) {
        found = drivelog_next(loaded, loaded_words, cursor, DRIVELOG_CURSOR_WORDS, record, DRIVELOG_RECORD_WORDS, answer, DRIVELOG_REPLY_WORDS);
        count += found == 1;
    }
    if (found != 0)
        fail("logload gave no image");
    struct driver_module *module = driver_make(name, loaded_words, ops, put_stores(ops, loaded, loaded_words));
    if (module == NULL)
        fail(errno == EEXIST ? "it is there already; load makes a new file" : strerror(errno));
    driver_close(module);
    printf("loaded, %" PRIu64 " record%s, next LSN %" PRIu64 "\n", count, count == 1 ? "" : "s", cursor[DRIVELOG_CURSOR_LSN]);
    return DONE;
}
