/* drivelog: a log in a file, from the command line. `drivelog --help` says what it does.
 *
 * It is built on the proved calls of include/drivelog.h and on driver/handle.h, by which their ops are carried out. This file has the command
 * line; tool.h says where the commands are. */

#define _DEFAULT_SOURCE
#include "tool.h"

#include <errno.h>
#include <fcntl.h>
#include <limits.h>
#include <signal.h>
#include <stdio.h>
#include <stdlib.h>
#include <string.h>
#include <sys/stat.h>
#include <unistd.h>

const char *path;
char *paths[HANDLE_MODULES];
size_t path_count;
uint64_t wait_seconds;
struct handle drive;
uint64_t file_bytes[HANDLE_MODULES];

/* ---------------------------------------------------------------- the commands */

/* Options that a command takes. Every command takes --help. */
enum { TAKES_WAIT = 1, TAKES_FREQUENCY = 2, TAKES_SHAPE = 4, TAKES_KIND = 8, TAKES_VERBOSE = 16, TAKES_IMAGE = 32 };
enum { MOST_ARGUMENTS = 3 };

/* What the command is given: its arguments, FILE first, and options. `given` has all arguments, also those after the last that has a name
 * of its own. */
static const char *argument[MOST_ARGUMENTS];
static const char **given;
static int given_count;
static uint64_t frequency = 1, kind_asked, crash_asked;
static const char *image_file; /* where the image of that crash goes, null if none is asked for */
static enum shape shape_asked;
static int verbose;

struct command {
    const char *name;
    const char *arguments[MOST_ARGUMENTS]; /* their names; one in brackets may be left out, one with two dots may come again */
    int options;
    int (*run)(const struct command *command);
    const char *help;
};

/* An argument that has to be a number; `name` is what it is called. */
static uint64_t number_in(const struct command *command, const char *name, const char *text)
{
    uint64_t value;
    size_t length = strlen(text);
    if (length == 0 || read_number(text, length, &value) != length)
        usage("%s: %s is a decimal number below 2^64, and '%s' is not", command->name, name, text);
    return value;
}

static uint64_t number(const struct command *command, int index) { return number_in(command, command->arguments[index], argument[index]); }

/* All arguments after the first are LSNs. */
static int run_why(const struct command *command)
{
    uint64_t *lsns = calloc((size_t)given_count, sizeof *lsns);
    if (lsns == NULL)
        fail(strerror(errno));
    for (int i = 1; i < given_count; i++)
        lsns[i - 1] = number_in(command, "LSN", given[i]);
    int status = why(path, lsns, given_count - 1);
    free(lsns);
    return status;
}

static int run_list(const struct command *command) { return (void)command, list(); }
static int run_orphans(const struct command *command) { return (void)command, orphans(); }
static int run_export(const struct command *command) { return (void)command, export_files(given, given_count, shape_asked, kind_asked); }
static int run_check(const struct command *command) { return (void)command, check_files(given, given_count, verbose); }
static int run_draw(const struct command *command) { return (void)command, draw_files(given, given_count); }
static int run_cuts(const struct command *command)
{
    (void)command;
    return image_file == NULL ? cuts(argument[1], verbose) : write_cut(argument[1], crash_asked, image_file);
}
static int run_info(const struct command *command) { return (void)command, info(); }
static int run_format(const struct command *command) { return format(number(command, 1)); }
static int run_load(const struct command *command) { return (void)command, load(argument[0], argument[1]); }
static int run_append(const struct command *command) { return append(number(command, 1), argument[2]); }
static int run_write(const struct command *command) { return (void)command, write_lines(frequency); }
static int run_release(const struct command *command) { return release(number(command, 1)); }
static int run_release_all(const struct command *command) { return (void)command, release_all(); }
static int run_recover(const struct command *command) { return (void)command, recover(); }

static const struct command commands[] = {
    {"list", {"FILE"}, TAKES_WAIT, run_list,
     "the records, oldest first: LSN, kind, length, data in hex; then how the log ends"},
    {"why", {"FILE", "LSN.."}, TAKES_WAIT, run_why,
     "why each of these records is listed or not, in a sentence (logwhy has bare words)"},
    {"orphans", {"FILE"}, TAKES_WAIT, run_orphans,
     "the LSNs of the records of kind 600 (replacements) whose first 8 bytes name another\n"
     "      number than 0 and than an earlier record's LSN; then how the log ends"},
    {"info", {"FILE"}, TAKES_WAIT, run_info,
     "head, end, epoch, records, room, and the ring in one line: H head, # listed,\n"
     "      r released, E end, . free; X damage, and then ? for what nobody knows. Of three\n"
     "      modules first a line each: its epoch, its end, what differs, which is chosen"},
    {"export", {"FILE.."}, TAKES_SHAPE | TAKES_KIND | TAKES_WAIT, run_export,
     "the records of many files as one table: file, what, lsn, epoch, kind, length, data in\n"
     "      hex, and the text, if the payload is UTF-8 with no control characters but tabs and\n"
     "      ends of lines. --csv as RFC 4180 has it, --json a JSON object a line, --text with\n"
     "      tabs, which is the default; --kind K only that kind. '-' is standard input.\n"
     "      'what' is 'record', and in the last row of each file how its log ends: 'end',\n"
     "      'damaged', 'toomany', 'refused' or 'unreadable', with lsn and epoch of the end and\n"
     "      a text that says why. Records before damage are given; the status then is 1"},
    {"check", {"FILE.."}, TAKES_VERBOSE | TAKES_WAIT, run_check,
     "whether all is well, a line a file: all tests, whole records after the end whose mark\n"
     "      is not set, and replacements (kind 600) that name an inspection which is not listed.\n"
     "      -v says every test, epochs and restarts, and room. Status 0 only if all is well.\n"
     "      '-' is standard input"},
    {"draw", {"FILE", "[FILE]", "[FILE]"}, TAKES_WAIT, run_draw,
     "the ring as a picture in SVG: head, records by kind, released ones, end, free words,\n"
     "      whole records after the end, epochs as shades. Two or three files are copies of one\n"
     "      log, drawn beside each other with what differs. '-' is standard input"},
    {"cuts", {"FILE", "OPS"}, TAKES_VERBOSE | TAKES_IMAGE | TAKES_WAIT, run_cuts,
     "every crash while these ops are carried out on a module that holds FILE: each is\n"
     "      recovered, on a copy, and listed. OPS has the words of an op buffer, 8 bytes each,\n"
     "      least significant first, three an op: 1 WORD VALUE stores, 2 WORD COUNT flushes.\n"
     "      '-' is standard input. What the recoveries find, a line each: how many crashes\n"
     "      leave it, the first one's number, how many ops are done there, and the LSNs. -v has\n"
     "      the records too. --image N OUT makes a new file of what crash N leaves, and no\n"
     "      table. At most 4096 crashes. Status 1 if a recovery is refused"},
    {"format", {"FILE", "WORDS"}, 0, run_format,
     "a new file with an empty log, or three, 40 to 8192 words of 8 bytes. A file gets its\n"
     "      name when it is whole; one that is there already is not touched"},
    {"load", {"LISTING", "FILE"}, 0, run_load,
     "a new file of 8192 words with the records of a listing, as list prints it; '-' is\n"
     "      standard input. The program logload, beside this one, reads the listing"},
    {"append", {"FILE", "KIND", "[TEXT]"}, TAKES_WAIT, run_append,
     "one record, durable at once. The payload is TEXT, or standard input to its end,\n"
     "      byte for byte; at most 1024 bytes"},
    {"write", {"FILE"}, TAKES_WAIT | TAKES_FREQUENCY, run_write,
     "a record for each line 'KIND TEXT' of standard input. -f F makes them durable at\n"
     "      every F-th LSN (1 if not given) and at the end: 'N durable' says so of all\n"
     "      records up to LSN N, 'N deferred' that a crash may lose it\n"
     "\n"
     "      A line ends with LF; the last one needs none. KIND is decimal digits, then\n"
     "      comes one space or the end of the line. TEXT is every byte after that space,\n"
     "      NUL and further spaces too, and may be empty. A line that is empty, ends with\n"
     "      CR LF, is not KIND TEXT, is too long, or is refused ends the command with\n"
     "      status 1, with all lines before it durable\n"
     "\n"
     "      SIGINT, SIGTERM, SIGHUP, or a closed pipe at standard output: what is deferred\n"
     "      is made durable, standard error says up to which LSN, and the command ends by\n"
     "      that signal. A line that was not read to its end is dropped"},
    {"release", {"FILE", "LSN"}, TAKES_WAIT, run_release, "gives a record back"},
    {"release-all", {"FILE"}, TAKES_WAIT, run_release_all, "gives all records back"},
    {"recover", {"FILE"}, TAKES_WAIT, run_recover, "the recovery alone"},
};
enum { COMMANDS = sizeof commands / sizeof commands[0], READING_COMMANDS = 8 };

/* ---------------------------------------------------------------- help */

static void say_command(const struct command *command)
{
    printf("  drivelog %s", command->name);
    for (int i = 0; i < MOST_ARGUMENTS && command->arguments[i] != NULL; i++)
        printf(" %s", command->arguments[i]);
    static const struct { int option; const char *text; } options[] = {{TAKES_FREQUENCY, " [-f F]"},
                                                                       {TAKES_SHAPE, " [--csv | --json | --text]"},
                                                                       {TAKES_KIND, " [--kind K]"},
                                                                       {TAKES_VERBOSE, " [-v]"},
                                                                       {TAKES_IMAGE, " [--image N OUT]"},
                                                                       {TAKES_WAIT, " [--wait SECONDS]"}};
    for (size_t i = 0; i < sizeof options / sizeof options[0]; i++)
        if (command->options & options[i].option)
            fputs(options[i].text, stdout);
    printf("\n      %s\n", command->help);
}

static const char conventions[] =
    "\n"
    "FILE is one module, or three, as A,B,C: a name with two commas. Of three, one that is\n"
    "not there is said on standard error, and the command goes on if two can be read. What\n"
    "two have carried out is durable; every command that writes repairs the third.\n"
    "A kind is 1 to 65535. Options may be anywhere; after -- an argument may begin with '-'.\n"
    "A file is for one writing process, or several reading ones, at a time: another is kept\n"
    "out, at once or after it has waited SECONDS for its turn. Nothing is said to be durable\n"
    "in a file that was replaced, cut or written by another program meanwhile.\n"
    "\n"
    "status:\n"
    "  0  done\n"
    "  1  refused, or the file or standard input cannot be had. Standard error says why;\n"
    "     'refused N' has the number of the log's refusal. What is refused for its arguments\n"
    "     alone (kind 0, 1025 bytes, LSN 0) is refused before anything is written\n"
    "  2  a wrong command line; nothing is done\n"
    "  3  another process has the file open; nothing is done\n"
    "  4  standard output cannot be written. If it is closed from the start, nothing is done\n";

static const char examples[] =
    "\n"
    "examples:\n"
    "  drivelog format module.log 1024\n"
    "  drivelog append module.log 1 '4120 hours'\n"
    "  printf '2 8.7 A\\n2 9.1 A\\n' | drivelog write module.log -f 8\n"
    "  drivelog list module.log\n"
    "  drivelog release module.log 1 --wait 5\n"
    "  drivelog format a.log,b.log,c.log 1024\n"
    "  drivelog check -v copies/*.log\n"
    "  drivelog export --csv copies/*.log > copies.csv\n"
    "  drivelog draw module.log > module.svg\n"
    "  drivelog cuts module.log force.ops\n";

/* The refusals that a command can meet; the message itself names the number, the record or the size. */
static void say_refusals(void)
{
    static const int numbers[] = {DRIVELOG_IMAGE_SIZE,    DRIVELOG_ARGUMENT,   DRIVELOG_SUPERLINE, DRIVELOG_NOT_LIVE, DRIVELOG_WRONG_STAGE,
                                  DRIVELOG_NUMBERS_SPENT, DRIVELOG_TABLE_FULL, DRIVELOG_NO_ROOM,   DRIVELOG_DAMAGED,  DRIVELOG_TOO_MANY,
                                  DRIVELOG_TOO_FEW_COPIES, DRIVELOG_BAD_OP,   DRIVELOG_TOO_MANY_CRASHES, DRIVELOG_NO_SUCH_CRASH};
    puts("\nrefused:");
    for (size_t i = 0; i < sizeof numbers / sizeof numbers[0]; i++)
        printf("  %-2d %s\n", numbers[i], drivelog_refusal_text(numbers[i]));
}

static int say_help(const struct command *command)
{
    if (command != NULL) {
        say_command(command);
        fputs(conventions, stdout);
        say_refusals();
        return DONE;
    }
    puts("drivelog: a crash-safe log of records in a file\n\nreading:");
    for (int i = 0; i < COMMANDS; i++) {
        if (i == READING_COMMANDS)
            puts("writing; all but format and load recover first, as a drive does at power-up:");
        say_command(&commands[i]);
    }
    puts("  drivelog [COMMAND] --help\n  drivelog --version");
    fputs(conventions, stdout);
    say_refusals();
    fputs(examples, stdout);
    return DONE;
}

/* ---------------------------------------------------------------- the command line */

size_t read_number(const char *text, size_t length, uint64_t *value)
{
    uint64_t sum = 0;
    size_t i = 0;
    for (; i < length && text[i] >= '0' && text[i] <= '9'; i++) {
        uint64_t digit = (uint64_t)(text[i] - '0');
        if (sum > (UINT64_MAX - digit) / 10)
            return 0;
        sum = 10 * sum + digit;
    }
    *value = sum;
    return i;
}

static const struct command *command_called(const char *name)
{
    for (int i = 0; i < COMMANDS; i++)
        if (strcmp(commands[i].name, name) == 0)
            return &commands[i];
    usage("there is no command '%s'", name);
}

/* The words of the command line, sorted: what each option was given, and the rest in its order. */
struct line {
    const char **plain; /* the command and its arguments */
    int plain_count;
    const char *wait, *frequency, *kind, *shape, *image, *image_file;
    int help, version, verbose;
};

/* Takes an option's value: the rest of its own word after '=', or the next word. */
static void take_value(const char **value, const char *name, const char *rest, char ***at)
{
    if (*value != NULL)
        usage("%s is given twice", name);
    if (*rest == '=')
        *value = rest + 1;
    else if (*++*at != NULL)
        *value = **at;
    else
        usage("%s needs a number", name);
}

/* An option with a number and a file. */
static void take_image(struct line *line, const char *rest, char ***at)
{
    take_value(&line->image, "--image", rest, at);
    if (*++*at == NULL)
        usage("--image needs a number and a file");
    line->image_file = **at;
}

static void take_shape(const char **shape, const char *word)
{
    if (*shape != NULL && strcmp(*shape, word) != 0)
        usage("only one of %s and %s can be", *shape, word);
    *shape = word;
}

static void take_option(struct line *line, char ***at)
{
    const char *word = **at;
    if (strcmp(word, "--help") == 0 || strcmp(word, "-h") == 0)
        line->help = 1;
    else if (strcmp(word, "--version") == 0)
        line->version = 1;
    else if (strcmp(word, "-v") == 0)
        line->verbose = 1;
    else if (strcmp(word, "--csv") == 0 || strcmp(word, "--json") == 0 || strcmp(word, "--text") == 0)
        take_shape(&line->shape, word);
    else if (strcmp(word, "-f") == 0)
        take_value(&line->frequency, "-f", "", at);
    else if (strcmp(word, "--kind") == 0 || strncmp(word, "--kind=", 7) == 0)
        take_value(&line->kind, "--kind", word + 6, at);
    else if (strcmp(word, "--wait") == 0 || strncmp(word, "--wait=", 7) == 0)
        take_value(&line->wait, "--wait", word + 6, at);
    else if (strcmp(word, "--image") == 0 || strncmp(word, "--image=", 8) == 0)
        take_image(line, word + 7, at);
    else
        usage("there is no option '%s'; after -- an argument may begin with '-'", word);
}

static struct line sort_words(int count, char **words_of_line)
{
    static const char **plain; /* as long as the program runs, with nulls after the last */
    int options = 1;
    plain = calloc((size_t)count + MOST_ARGUMENTS + 1, sizeof *plain);
    if (plain == NULL)
        usage("the command line is too long");
    struct line line = {plain, 0, NULL, NULL, NULL, NULL, NULL, NULL, 0, 0, 0};
    for (char **at = words_of_line; *at != NULL; at++) {
        if (options && strcmp(*at, "--") == 0)
            options = 0;
        else if (options && (*at)[0] == '-' && (*at)[1] != '\0')
            take_option(&line, &at);
        else
            line.plain[line.plain_count++] = *at;
    }
    return line;
}

static uint64_t option_number(const char *text, const char *name, uint64_t least)
{
    uint64_t value;
    size_t length = strlen(text);
    if (length == 0 || read_number(text, length, &value) != length || value < least)
        usage("%s is a decimal number of %s or more, and '%s' is not", name, least == 0 ? "0" : "1", text);
    return value;
}

/* An option that is given has to be one that the command takes. */
static void need_option(const struct command *command, int option, const char *name, int is_given)
{
    if (is_given && (command->options & option) == 0)
        usage("%s has no option %s", command->name, name);
}

void name_files(const char *name)
{
    static char names[3 * PATH_MAX];
    size_t length = strlen(name);
    path = name;
    path_count = 1;
    paths[0] = (char *)path;
    const char *first = strchr(path, ','), *second = first == NULL ? NULL : strchr(first + 1, ',');
    if (second == NULL || strchr(second + 1, ',') != NULL || length >= sizeof names)
        return;
    if (first == path || second == first + 1 || second[1] == '\0')
        return;
    memcpy(names, path, length + 1);
    names[first - path] = names[second - path] = '\0';
    path_count = HANDLE_MODULES;
    paths[0] = names;
    paths[1] = names + (first + 1 - path);
    paths[2] = names + (second + 1 - path);
}

static void take_arguments(const struct command *command, const struct line *line)
{
    int most = 0, more = 0;
    for (; most < MOST_ARGUMENTS && command->arguments[most] != NULL; most++) {
        const char *name = command->arguments[most];
        int length = (int)strcspn(name, ".");
        argument[most] = line->plain[most + 1];
        if (argument[most] == NULL && (most == 0 || name[0] != '['))
            usage("%s: %.*s is missing", command->name, length, name);
        more = name[length] == '.';
    }
    if (line->plain_count - 1 > most && !more)
        usage("%s: '%s' is one argument too many", command->name, line->plain[most + 1]);
    given = line->plain + 1;
    given_count = line->plain_count - 1;
    need_option(command, TAKES_WAIT, "--wait", line->wait != NULL);
    need_option(command, TAKES_FREQUENCY, "-f", line->frequency != NULL);
    need_option(command, TAKES_SHAPE, line->shape, line->shape != NULL);
    need_option(command, TAKES_KIND, "--kind", line->kind != NULL);
    need_option(command, TAKES_VERBOSE, "-v", line->verbose);
    need_option(command, TAKES_IMAGE, "--image", line->image != NULL);
    verbose = line->verbose;
    shape_asked = line->shape == NULL || line->shape[2] == 't' ? SHAPE_TEXT : line->shape[2] == 'c' ? SHAPE_CSV : SHAPE_JSON;
    kind_asked = line->kind == NULL ? 0 : option_number(line->kind, "--kind", 1);
    if (kind_asked > DRIVELOG_MAX_KIND)
        usage("--kind is 1 to %d, and '%s' is not", DRIVELOG_MAX_KIND, line->kind);
    crash_asked = line->image == NULL ? 0 : option_number(line->image, "--image", 0);
    image_file = line->image_file;
    wait_seconds = line->wait == NULL ? 0 : option_number(line->wait, "--wait", 0);
    frequency = line->frequency == NULL ? 1 : option_number(line->frequency, "-f", 1);
    name_files(argument[0]);
}

/* Whether a file that is open, or another name, is one of the log's own files. */
static int is_file(const char *name, const struct stat *other)
{
    struct stat log;
    return stat(name, &log) == 0 && S_ISREG(log.st_mode) && log.st_dev == other->st_dev && log.st_ino == other->st_ino;
}

/* Whether a standard stream writes to a log's own file: what is printed there would get into the log. */
static int writes_to_log(int stream)
{
    struct stat other;
    int found = 0;
    for (size_t i = 0; fstat(stream, &other) == 0 && i < path_count; i++)
        found |= is_file(paths[i], &other);
    return found;
}

/* Three modules that are three files. */
static void need_three_files(void)
{
    struct stat other;
    for (size_t i = 1; i < path_count; i++)
        for (size_t j = 0; j < i; j++)
            if (strcmp(paths[i], paths[j]) == 0 || (stat(paths[i], &other) == 0 && is_file(paths[j], &other)))
                fail("two of the three modules are one file");
}

static void need_other_streams(void)
{
    int output = writes_to_log(STDOUT_FILENO), error = writes_to_log(STDERR_FILENO);
    if (!output && !error)
        return;
    if (!output || !error)
        fprintf(output ? stderr : stdout, "drivelog: %s: standard %s is the log's own file\n", path, output ? "output" : "error");
    exit(REFUSED);
}

/* Of a command that takes several files, of each. */
static void need_other_files(const struct command *command)
{
    const char *name = command->arguments[0];
    for (int i = 0; i < given_count && strstr(name, "FILE") != NULL; i++) {
        name_files(given[i]);
        need_other_streams();
        need_three_files();
        if (i + 1 < MOST_ARGUMENTS && command->arguments[i + 1] != NULL)
            name = command->arguments[i + 1];
    }
    name_files(argument[0]);
}

static int run(int count, char **words_of_line)
{
    struct line line = sort_words(count, words_of_line);
    const struct command *command = line.plain_count == 0 ? NULL : command_called(line.plain[0]);
    if (line.help)
        return say_help(command);
    if (line.version)
        return puts("drivelog " DRIVELOG_VERSION) < 0 ? NO_OUTPUT : DONE;
    if (command == NULL)
        usage("a command is needed");
    take_arguments(command, &line);
    need_other_files(command);
    return command->run(command);
}

/* A standard stream that is closed gets a descriptor with which it fails, so that no other file gets its number. Returns 0 if standard
 * output is none. */
static int open_streams(void)
{
    int mode = fcntl(STDOUT_FILENO, F_GETFL);
    for (int i = STDIN_FILENO; i <= STDERR_FILENO; i++)
        if (fcntl(i, F_GETFD) < 0 && open("/dev/null", i == STDIN_FILENO ? O_WRONLY : O_RDONLY) != i)
            return 0;
    return mode >= 0 && (mode & O_ACCMODE) != O_RDONLY;
}

int main(int count, char **words_of_line)
{
    if (!open_streams()) {
        fputs("drivelog: standard output is closed; nothing is done\n", stderr);
        return NO_OUTPUT;
    }
    /* A file that may not grow is an error of the call, and no signal. */
    signal(SIGXFSZ, SIG_IGN);
    int status = run(count, words_of_line + (count > 0));
    if (fflush(stdout) != 0 || ferror(stdout)) {
        fprintf(stderr, "drivelog: standard output cannot be written: %s\n", strerror(errno));
        return NO_OUTPUT;
    }
    return status;
}
