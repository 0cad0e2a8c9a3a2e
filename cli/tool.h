/* tool.h: what the files of the command-line tool share. drivelog.c has the command line, message.c what goes wrong, in words; read.c,
 * export.c, check.c, draw.c, cuts.c, write.c and load.c have the commands. */

#ifndef TOOL_H
#define TOOL_H

#include "handle.h"

enum status {
    DONE = 0,
    REFUSED = 1,        /* by the log, or the file or standard input cannot be had */
    WRONG_LINE = 2,     /* the command line */
    OPEN_ELSEWHERE = 3, /* another process has the file */
    NO_OUTPUT = 4       /* standard output cannot be written */
};

/* The words before the ring, and those of one copy of the superline among them (docs/FORMAT.md). */
enum {
    SUPERLINE_WORDS = 24,
    COPY_WORDS = 8 /* from one copy to the next; copy 0 begins there too */
};
enum { COPY_FIRST, COPY_RING, COPY_HEAD_POS, COPY_HEAD_LSN, COPY_EPOCH, COPY_CHECK };
#define MAX_LSN (((uint64_t)1 << 62) - 1)

/* The command line: FILE as it is given, and the one path or the three that it names. */
extern const char *path;
extern char *paths[HANDLE_MODULES];
extern size_t path_count;
extern uint64_t wait_seconds;

/* The log. A command that reads opens no module and has the images alone. */
extern struct handle drive;
/* The bytes of each file. */
extern uint64_t file_bytes[HANDLE_MODULES];

#define IMAGE drive.images[drive.chosen], drive.words
#define REPLY drive.reply, DRIVELOG_REPLY_WORDS

/* ---------------------------------------------------------------- message.c */

/* A wrong command line. The format is printf's. */
__attribute__((noreturn, format(printf, 1, 2))) void usage(const char *format, ...);
/* Something is wrong with the file. */
_Noreturn void fail(const char *what);
/* The same, for what errno says; and that alone, in words. */
_Noreturn void fail_by_system(void);
const char *system_in_words(int error);
/* Standard input cannot be read, and errno says why. */
_Noreturn void fail_to_read_input(void);

/* What the command asked the log for, so that a refusal can name it. */
extern uint64_t asked_kind, asked_length, asked_lsn;

const char *test_word(uint64_t test);
const char *test_in_words(uint64_t test);
/* The refusal in the reply, on standard error. */
void say_refusal(void);
/* The same in words alone, of the chosen image; the text is in the room, or one that is always there. */
const char *refusal_in_words(char *text, size_t room);
/* The chosen image, and whether a copy of a superline has the check of its words. */
const uint64_t *chosen_image(void);
int has_its_check(const uint64_t *copy);
/* What a call answered; a refusal, and too few modules, are said and end the program. */
uint64_t granted(int64_t answer);
/* Says, once of each, which of three modules are absent or out of step. */
void say_modules(void);
/* Ends the program with a refusal that the log would give whatever it holds. */
_Noreturn void refuse(int number);

/* ---------------------------------------------------------------- read.c */

/* Reads the files into the images; of three the chosen one is found. The one that tries returns -1 with errno if they cannot be had. */
void read_images(void);
int try_read_images(void);
int64_t next(uint64_t *cursor, uint64_t *record);
/* A record as a line of a listing. */
void say_record(uint64_t lsn, uint64_t kind, uint64_t length, const uint8_t *payload);
/* Whether to try once more to lock the files: errno says that another process has one, and there is time left. */
int try_again(void);

int list(void);
int orphans(void);
int info(void);

/* ---------------------------------------------------------------- export.c, check.c, draw.c, cuts.c, load.c */

enum shape { SHAPE_TEXT, SHAPE_CSV, SHAPE_JSON };
/* The records of so many files, all kinds for kind 0. */
int export_files(const char *const *names, int count, enum shape shape, uint64_t kind);
int check_files(const char *const *names, int count, int verbose);
int why(const char *name, const uint64_t *lsns, int count);
int draw_files(const char *const *names, int count);
/* What every crash of the ops in a file leaves of the module; or the image that one of them leaves, as a new file. */
int cuts(const char *ops_name, int verbose);
int write_cut(const char *ops_name, uint64_t number, const char *output);
int load(const char *listing, const char *name);

/* The descriptor of a file, or standard input for "-", to be read; `what` says what it holds. The other one ends the program by errno. */
int open_input(const char *what, const char *name);
_Noreturn void fail_to_read(const char *what, const char *name);
/* Puts ops that store every word and then make all of them safe: how many. */
size_t put_stores(uint64_t *ops, const uint64_t *from, size_t count);

/* ---------------------------------------------------------------- write.c */

int format(uint64_t asked_words);
int append(uint64_t kind, const char *text);
int write_lines(uint64_t frequency);
int release(uint64_t lsn);
int release_all(void);
int recover(void);

/* ---------------------------------------------------------------- drivelog.c */

/* Makes FILE the one that commands are about: it names three modules if it has two commas and a name beside each. */
void name_files(const char *name);
/* The decimal number below 2^64 at the front of so many characters, digits only: how many digits it has, 0 if it is none. */
size_t read_number(const char *text, size_t length, uint64_t *value);

#endif
