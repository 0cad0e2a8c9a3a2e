/* reader.h: a file's log read to its end and held, for the commands that take several files or say more than its records. The records
 * are found by the proved calls drivelog_open and drivelog_next, what stands after the end by drivelog_next too. */

#ifndef READER_H
#define READER_H

#include "tool.h"

/* What reading a file, or the three modules of a log, found. The words are in the chosen image until the next one is read. */
struct reading {
    int error;     /* errno if the file cannot be had, else 0 */
    int64_t found; /* 0 at the log's end; minus the number of the refusal that stopped it */
    uint64_t ring; /* its words; 0 if no log begins here */
    uint64_t head_pos, head_lsn;
    uint64_t cursor[DRIVELOG_CURSOR_WORDS]; /* at the end, or at what stopped the reading */
    uint64_t count, listed;                 /* records found, and those of them that are not released */
    uint64_t after;                         /* whole records from the end on, as drivelog_next takes them once their marks are set */
    uint64_t after_marked;                  /* those of them whose mark is set: they come after one whose mark is not */
    uint64_t records[2 * DRIVELOG_MAX_RECORDS][DRIVELOG_RECORD_WORDS]; /* those found, then those after the end */
};

/* Reads the file `name`, or standard input for "-". `path` then is this name, and the reply has the refusal, if there is one. */
void read_log(const char *name, struct reading *reading);
/* Looks for whole records after the end, of a log that has one. */
void look_after_end(struct reading *reading);
/* Its status, and of two the one that says more. */
int status_of(const struct reading *reading);
int worse(int status, int other);
/* How it ends, in one word: end, damaged, toomany, refused or unreadable; and in words. */
const char *ending_word(const struct reading *reading);
const char *ending_in_words(const struct reading *reading, char *text, size_t room);
/* Says on standard error what is wrong with it, if anything. */
void say_ending(const struct reading *reading);

int is_listed(const uint64_t *record);
uint64_t size_words(const uint64_t *record);
/* Copies a record's payload, which has room for every payload. */
void copy_payload(const uint64_t *record, uint8_t *payload);
/* The LSN that a replacement names in its first 8 bytes, 0 of any other record; and that, though no earlier listed record has it. */
uint64_t named_by(const uint64_t *record);
uint64_t missing_inspection(const struct reading *reading, uint64_t index);

/* Words that are free, of a log that has an end; and the longest payload that a new record can have, -1 if there can be none. */
uint64_t room_words(const struct reading *reading);
int64_t longest_payload(const struct reading *reading);

/* Writes a file's name to standard output with no control character in it, as the text of export has it. */
void put_name(const char *name);
/* The bytes of the character at the front of a text, 0 if it is no UTF-8. */
size_t character_bytes(const uint8_t *text, size_t left);
/* Whether a text is UTF-8 with no control character but tabs and ends of lines. */
int is_printable(const uint8_t *text, size_t length);

/* On standard error, if that is a terminal, standard output is none and a second has passed: how many files are done. */
void say_progress(int done, int count);

#endif
