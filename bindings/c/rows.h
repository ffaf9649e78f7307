/* What rows.c and git_rows.c share: the fields of a row, taken one after the other, and an answer.
 */
#ifndef ROWS_H
#define ROWS_H

#include "gix_date.h"

enum { MAX_FIELDS = 8, MAX_ANSWER = 8192 };

/* The bytes of a field, with a NUL after them. */
typedef struct field {
    char *bytes;
    size_t len;
} field;

/* Fields, and how many of them are taken. */
typedef struct arguments {
    field fields[MAX_FIELDS];
    size_t count, taken;
} arguments;

typedef struct answer {
    bool refused;
    char bytes[MAX_ANSWER];
    size_t len;
} answer;

/* What became of a call: its answer is there, the row has not its arguments, or there is no such
 * call here. */
enum outcome { ANSWERED, MALFORMED, LACKING };

#define LENGTH(array) (sizeof(array) / sizeof *(array))
#define TEXT(field) (field).bytes, (field).len

/* The name where calls differ that have to agree. No row has it. */
#define APART "CallsDiffer"

/* The whole of a file, with a NUL after it. */
field read_file(const char *name);

/* The next field; one of no bytes where there is none, and then more are taken than there are. */
field take(arguments *row);

bool to_number(const char *text, int64_t *number);

/* A time of two fields: its seconds and its offset. */
bool take_time(arguments *row, gix_date_time *time);

/* Answers a status, where it is a refusal. */
bool is_refused(uint32_t status, answer *told);

/* Answers a text, by a format of printf. */
void tell(answer *told, const char *format, ...);

/* Answers that calls differ, or that one changes what it must not. */
void tell_apart(answer *told);

/* Keeps the answer where another one is the same. */
void agree(answer *told, const answer *other);

/* The instant of a field, and the zone after it. */
bool to_moment(field moment, gix_date_instant *now, field *zone);

/* Reads the zone of a row: an offset in seconds, the name of a TZif file, or a rule. */
uint32_t read_zone(field name, gix_date_zone *zone);

/* Puts a copy of a zone into its place, and frees the one that was there. */
void in_copy(gix_date_zone *zone);

/* How lines are read: by a reader of enum gix_date_line_reader, or by one of these. */
enum { EXACT_LINES = 100, APPROXIMATE_LINES, CHECKED, IDENTITIES };

/* A reader of lines, its options, and its moment as a row has it; no text where it has none. */
typedef struct line_reader {
    uint32_t kind;
    gix_date_careful_options options;
    const char *moment;
} line_reader;

/* Keeps a text, and what the call for one text left of it, for the block of its reader at its moment. A
 * text with a newline is no line. The status of a check is 0 or 1. */
void keep_line(const line_reader *reader, field text, uint32_t status, gix_date_time time);

/* Keeps a text for the block of identity lines. */
void keep_identity(field text);

/* Reads the texts that were kept as the lines of blocks, and forgets them. Says how many there were, and
 * which blocks differ, and answers how many do. */
size_t run_lines(const char *name);

/* Makes the call of git_date.h that a row names. */
enum outcome git_call(const char *name, arguments *row, answer *told);

#endif
