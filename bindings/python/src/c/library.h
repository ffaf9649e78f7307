/* The extension gix_date._library: the calls of the package, over the library for C.
 *
 * An argument is taken by one of the `take_` functions, which answer false with an exception. What they take is dropped by the `drop_`
 * function of its type, also after a failure. A call refuses by the package's own classes (`refuse`). Only refused memory, arguments of
 * other types, and numbers that do not fit raise other exceptions. */
#ifndef LIBRARY_H
#define LIBRARY_H

#define PY_SSIZE_T_CLEAN
#include <Python.h>

#include "git_date.h"

/* ---- what a module keeps: each interpreter has a module and types of its own ---- */

enum kept {
    TIME, /* the class of times */
    ZONE, /* the type of zones that were read */
    /* names of fields */
    NAME_TIME,
    NAME_HAS_OFFSET,
    NAME_UNDERSTOOD,
    NAME_IGNORED,
    NAME_KIND,
    NAME_LOCAL,
    NAME_OFFSET,
    NAME_LINES,
    NAME_FORMAT,
    NAME_CAST,
    NAME_FROMBYTES,
    NAME_UTCOFFSET,
    NAME_DAYS,
    NAME_SECONDS,
    NAME_MICROSECONDS,
    NAME_TOORDINAL,
    NAME_HOUR,
    NAME_MINUTE,
    NAME_SECOND,
    NAME_MICROSECOND,
    NAME_MINUS_ZERO,
    /* what `connect` is given, in this order */
    MOMENT,
    READ_DATE,
    APPROXIMATE,
    DATE_MODE,
    GIT_TIME,
    EXPIRES,
    RAW_OFFSETS,
    WITHOUT_OFFSET,
    TEXTS,
    FORMATS,
    KINDS,
    REFUSALS,
    NO_DIRECTIVE,
    NAIVE,
    PARTS_IN_ZONE,
    READ_ZONE,
    NAMED_ZONE,
    KEPT, /* how many are kept */
    CONNECTED = MOMENT
};

struct state {
    PyObject *kept[KEPT];
};

/* The state of a module, or of the module of one of its types. NULL with an exception before the package has connected it. */
const struct state *state_of(PyObject *module);
const struct state *state_of_type(PyTypeObject *type);

/* ---- arguments ---- */

enum { MOST_PARAMETERS = 17 };

/* The parameters of a call. */
struct call {
    const char *name;
    int by_position; /* so many may be given by position */
    int needed;      /* so many have to be given */
    const char *parameters[MOST_PARAMETERS + 1];
};

/* The arguments in the order of the parameters, NULL for each that is not given. They are borrowed. */
bool take_arguments(const struct call *call, PyObject *const *given, Py_ssize_t count, PyObject *names, PyObject **taken);

/* An attribute by a name that is kept for ever: Python would keep each new one for a while. */
PyObject *attribute(PyObject *object, const char *name);

/* A number, as operator.index takes it. */
bool take_int64(PyObject *object, int64_t *number);
bool take_int32(PyObject *object, int32_t *number);

/* The number of an option: its index among the members of its kind. One that is not given is the first. */
bool is_option(PyObject *members, PyObject *object, uint32_t *number); /* whether an object is one */
bool take_option(PyObject *members, PyObject *option, uint32_t *number);
bool take_any_option(PyObject *members, PyObject *option, uint32_t *number);

struct text {
    PyObject *object; /* borrowed: the str or bytes */
    PyObject *owner;  /* of other bytes, or NULL */
    const char *at;
    size_t len;
};

/* A text. Halves of surrogate pairs become bytes that are no UTF-8, which the library refuses. */
bool take_text(PyObject *object, struct text *text);
void drop_text(struct text *text);

/* ---- refusals ---- */

/* Raises the refusal of a status, of a text or NULL, and of a place in it or GIT_DATE_NOTHING; MemoryError for refused memory. */
PyObject *refuse(const struct state *state, uint32_t status, const struct text *text, size_t place);

/* The refusal itself. NULL with an exception if it cannot be made. */
PyObject *refusal(const struct state *state, uint32_t status, PyObject *text, PyObject *place);

/* The index into a text of a place that counts bytes, or None. */
PyObject *index_or_none(const struct text *text, size_t place);

/* ---- times ---- */

extern PyType_Spec time_spec;

PyObject *new_time(const struct state *state, const gix_date_time *time);
bool take_time(const struct state *state, PyObject *object, gix_date_time *time);

/* Takes a GitTime. A Time has its offset in seconds, and is none. */
bool take_git_time(const struct state *state, PyObject *object, gix_date_git_time *time);

/* ---- zones and moments ---- */

extern PyType_Spec zone_spec;
struct zone;

struct moment {
    bool is_given;
    gix_date_instant now;
    struct zone *kept;   /* NULL, or a reference */
    gix_date_zone fixed; /* its zone, unless one is kept: that of an offset */
};

bool take_moment(const struct state *state, PyObject *object, struct moment *moment);
bool take_any_moment(const struct state *state, PyObject *object, struct moment *moment);
void drop_moment(struct moment *moment);

/* The zone of a moment. Any number of threads may read it at once, also without the GIL. */
const gix_date_zone *zone_of(const struct moment *moment);

/* ---- printed texts ---- */

/* What is written, and by which call. */
struct writing {
    uint32_t (*write)(const struct writing *, char *out, size_t out_len, size_t *len);
    gix_date_time time;
    gix_date_git_time git_time; /* that of a line, where this is written */
    const struct text *first, *second; /* a pattern, or a name and an email */
    uint32_t format;
    git_date_mode mode;
    size_t front;  /* so many bytes of `first` stand before a format of Git's */
    size_t *place; /* NULL, or where the fault of such a format is in `first` */
    struct moment *moment;
};

/* The text as a str, or a refusal that names `first` where that is a pattern or a format. */
PyObject *written(const struct state *state, const struct writing *writing);

/* ---- many lines ---- */

/* A part of a text. */
struct part {
    const char *at, *end;
};

/* Takes the first line off a part, without its newline, which the last may lack. */
struct part next_line(struct part *rest);

/* The numbers that may be read of a line: of a time the first three. */
enum column {
    SECONDS,
    OFFSETS,
    STATUSES,
    COLUMNS_OF_TIMES,
    MESSAGES = COLUMNS_OF_TIMES,
    STARTS, /* this one and those below are places in the source */
    NAME_ENDS,
    EMAIL_STARTS,
    EMAIL_ENDS,
    DATE_STARTS,
    DATE_ENDS,
    COLUMNS
};

/* How many bytes a number of a column has. */
size_t width_of(enum column column);

/* Lines that are read at once, and what is read of them: numbers as bytes of Python, and where these lie. What is left out is NULL. */
struct piece {
    struct part text;
    Py_ssize_t count;
    PyObject *bytes[COLUMNS];
    void *numbers[COLUMNS];
};

/* Takes three arguments, bytes and two indices into these, between which the lines stand. */
bool take_lines(PyObject *const *taken, struct piece *piece);

/* Makes room for a number of each line, which is 0. */
bool make_room(struct piece *piece, enum column column);

void drop_piece(struct piece *piece);

/* How a line was read, and the refusal of one that was refused. NULL with an exception if it cannot be made. */
uint32_t status_of(const struct piece *piece, Py_ssize_t line);
PyObject *refused_line(const struct state *state, uint32_t status, struct part line);

/* Where the numbers of lines go, by their columns. All is borrowed. */
struct outputs {
    PyObject *each[COLUMNS]; /* lists or arrays, which grow, or views of memory; NULL for what is left out */
    PyObject *so_far;        /* the refusals so far */
    int64_t lines;           /* how many lines are done */
    Py_ssize_t at;           /* the index of the next line */
};

/* Takes three arguments: a tuple of outputs, for so many columns from the first on, of which any may be None; how many numbers these had
 * before; and the refusals so far. */
bool take_outputs(const struct state *state, PyObject *const *taken, int columns, struct outputs *outputs);

/* Puts the lines of a piece into the outputs, their refusals into those so far, and there how many lines are done: all or nothing, with no
 * code of Python between. Answers the last as a number of Python. */
PyObject *put_piece(const struct state *state, const struct piece *piece, const struct outputs *outputs);

/* ---- calls of the module ---- */

#define CALL(name) PyObject *name(PyObject *module, PyObject *const *given, Py_ssize_t count, PyObject *names)
CALL(parse_header);
CALL(is_canonical_header);
CALL(parse);
CALL(parse_carefully);
CALL(cut_signature);
CALL(parts_of);
CALL(write_signature);
CALL(cut_ident);
CALL(ident_time);
CALL(git_time_text);
CALL(fsck_number);
CALL(write_ident);
CALL(write_ident_as_is);
CALL(parse_date);
CALL(approxidate);
CALL(expiry_date);
CALL(mode_named);
CALL(show_date);
CALL(show_git_time);
CALL(age_of);
CALL(parse_offset);
CALL(offset_text);
CALL(offset_from_decimal);
CALL(offset_to_decimal);
CALL(times_of_lines);
CALL(add_lines);
CALL(add_idents);
PyObject *zone_path(PyObject *module, PyObject *arguments);
PyObject *zone_file(PyObject *module, PyObject *path);

#endif
