/* Many lines: read in pieces, without the GIL, into a list of times or into two outputs. */
#include "library.h"

#include <string.h>

struct part next_line(struct part *rest)
{
    const char *newline = memchr(rest->at, '\n', (size_t)(rest->end - rest->at));
    const struct part line = {rest->at, newline ? newline : rest->end};
    rest->at = newline ? newline + 1 : rest->end;
    return line;
}

/* ---- pieces ---- */

static Py_ssize_t count_lines(struct part rest)
{
    Py_ssize_t count = 0;
    for (; rest.at < rest.end; count++)
        (void)next_line(&rest);
    return count;
}

bool take_lines(PyObject *const *taken, struct piece *piece)
{
    PyObject *data = taken[0];
    int64_t first, last;
    if (!PyBytes_Check(data)) {
        PyErr_SetString(PyExc_TypeError, "lines have to be bytes");
        return false;
    }
    if (!take_int64(taken[1], &first) || !take_int64(taken[2], &last))
        return false;
    if (first < 0 || last < first || last > PyBytes_Size(data)) {
        PyErr_SetString(PyExc_IndexError, "the lines have no such part");
        return false;
    }
    piece->text = (struct part){PyBytes_AsString(data) + first, PyBytes_AsString(data) + last};
    piece->count = count_lines(piece->text);
    return true;
}

size_t width_of(enum column column)
{
    return column == OFFSETS || column == STATUSES || column == MESSAGES ? 4 : 8;
}

bool make_room(struct piece *piece, enum column column)
{
    const size_t size = (size_t)piece->count * width_of(column);
    PyObject *bytes = piece->bytes[column] = PyBytes_FromStringAndSize(NULL, (Py_ssize_t)size);
    piece->numbers[column] = bytes ? memset(PyBytes_AsString(bytes), 0, size) : NULL;
    return bytes != NULL;
}

void drop_piece(struct piece *piece)
{
    for (int column = 0; column < COLUMNS; column++)
        Py_CLEAR(piece->bytes[column]);
}

uint32_t status_of(const struct piece *piece, Py_ssize_t line)
{
    return ((const uint32_t *)piece->numbers[STATUSES])[line];
}

PyObject *refused_line(const struct state *state, uint32_t status, struct part line)
{
    PyObject *text = PyBytes_FromStringAndSize(line.at, line.end - line.at);
    PyObject *refused = text ? refusal(state, status, text, Py_None) : NULL;
    Py_XDECREF(text);
    return refused;
}

/* ---- times ---- */

/* The readers of the library, of enum gix_date_line_reader, and those of Git's dates. */
enum { APPROXIMATE_LINES = GIX_DATE_SIGNATURE_LINES + 1, EXACT_LINES, READERS };

/* How lines are read. */
struct rule {
    uint32_t reader;
    gix_date_careful_options options;
    struct moment moment;
};

static bool is_of_git(const struct rule *rule)
{
    return rule->reader >= APPROXIMATE_LINES;
}

/* Reads all lines of a piece, and answers how many. */
static size_t read_lines(const struct piece *piece, const struct rule *rule)
{
    const size_t count = (size_t)piece->count, len = (size_t)(piece->text.end - piece->text.at);
    const struct moment *moment = &rule->moment;
    int64_t *seconds = piece->numbers[SECONDS];
    int32_t *offsets = piece->numbers[OFFSETS];
    uint32_t *statuses = piece->numbers[STATUSES];
    size_t bytes;
    if (is_of_git(rule))
        return (rule->reader == EXACT_LINES ? git_date_parse_lines_at : git_date_approxidate_lines_at)(
            piece->text.at, len, &moment->now, zone_of(moment), seconds, count, offsets, count, statuses, count, &bytes);
    if (moment->is_given)
        return gix_date_parse_lines_at(piece->text.at, len, rule->reader, &rule->options, &moment->now, zone_of(moment), seconds, count,
                                       offsets, count, statuses, count, &bytes);
    return gix_date_parse_lines(piece->text.at, len, rule->reader, &rule->options, seconds, count, offsets, count, statuses, count, &bytes);
}

/* Reads a piece, without the GIL. */
static bool read_piece(struct piece *piece, const struct rule *rule)
{
    if (!make_room(piece, SECONDS) || !make_room(piece, OFFSETS) || !make_room(piece, STATUSES))
        return false;
    Py_BEGIN_ALLOW_THREADS
    piece->count = (Py_ssize_t)read_lines(piece, rule);
    Py_END_ALLOW_THREADS
    return true;
}

static bool take_reader(PyObject *object, struct rule *rule)
{
    int64_t reader;
    if (!take_int64(object, &reader))
        return false;
    if (reader < 0 || reader >= READERS) {
        PyErr_SetString(PyExc_ValueError, "there is no such reader of lines");
        return false;
    }
    rule->reader = (uint32_t)reader;
    return true;
}

/* The moment that Git's dates need, and that others may have. */
static bool take_rules_moment(const struct state *state, PyObject *object, struct rule *rule)
{
    return is_of_git(rule) ? take_moment(state, object, &rule->moment) : take_any_moment(state, object, &rule->moment);
}

/* Takes six arguments, reader, data, begin, end, now and raw_offsets, and reads their lines. */
static bool take_piece(const struct state *state, PyObject *const *taken, struct piece *piece)
{
    struct rule rule = {.reader = GIX_DATE_DATE_LINES};
    const bool is_read = take_reader(taken[0], &rule) && take_lines(taken + 1, piece) &&
                         take_any_option(state->kept[RAW_OFFSETS], taken[5], &rule.options.raw_offsets) &&
                         take_rules_moment(state, taken[4], &rule) && read_piece(piece, &rule);
    drop_moment(&rule.moment);
    return is_read;
}

/* A Time or a refusal of each line. */
static PyObject *list_of(const struct state *state, const struct piece *piece)
{
    const int64_t *seconds = piece->numbers[SECONDS];
    const int32_t *offsets = piece->numbers[OFFSETS];
    struct part rest = piece->text;
    PyObject *list = PyList_New(piece->count);
    for (Py_ssize_t i = 0; list && i < piece->count; i++) {
        const struct part line = next_line(&rest);
        const gix_date_time time = {seconds[i], offsets[i]};
        const uint32_t status = status_of(piece, i);
        PyObject *answer = status == GIX_DATE_OK ? new_time(state, &time) : refused_line(state, status, line);
        if (answer == NULL || PyList_SetItem(list, i, answer) < 0)
            Py_CLEAR(list);
    }
    return list;
}

CALL(times_of_lines)
{
    static const struct call call = {"times_of_lines", 6, 6, {"reader", "data", "begin", "end", "now", "raw_offsets", NULL}};
    const struct state *state = state_of(module);
    struct piece piece = {.count = 0};
    PyObject *taken[6], *list = NULL;
    if (!state || !take_arguments(&call, given, count, names, taken))
        return NULL;
    if (take_piece(state, taken, &piece))
        list = list_of(state, &piece);
    drop_piece(&piece);
    return list;
}

CALL(add_lines)
{
    enum { READER = 3, ALL = READER + 6 };
    static const struct call call = {
        "add_lines", ALL, ALL, {"outputs", "begin", "so_far", "reader", "data", "first", "end", "now", "raw_offsets", NULL}};
    const struct state *state = state_of(module);
    struct piece piece = {.count = 0};
    struct outputs outputs;
    PyObject *taken[ALL], *done = NULL;
    if (!state || !take_arguments(&call, given, count, names, taken) || !take_outputs(state, taken, STATUSES, &outputs))
        return NULL;
    if (take_piece(state, taken + READER, &piece))
        done = put_piece(state, &piece, &outputs);
    drop_piece(&piece);
    return done;
}
