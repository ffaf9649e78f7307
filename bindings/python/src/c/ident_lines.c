/* Many identity lines: read in pieces, without the GIL, into outputs. */
#include "library.h"

/* How many cells of a column the library is to fill: none where it is left out. */
static size_t cells_of(const struct piece *piece, enum column column)
{
    return piece->numbers[column] ? (size_t)piece->count : 0;
}

/* Reads all lines of a piece, and their parts where there is room for these. Answers how many lines. */
static size_t read_idents(const struct piece *piece, gix_date_ident_parts *parts)
{
    const size_t len = (size_t)(piece->text.end - piece->text.at);
    size_t bytes;
    return gix_date_ident_lines(piece->text.at, len, parts, parts ? (size_t)piece->count : 0, piece->numbers[SECONDS],
                                cells_of(piece, SECONDS), piece->numbers[OFFSETS], cells_of(piece, OFFSETS), piece->numbers[MESSAGES],
                                cells_of(piece, MESSAGES), piece->numbers[STATUSES], cells_of(piece, STATUSES), &bytes);
}

/* Puts a place into a column, unless this is left out. */
static void tell(const struct piece *piece, enum column column, Py_ssize_t line, int64_t place)
{
    if (piece->numbers[column])
        ((int64_t *)piece->numbers[column])[line] = place;
}

/* Puts the places of a line with an identity, which count from the front of its piece. */
static void tell_parts(const struct piece *piece, Py_ssize_t line, int64_t front, const gix_date_ident_parts *parts)
{
    const gix_date_span name = parts->name, email = parts->email, seconds = parts->seconds, offset = parts->offset;
    tell(piece, NAME_ENDS, line, front + (int64_t)(name.start + name.len));
    tell(piece, EMAIL_STARTS, line, front + (int64_t)email.start);
    tell(piece, EMAIL_ENDS, line, front + (int64_t)(email.start + email.len));
    tell(piece, DATE_STARTS, line, front + (int64_t)seconds.start);
    tell(piece, DATE_ENDS, line, front + (int64_t)(parts->has_date ? offset.start + offset.len : seconds.start));
}

/* Puts the places of all lines: of a refused one where it begins. */
static void tell_places(const struct piece *piece, int64_t front, const gix_date_ident_parts *parts)
{
    struct part rest = piece->text;
    for (Py_ssize_t i = 0; i < piece->count; i++) {
        const struct part line = next_line(&rest);
        tell(piece, STARTS, i, front + (line.at - piece->text.at));
        if (status_of(piece, i) == GIX_DATE_OK)
            tell_parts(piece, i, front, parts + i);
    }
}

/* Makes room for the columns that have an output, and for statuses, which tell of refusals. */
static bool make_rooms(struct piece *piece, const struct outputs *outputs)
{
    for (int column = 0; column < COLUMNS; column++)
        if ((outputs->each[column] || column == STATUSES) && !make_room(piece, column))
            return false;
    return true;
}

static bool has_places(const struct piece *piece)
{
    for (int column = STARTS; column < COLUMNS; column++)
        if (piece->numbers[column])
            return true;
    return false;
}

/* Reads a piece, whose front stands there in the source, without the GIL. */
static bool read_piece(struct piece *piece, const struct outputs *outputs, int64_t front)
{
    gix_date_ident_parts *parts = NULL;
    if (!make_rooms(piece, outputs))
        return false;
    if (has_places(piece) && !(parts = PyMem_Malloc((size_t)piece->count * sizeof *parts))) {
        PyErr_NoMemory();
        return false;
    }
    Py_BEGIN_ALLOW_THREADS
    piece->count = (Py_ssize_t)read_idents(piece, parts);
    if (parts)
        tell_places(piece, front, parts);
    Py_END_ALLOW_THREADS
    PyMem_Free(parts);
    return true;
}

CALL(add_idents)
{
    enum { FRONT = 3, DATA, FIRST, END, ALL };
    static const struct call call = {"add_idents", ALL, ALL, {"outputs", "begin", "so_far", "front", "data", "first", "end", NULL}};
    const struct state *state = state_of(module);
    struct piece piece = {.count = 0};
    struct outputs outputs;
    int64_t front, first;
    PyObject *taken[ALL], *done = NULL;
    if (!state || !take_arguments(&call, given, count, names, taken) || !take_outputs(state, taken, COLUMNS, &outputs) ||
        !take_int64(taken[FRONT], &front) || !take_int64(taken[FIRST], &first))
        return NULL;
    if (take_lines(taken + DATA, &piece) && read_piece(&piece, &outputs, front + first))
        done = put_piece(state, &piece, &outputs);
    drop_piece(&piece);
    return done;
}
