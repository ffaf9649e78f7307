/* Calls for identity lines, as Git itself shows, judges and writes them. */
#include "library.h"

/* A part of a line, as bytes. */
static PyObject *part_of(const struct text *line, gix_date_span part)
{
    return PyBytes_FromStringAndSize(line->at + part.start, (Py_ssize_t)part.len);
}

/* The fields of the time that Git shows, or None. */
static PyObject *shown_of(const gix_date_ident_parts *parts)
{
    const gix_date_git_time *shown = &parts->shown;
    if (!parts->has_date)
        Py_RETURN_NONE;
    return Py_BuildValue("(LiN)", (long long)shown->seconds, (int)shown->offset, PyBool_FromLong(shown->minus_zero));
}

/* The indices into a line of its parts but the name, and of its end. */
static PyObject *places_of(const struct text *line, const gix_date_ident_parts *parts)
{
    return Py_BuildValue("(NNNNN)", index_or_none(line, parts->email.start), index_or_none(line, parts->rest.start),
                         index_or_none(line, parts->seconds.start), index_or_none(line, parts->offset.start),
                         index_or_none(line, parts->rest.start + parts->rest.len));
}

CALL(cut_ident)
{
    static const struct call call = {"cut_ident", 1, 1, {"line", NULL}};
    const struct state *state = state_of(module);
    struct text line;
    gix_date_ident_parts parts = {.has_date = false};
    PyObject *object, *answer;
    if (!state || !take_arguments(&call, given, count, names, &object) || !take_text(object, &line))
        return NULL;
    const uint32_t status = gix_date_ident(line.at, line.len, &parts);
    if (status == GIX_DATE_OK)
        answer = Py_BuildValue("(NNNNNNNN)", part_of(&line, parts.name), part_of(&line, parts.email), part_of(&line, parts.rest),
                               part_of(&line, parts.seconds), part_of(&line, parts.offset), shown_of(&parts),
                               PyBool_FromLong(parts.comes_back), places_of(&line, &parts));
    else
        answer = refuse(state, status, &line, GIT_DATE_NOTHING);
    drop_text(&line);
    return answer;
}

CALL(ident_time)
{
    enum { SECONDS, OFFSET, ALL };
    static const struct call call = {"ident_time", 2, 2, {"seconds", "offset", NULL}};
    const struct state *state = state_of(module);
    gix_date_git_time shown = {.minus_zero = false};
    gix_date_time time = {0, 0};
    PyObject *taken[ALL];
    if (!state || !take_arguments(&call, given, count, names, taken) || !take_int64(taken[SECONDS], &shown.seconds) ||
        !take_int32(taken[OFFSET], &shown.offset))
        return NULL;
    const uint32_t status = gix_date_ident_time(&shown, &time);
    return status == GIX_DATE_OK ? new_time(state, &time) : refuse(state, status, NULL, GIT_DATE_NOTHING);
}

static uint32_t call_git_time_text(const struct writing *w, char *out, size_t out_len, size_t *len)
{
    return gix_date_git_time_text(&w->git_time, out, out_len, len);
}

CALL(git_time_text)
{
    static const struct call call = {"git_time_text", 1, 1, {"time", NULL}};
    const struct state *state = state_of(module);
    struct writing writing = {.write = call_git_time_text};
    PyObject *object;
    if (!state || !take_arguments(&call, given, count, names, &object) || !take_git_time(state, object, &writing.git_time))
        return NULL;
    return written(state, &writing);
}

CALL(fsck_number)
{
    static const struct call call = {"fsck_number", 1, 1, {"line", NULL}};
    struct text line;
    size_t place = GIT_DATE_NOTHING;
    PyObject *object, *index;
    (void)module;
    if (!take_arguments(&call, given, count, names, &object) || !take_text(object, &line))
        return NULL;
    const uint32_t message = gix_date_fsck(line.at, line.len, &place);
    index = index_or_none(&line, place);
    drop_text(&line);
    return index ? Py_BuildValue("(IN)", (unsigned)message, index) : NULL;
}

static uint32_t call_write_ident(const struct writing *w, char *out, size_t out_len, size_t *len)
{
    return gix_date_write_ident(w->first->at, w->first->len, w->second->at, w->second->len, &w->time, out, out_len, len);
}

static uint32_t call_write_ident_as_is(const struct writing *w, char *out, size_t out_len, size_t *len)
{
    return gix_date_write_ident_as_is(w->first->at, w->first->len, w->second->at, w->second->len, &w->git_time, out, out_len, len);
}

/* The line of a name, an email and a time, as bytes. The library is asked first how many there are. */
static PyObject *ident_line(const struct state *state, const struct writing *writing)
{
    size_t len = 0;
    const uint32_t status = writing->write(writing, NULL, 0, &len);
    if (status != GIX_DATE_NO_ROOM)
        return refuse(state, status, NULL, GIT_DATE_NOTHING);
    PyObject *line = PyBytes_FromStringAndSize(NULL, (Py_ssize_t)len);
    if (!line || writing->write(writing, PyBytes_AsString(line), len, &len) == GIX_DATE_OK)
        return line;
    Py_DECREF(line);
    PyErr_SetString(PyExc_RuntimeError, "the library writes another line when it is asked again");
    return NULL;
}

/* The line of the arguments of a call: as Git writes it of a Time, or as they are, of a GitTime. */
static PyObject *write_any(const struct call *call, bool as_is, PyObject *module, PyObject *const *given, Py_ssize_t count, PyObject *names)
{
    enum { NAME, EMAIL, AT_TIME, ALL };
    const struct state *state = state_of(module);
    struct text name = {.at = NULL}, email = {.at = NULL};
    struct writing writing = {.write = as_is ? call_write_ident_as_is : call_write_ident, .first = &name, .second = &email};
    PyObject *taken[ALL], *answer = NULL;
    if (!state || !take_arguments(call, given, count, names, taken))
        return NULL;
    if (take_text(taken[NAME], &name) && take_text(taken[EMAIL], &email) &&
        (as_is ? take_git_time(state, taken[AT_TIME], &writing.git_time) : take_time(state, taken[AT_TIME], &writing.time)))
        answer = ident_line(state, &writing);
    drop_text(&name);
    drop_text(&email);
    return answer;
}

CALL(write_ident)
{
    static const struct call call = {"write_ident", 3, 3, {"name", "email", "time", NULL}};
    return write_any(&call, false, module, given, count, names);
}

CALL(write_ident_as_is)
{
    static const struct call call = {"write_ident_as_is", 3, 3, {"name", "email", "time", NULL}};
    return write_any(&call, true, module, given, count, names);
}
