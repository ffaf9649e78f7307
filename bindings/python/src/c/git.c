/* Calls that read and show dates as Git does. */
#include "library.h"

/* An object of a class of the package with these fields, which its `__init__` would set. Steals the values; one may be NULL, after an
 * exception. */
static PyObject *value_of(const struct state *state, enum kept class, const enum kept fields[3], PyObject *values[3])
{
    PyObject *value = NULL;
    if (values[0] && values[1] && values[2])
        value = PyType_GenericAlloc((PyTypeObject *)state->kept[class], 0);
    for (int i = 0; value && i < 3; i++)
        if (PyObject_GenericSetAttr(value, state->kept[fields[i]], values[i]) < 0)
            Py_CLEAR(value);
    for (int i = 0; i < 3; i++)
        Py_XDECREF(values[i]);
    return value;
}

static PyObject *exact_of(const struct state *state, const git_date_exact *date, const struct text *text)
{
    static const enum kept fields[] = {NAME_TIME, NAME_HAS_OFFSET, NAME_IGNORED};
    PyObject *values[] = {new_time(state, &date->time), PyBool_FromLong(date->has_offset), index_or_none(text, date->ignored)};
    return value_of(state, READ_DATE, fields, values);
}

static PyObject *approximate_of(const struct state *state, const git_date_approximate *date, const struct text *text)
{
    static const enum kept fields[] = {NAME_TIME, NAME_UNDERSTOOD, NAME_IGNORED};
    PyObject *values[] = {new_time(state, &date->time), PyBool_FromLong(date->understood), index_or_none(text, date->ignored)};
    return value_of(state, APPROXIMATE, fields, values);
}

/* How a text is read at a moment: an object, or a refusal. */
typedef PyObject *reader(const struct state *state, const struct text *text, struct moment *moment);

static PyObject *read_exact(const struct state *state, const struct text *text, struct moment *moment)
{
    git_date_exact date = {{0, 0}, GIT_DATE_NOTHING, false};
    size_t place = GIT_DATE_NOTHING;
    const uint32_t status = git_date_parse_at(text->at, text->len, &moment->now, zone_of(moment), &date, &place);
    return status == GIX_DATE_OK ? exact_of(state, &date, text) : refuse(state, status, text, place);
}

static PyObject *read_approximate(const struct state *state, const struct text *text, struct moment *moment)
{
    git_date_approximate date = {{0, 0}, GIT_DATE_NOTHING, false};
    size_t place = GIT_DATE_NOTHING;
    const uint32_t status = git_date_approxidate_at(text->at, text->len, &moment->now, zone_of(moment), &date, &place);
    return status == GIX_DATE_OK ? approximate_of(state, &date, text) : refuse(state, status, text, place);
}

static PyObject *read_expiry(const struct state *state, const struct text *text, struct moment *moment)
{
    git_date_expiry expiry = {GIT_DATE_NEVER, {{0, 0}, GIT_DATE_NOTHING, false}};
    size_t place = GIT_DATE_NOTHING;
    const uint32_t status = git_date_expiry_at(text->at, text->len, &moment->now, zone_of(moment), &expiry, &place);
    if (status != GIX_DATE_OK)
        return refuse(state, status, text, place);
    return expiry.kind == GIT_DATE_BEFORE ? approximate_of(state, &expiry.before, text)
                                          : PySequence_GetItem(state->kept[EXPIRES], (Py_ssize_t)expiry.kind);
}

static PyObject *read_at(const struct call *call, reader *read, PyObject *module, PyObject *const *given, Py_ssize_t count, PyObject *names)
{
    enum { AT_TEXT, NOW, ALL };
    const struct state *state = state_of(module);
    struct text text;
    struct moment moment = {.is_given = false};
    PyObject *taken[ALL], *answer = NULL;
    if (!state || !take_arguments(call, given, count, names, taken) || !take_text(taken[AT_TEXT], &text))
        return NULL;
    if (take_moment(state, taken[NOW], &moment))
        answer = read(state, &text, &moment);
    drop_moment(&moment);
    drop_text(&text);
    return answer;
}

CALL(parse_date)
{
    static const struct call call = {"parse_date", 2, 2, {"text", "now", NULL}};
    return read_at(&call, read_exact, module, given, count, names);
}

CALL(approxidate)
{
    static const struct call call = {"approxidate", 2, 2, {"text", "now", NULL}};
    return read_at(&call, read_approximate, module, given, count, names);
}

CALL(expiry_date)
{
    static const struct call call = {"expiry_date", 2, 2, {"text", "now", NULL}};
    return read_at(&call, read_expiry, module, given, count, names);
}

/* ---- shown dates ---- */

static bool take_mode_name(const struct state *state, PyObject *object, git_date_mode *mode)
{
    struct text name;
    uint32_t status = GIX_DATE_NO_SUCH_OPTION;
    const bool is_text = take_text(object, &name);
    if (is_text)
        status = git_date_mode_named(name.at, name.len, mode);
    if (is_text && status != GIX_DATE_OK)
        refuse(state, status, &name, GIT_DATE_NOTHING);
    drop_text(&name);
    return status == GIX_DATE_OK;
}

/* Takes the fields of a DateMode. */
static bool take_mode_fields(const struct state *state, PyObject *object, git_date_mode *mode)
{
    PyObject *kind = PyObject_GetAttr(object, state->kept[NAME_KIND]);
    PyObject *local = kind ? PyObject_GetAttr(object, state->kept[NAME_LOCAL]) : NULL;
    const int is_local = local ? PyObject_IsTrue(local) : -1;
    mode->local = is_local > 0;
    const bool taken = is_local >= 0 && take_option(state->kept[KINDS], kind, &mode->kind);
    Py_XDECREF(kind);
    Py_XDECREF(local);
    return taken;
}

/* Takes a DateMode, a kind, or Git's name. */
static bool take_mode(const struct state *state, PyObject *object, git_date_mode *mode)
{
    if (PyUnicode_Check(object) || PyBytes_Check(object))
        return take_mode_name(state, object, mode);
    if (PyObject_TypeCheck(object, (PyTypeObject *)state->kept[DATE_MODE]))
        return take_mode_fields(state, object, mode);
    return take_option(state->kept[KINDS], object, &mode->kind);
}

CALL(mode_named)
{
    static const struct call call = {"mode_named", 1, 1, {"name", NULL}};
    const struct state *state = state_of(module);
    git_date_mode mode = {0, false};
    PyObject *object;
    if (!state || !take_arguments(&call, given, count, names, &object) || !take_mode_name(state, object, &mode))
        return NULL;
    return Py_BuildValue("(OO)", PyTuple_GetItem(state->kept[KINDS], (Py_ssize_t)mode.kind), mode.local ? Py_True : Py_False);
}

static uint32_t call_show(const struct writing *w, char *out, size_t out_len, size_t *len)
{
    return git_date_show_at(&w->time, &w->mode, &w->moment->now, zone_of(w->moment), out, out_len, len);
}

static uint32_t call_show_by_format(const struct writing *w, char *out, size_t out_len, size_t *len)
{
    const char *format = w->first->at + w->front;
    size_t place = GIT_DATE_NOTHING;
    const uint32_t status = git_date_show_by_format(&w->time, format, w->first->len - w->front, w->mode.local, zone_of(w->moment), out,
                                                    out_len, len, &place);
    if (place != GIT_DATE_NOTHING)
        *w->place = w->front + place;
    return status;
}

/* How many bytes stand before the format in a mode such as "format:%Y", and whether its clock is the zone's. Before that of no other mode
 * stand any. */
static size_t format_front(const struct text *mode, bool *local)
{
    static const char *const fronts[] = {"format:", "format-local:"};
    for (size_t i = 0; i < sizeof fronts / sizeof *fronts; i++) {
        const size_t len = strlen(fronts[i]);
        if (mode->len < len || memcmp(mode->at, fronts[i], len))
            continue;
        *local = i == 1;
        return len;
    }
    return 0;
}

/* Takes a mode, or a text with a format, which is dropped by drop_text. */
static bool take_mode_or_format(const struct state *state, PyObject *object, struct text *text, struct writing *writing)
{
    if (PyUnicode_Check(object) || PyBytes_Check(object)) {
        if (!take_text(object, text))
            return false;
        writing->front = format_front(text, &writing->mode.local);
    }
    if (!writing->front)
        return take_mode(state, object, &writing->mode);
    writing->write = call_show_by_format;
    writing->first = text;
    return true;
}

CALL(show_date)
{
    enum { AT_TIME, MODE, NOW, ALL };
    static const struct call call = {"show_date", 3, 3, {"time", "mode", "now", NULL}};
    const struct state *state = state_of(module);
    struct moment moment = {.is_given = false};
    struct text text = {.owner = NULL};
    size_t place = GIT_DATE_NOTHING;
    struct writing writing = {.write = call_show, .place = &place, .moment = &moment};
    PyObject *taken[ALL], *answer = NULL;
    if (!state || !take_arguments(&call, given, count, names, taken))
        return NULL;
    if (take_time(state, taken[AT_TIME], &writing.time) && take_mode_or_format(state, taken[MODE], &text, &writing) &&
        take_moment(state, taken[NOW], &moment))
        answer = written(state, &writing);
    drop_moment(&moment);
    drop_text(&text);
    return answer;
}

bool take_git_time(const struct state *state, PyObject *object, gix_date_git_time *time)
{
    if (!PyObject_TypeCheck(object, (PyTypeObject *)state->kept[GIT_TIME])) {
        PyErr_Format(PyExc_TypeError, "the time of a line has to be a GitTime, not %R", object);
        return false;
    }
    PyObject *seconds = PyObject_GetAttr(object, state->kept[NAME_SECONDS]);
    PyObject *offset = seconds ? PyObject_GetAttr(object, state->kept[NAME_OFFSET]) : NULL;
    PyObject *minus_zero = offset ? PyObject_GetAttr(object, state->kept[NAME_MINUS_ZERO]) : NULL;
    const int is_minus_zero = minus_zero ? PyObject_IsTrue(minus_zero) : -1;
    time->minus_zero = is_minus_zero > 0;
    const bool taken = is_minus_zero >= 0 && take_int64(seconds, &time->seconds) && take_int32(offset, &time->offset);
    Py_XDECREF(seconds);
    Py_XDECREF(offset);
    Py_XDECREF(minus_zero);
    return taken;
}

static uint32_t call_show_git_time(const struct writing *w, char *out, size_t out_len, size_t *len)
{
    return git_date_show_git_time_at(&w->git_time, &w->mode, &w->moment->now, zone_of(w->moment), out, out_len, len);
}

CALL(show_git_time)
{
    enum { AT_TIME, MODE, NOW, ALL };
    static const struct call call = {"show_git_time", 3, 3, {"time", "mode", "now", NULL}};
    const struct state *state = state_of(module);
    struct moment moment = {.is_given = false};
    struct writing writing = {.write = call_show_git_time, .moment = &moment};
    PyObject *taken[ALL], *answer = NULL;
    if (!state || !take_arguments(&call, given, count, names, taken))
        return NULL;
    if (take_git_time(state, taken[AT_TIME], &writing.git_time) && take_mode(state, taken[MODE], &writing.mode) &&
        take_moment(state, taken[NOW], &moment))
        answer = written(state, &writing);
    drop_moment(&moment);
    return answer;
}

CALL(age_of)
{
    enum { AT_TIME, NOW, ALL };
    static const struct call call = {"age_of", 2, 2, {"time", "now", NULL}};
    const struct state *state = state_of(module);
    struct moment moment = {.is_given = false};
    gix_date_time time;
    git_date_age age = {GIT_DATE_FUTURE, 0, 0};
    PyObject *taken[ALL], *answer = NULL;
    if (!state || !take_arguments(&call, given, count, names, taken))
        return NULL;
    if (take_time(state, taken[AT_TIME], &time) && take_moment(state, taken[NOW], &moment)) {
        const uint32_t status = git_date_age_at(&time, &moment.now, &age);
        answer = status == GIX_DATE_OK ? Py_BuildValue("(III)", age.unit, age.count, age.months)
                                       : refuse(state, status, NULL, GIT_DATE_NOTHING);
    }
    drop_moment(&moment);
    return answer;
}

CALL(parse_offset)
{
    static const struct call call = {"parse_offset", 1, 1, {"text", NULL}};
    const struct state *state = state_of(module);
    struct text text;
    int32_t offset = 0;
    PyObject *object, *answer;
    if (!state || !take_arguments(&call, given, count, names, &object) || !take_text(object, &text))
        return NULL;
    const uint32_t status = git_date_parse_offset(text.at, text.len, &offset);
    answer = status == GIX_DATE_OK ? PyLong_FromLong(offset) : refuse(state, status, &text, GIT_DATE_NOTHING);
    drop_text(&text);
    return answer;
}

static uint32_t call_offset_text(const struct writing *w, char *out, size_t out_len, size_t *len)
{
    return git_date_offset_text(w->time.offset, out, out_len, len);
}

CALL(offset_text)
{
    static const struct call call = {"offset_text", 1, 1, {"offset", NULL}};
    const struct state *state = state_of(module);
    struct writing writing = {.write = call_offset_text};
    PyObject *object;
    if (!state || !take_arguments(&call, given, count, names, &object) || !take_int32(object, &writing.time.offset))
        return NULL;
    return written(state, &writing);
}

CALL(offset_from_decimal)
{
    static const struct call call = {"offset_from_decimal", 1, 1, {"decimal", NULL}};
    int32_t decimal;
    PyObject *object;
    (void)module;
    if (!take_arguments(&call, given, count, names, &object) || !take_int32(object, &decimal))
        return NULL;
    return PyLong_FromLong(git_date_offset_from_decimal(decimal));
}

CALL(offset_to_decimal)
{
    static const struct call call = {"offset_to_decimal", 1, 1, {"offset", NULL}};
    int32_t offset;
    PyObject *object;
    (void)module;
    if (!take_arguments(&call, given, count, names, &object) || !take_int32(object, &offset))
        return NULL;
    return PyLong_FromLong(git_date_offset_to_decimal(offset));
}
