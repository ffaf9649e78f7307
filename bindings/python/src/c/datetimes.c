/* The parts of a datetime, by its fields, since classes below datetime may subtract by rules of their own. */
#include "library.h"

enum { SECONDS_PER_DAY = 86400, DAY_OF_EPOCH = 719163 };

/* The number of a field. */
static bool take_field(const struct state *state, PyObject *object, enum kept name, int64_t *number)
{
    PyObject *field = PyObject_GetAttr(object, state->kept[name]);
    const bool taken = field && take_int64(field, number);
    Py_XDECREF(field);
    return taken;
}

/* An offset of whole seconds. */
static bool take_timedelta(const struct state *state, PyObject *delta, int64_t *offset)
{
    int64_t days, seconds, microseconds;
    if (!take_field(state, delta, NAME_DAYS, &days) || !take_field(state, delta, NAME_SECONDS, &seconds) ||
        !take_field(state, delta, NAME_MICROSECONDS, &microseconds))
        return false;
    if (microseconds != 0) {
        refuse(state, GIX_DATE_INVALID_ZONE, NULL, GIT_DATE_NOTHING);
        return false;
    }
    *offset = days * SECONDS_PER_DAY + seconds;
    return true;
}

static bool take_offset(const struct state *state, PyObject *at, int64_t *offset)
{
    PyObject *delta = PyObject_CallMethodObjArgs(at, state->kept[NAME_UTCOFFSET], NULL);
    const bool is_naive = delta == Py_None;
    const bool taken = delta && !is_naive && take_timedelta(state, delta, offset);
    if (is_naive)
        PyErr_SetObject(state->kept[NAIVE], Py_None);
    Py_XDECREF(delta);
    return taken;
}

/* Seconds since 1970 of what the clock shows. */
static bool take_clock(const struct state *state, PyObject *at, int64_t *clock)
{
    int64_t day = 0, hour, minute, second;
    PyObject *ordinal = PyObject_CallMethodObjArgs(at, state->kept[NAME_TOORDINAL], NULL);
    const bool has_day = ordinal && take_int64(ordinal, &day);
    Py_XDECREF(ordinal);
    if (!has_day || !take_field(state, at, NAME_HOUR, &hour) || !take_field(state, at, NAME_MINUTE, &minute) ||
        !take_field(state, at, NAME_SECOND, &second))
        return false;
    *clock = (day - DAY_OF_EPOCH) * SECONDS_PER_DAY + (hour * 60 + minute) * 60 + second;
    return true;
}

CALL(parts_of)
{
    static const struct call call = {"parts_of", 1, 1, {"at", NULL}};
    const struct state *state = state_of(module);
    int64_t offset = 0, clock = 0, microsecond = 0;
    PyObject *at;
    if (!state || !take_arguments(&call, given, count, names, &at) || !take_offset(state, at, &offset) || !take_clock(state, at, &clock) ||
        !take_field(state, at, NAME_MICROSECOND, &microsecond))
        return NULL;
    return Py_BuildValue("(LLL)", (long long)(clock - offset), (long long)microsecond, (long long)offset);
}
