/* Outputs into which the numbers of many lines are put. */
#include "library.h"

/* Whether an output has room for so many lines from an index on. */
static bool has_room(PyObject *output, Py_ssize_t at, Py_ssize_t count)
{
    const Py_ssize_t len = PyObject_Size(output);
    const bool has = len >= 0 && (PyMemoryView_Check(output) ? len - at >= count : len == at);
    if (!has && !PyErr_Occurred())
        PyErr_SetString(PyExc_ValueError, "an output has no room for all lines, or another has changed its length");
    return has;
}

static bool have_room(const struct outputs *outputs, Py_ssize_t count)
{
    for (int column = 0; column < COLUMNS; column++)
        if (outputs->each[column] && !has_room(outputs->each[column], outputs->at, count))
            return false;
    return true;
}

/* An int of each number. */
static PyObject *ints_of(const struct piece *piece, enum column column)
{
    const bool is_wide = width_of(column) == sizeof(int64_t);
    const void *numbers = piece->numbers[column];
    PyObject *ints = PyList_New(piece->count);
    for (Py_ssize_t i = 0; ints && i < piece->count; i++) {
        PyObject *number = PyLong_FromLongLong(is_wide ? ((const int64_t *)numbers)[i] : ((const int32_t *)numbers)[i]);
        if (number == NULL || PyList_SetItem(ints, i, number) < 0)
            Py_CLEAR(ints);
    }
    return ints;
}

static bool put_into_list(PyObject *list, Py_ssize_t at, const struct piece *piece, enum column column)
{
    PyObject *ints = ints_of(piece, column);
    const bool is_put = ints && PyList_SetSlice(list, at, at, ints) == 0;
    Py_XDECREF(ints);
    return is_put;
}

static bool put_into_view(const struct state *state, PyObject *view, Py_ssize_t at, PyObject *bytes, Py_ssize_t count)
{
    PyObject *format = PyObject_GetAttr(view, state->kept[NAME_FORMAT]);
    PyObject *plain = format ? PyMemoryView_FromObject(bytes) : NULL;
    PyObject *numbers = plain ? PyObject_CallMethodObjArgs(plain, state->kept[NAME_CAST], format, NULL) : NULL;
    PyObject *first = numbers ? PyLong_FromSsize_t(at) : NULL, *end = first ? PyLong_FromSsize_t(at + count) : NULL;
    PyObject *slice = end ? PySlice_New(first, end, NULL) : NULL;
    const bool is_put = slice && PyObject_SetItem(view, slice, numbers) == 0;
    Py_XDECREF(format);
    Py_XDECREF(plain);
    Py_XDECREF(numbers);
    Py_XDECREF(first);
    Py_XDECREF(end);
    Py_XDECREF(slice);
    return is_put;
}

static bool put_into_array(const struct state *state, PyObject *array, PyObject *bytes)
{
    PyObject *none = PyObject_CallMethodObjArgs(array, state->kept[NAME_FROMBYTES], bytes, NULL);
    Py_XDECREF(none);
    return none != NULL;
}

static bool put(const struct state *state, const struct outputs *outputs, enum column column, const struct piece *piece)
{
    PyObject *to = outputs->each[column];
    if (PyList_Check(to))
        return put_into_list(to, outputs->at, piece, column);
    if (PyMemoryView_Check(to))
        return put_into_view(state, to, outputs->at, piece->bytes[column], piece->count);
    return put_into_array(state, to, piece->bytes[column]);
}

static bool put_all(const struct state *state, const struct outputs *outputs, const struct piece *piece)
{
    for (int column = 0; column < COLUMNS; column++)
        if (outputs->each[column] && !put(state, outputs, column, piece))
            return false;
    return true;
}

/* Takes away what was put into outputs that grow, after an exception, which stays. */
static void take_back(const struct outputs *outputs)
{
    PyObject *type, *value, *trace;
    PyErr_Fetch(&type, &value, &trace);
    for (int column = 0; column < COLUMNS; column++) {
        PyObject *output = outputs->each[column];
        if (output && !PyMemoryView_Check(output) && PySequence_DelSlice(output, outputs->at, PY_SSIZE_T_MAX) < 0)
            PyErr_Clear();
    }
    PyErr_Restore(type, value, trace);
}

/* The refusals of a piece by the indices into the outputs. */
static PyObject *refusals_of(const struct state *state, const struct piece *piece, Py_ssize_t at)
{
    struct part rest = piece->text;
    PyObject *refusals = PyDict_New();
    for (Py_ssize_t i = 0; refusals && i < piece->count; i++) {
        const struct part line = next_line(&rest);
        const uint32_t status = status_of(piece, i);
        if (status == GIX_DATE_OK)
            continue;
        PyObject *index = PyLong_FromSsize_t(at + i), *refused = index ? refused_line(state, status, line) : NULL;
        if (refused == NULL || PyDict_SetItem(refusals, index, refused) < 0)
            Py_CLEAR(refusals);
        Py_XDECREF(index);
        Py_XDECREF(refused);
    }
    return refusals;
}

PyObject *put_piece(const struct state *state, const struct piece *piece, const struct outputs *outputs)
{
    PyObject *refusals = refusals_of(state, piece, outputs->at);
    PyObject *done = refusals && have_room(outputs, piece->count) ? PyLong_FromLongLong(outputs->lines + piece->count) : NULL;
    if (done && !(put_all(state, outputs, piece) && PyDict_Update(outputs->so_far, refusals) == 0 &&
                  PyObject_SetAttr(outputs->so_far, state->kept[NAME_LINES], done) == 0)) {
        take_back(outputs);
        Py_CLEAR(done);
    }
    Py_XDECREF(refusals);
    return done;
}

/* How many lines are done, by the refusals so far. */
static bool take_done(const struct state *state, struct outputs *outputs)
{
    PyObject *so_far = outputs->so_far;
    PyObject *number = PyDict_Check(so_far) ? PyObject_GetAttr(so_far, state->kept[NAME_LINES]) : NULL;
    const bool taken = number && take_int64(number, &outputs->lines);
    if (!PyErr_Occurred() && !taken)
        PyErr_SetString(PyExc_TypeError, "the refusals so far have to be a dict");
    Py_XDECREF(number);
    return taken;
}

bool take_outputs(const struct state *state, PyObject *const *taken, int columns, struct outputs *outputs)
{
    int64_t begin;
    *outputs = (struct outputs){.so_far = taken[2]};
    if (!take_int64(taken[1], &begin) || !take_done(state, outputs))
        return false;
    if (!PyTuple_Check(taken[0]) || PyTuple_Size(taken[0]) != columns) {
        PyErr_Format(PyExc_TypeError, "there have to be %d outputs", columns);
        return false;
    }
    for (int column = 0; column < columns; column++) {
        PyObject *output = PyTuple_GetItem(taken[0], column);
        outputs->each[column] = output == Py_None ? NULL : output;
    }
    outputs->at = (Py_ssize_t)(begin + outputs->lines);
    return true;
}
