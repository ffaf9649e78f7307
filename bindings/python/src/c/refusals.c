/* How a call refuses: by the package's own classes. */
#include "library.h"

/* How many characters a part of UTF-8 has. Halves of surrogate pairs count as one. */
static Py_ssize_t count_characters(const char *at, size_t len)
{
    Py_ssize_t count = 0;
    for (size_t i = 0; i < len; i++)
        count += ((unsigned char)at[i] & 0xC0) != 0x80;
    return count;
}

PyObject *index_or_none(const struct text *text, size_t place)
{
    if (place == GIT_DATE_NOTHING)
        Py_RETURN_NONE;
    return PyLong_FromSsize_t(PyBytes_Check(text->object) ? (Py_ssize_t)place : count_characters(text->at, place));
}

PyObject *refusal(const struct state *state, uint32_t status, PyObject *text, PyObject *place)
{
    PyObject *number = PyLong_FromUnsignedLong(status), *refused = NULL;
    PyObject *class = number ? PyObject_GetItem(state->kept[REFUSALS], number) : NULL;
    if (class)
        refused = PyObject_CallFunctionObjArgs(class, text, place, NULL);
    Py_XDECREF(class);
    Py_XDECREF(number);
    return refused;
}

PyObject *refuse(const struct state *state, uint32_t status, const struct text *text, size_t place)
{
    if (status == GIX_DATE_OUT_OF_MEMORY)
        return PyErr_NoMemory();
    PyObject *index = text ? index_or_none(text, place) : Py_NewRef(Py_None);
    PyObject *refused = index ? refusal(state, status, text ? text->object : Py_None, index) : NULL;
    if (refused)
        PyErr_SetObject((PyObject *)Py_TYPE(refused), refused);
    Py_XDECREF(refused);
    Py_XDECREF(index);
    return NULL;
}
