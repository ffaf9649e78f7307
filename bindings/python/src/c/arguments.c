/* How arguments are taken. */
#include "library.h"

#include <limits.h>
#include <string.h>

/* Python reads a long faster than a long long. */
#if LONG_MAX != INT64_MAX
#error "a long has to have 64 bits, as on x86-64 with glibc"
#endif

static int count_parameters(const struct call *call)
{
    int count = 0;
    while (call->parameters[count])
        count++;
    return count;
}

/* The index of a parameter; -1 with an exception if none has this name. */
static int index_of_parameter(const struct call *call, PyObject *name)
{
    for (int i = 0; call->parameters[i]; i++)
        if (PyUnicode_CompareWithASCIIString(name, call->parameters[i]) == 0)
            return i;
    PyErr_Format(PyExc_TypeError, "%s() got an unexpected keyword argument '%U'", call->name, name);
    return -1;
}

static bool take_named(const struct call *call, PyObject *const *given, PyObject *names, PyObject **taken)
{
    const Py_ssize_t count = names ? PyTuple_Size(names) : 0;
    for (Py_ssize_t i = 0; i < count; i++) {
        const int at = index_of_parameter(call, PyTuple_GetItem(names, i));
        if (at < 0)
            return false;
        if (taken[at]) {
            PyErr_Format(PyExc_TypeError, "%s() got multiple values for argument '%s'", call->name, call->parameters[at]);
            return false;
        }
        taken[at] = given[i];
    }
    return true;
}

bool take_arguments(const struct call *call, PyObject *const *given, Py_ssize_t count, PyObject *names, PyObject **taken)
{
    const int all = count_parameters(call);
    if (count > call->by_position) {
        PyErr_Format(PyExc_TypeError, "%s() takes at most %d positional arguments but %zd were given", call->name, call->by_position,
                     count);
        return false;
    }
    for (int i = 0; i < all; i++)
        taken[i] = i < count ? given[i] : NULL;
    if (!take_named(call, given + count, names, taken))
        return false;
    for (int i = 0; i < call->needed; i++)
        if (taken[i] == NULL) {
            PyErr_Format(PyExc_TypeError, "%s() missing a required argument: '%s'", call->name, call->parameters[i]);
            return false;
        }
    return true;
}

PyObject *attribute(PyObject *object, const char *name)
{
    PyObject *interned = PyUnicode_InternFromString(name);
    PyObject *value = interned ? PyObject_GetAttr(object, interned) : NULL;
    Py_XDECREF(interned);
    return value;
}

bool take_int64(PyObject *object, int64_t *number)
{
    if (PyLong_CheckExact(object)) {
        *number = PyLong_AsLong(object);
    } else {
        PyObject *index = PyNumber_Index(object);
        *number = index ? PyLong_AsLong(index) : -1;
        Py_XDECREF(index);
    }
    return *number != -1 || !PyErr_Occurred();
}

bool take_int32(PyObject *object, int32_t *number)
{
    int64_t wide;
    if (!take_int64(object, &wide))
        return false;
    if (wide < INT32_MIN || wide > INT32_MAX) {
        PyErr_SetString(PyExc_OverflowError, "the number has more than 32 bits");
        return false;
    }
    *number = (int32_t)wide;
    return true;
}

static void refuse_option(PyObject *members, PyObject *option)
{
    PyObject *name = attribute((PyObject *)Py_TYPE(PyTuple_GetItem(members, 0)), "__name__");
    if (name)
        PyErr_Format(PyExc_TypeError, "the option has to be a %U, not %R", name, option);
    Py_XDECREF(name);
}

bool is_option(PyObject *members, PyObject *object, uint32_t *number)
{
    const Py_ssize_t count = PyTuple_Size(members);
    for (Py_ssize_t i = 0; i < count; i++)
        if (PyTuple_GetItem(members, i) == object) {
            *number = (uint32_t)i;
            return true;
        }
    return false;
}

bool take_option(PyObject *members, PyObject *option, uint32_t *number)
{
    if (is_option(members, option, number))
        return true;
    refuse_option(members, option);
    return false;
}

bool take_any_option(PyObject *members, PyObject *option, uint32_t *number)
{
    *number = 0;
    return option == NULL || option == Py_None || take_option(members, option, number);
}

/* The bytes of a str, which it keeps itself unless it has halves of surrogate pairs. */
static bool take_str(PyObject *object, struct text *text)
{
    Py_ssize_t len;
    text->at = PyUnicode_AsUTF8AndSize(object, &len);
    if (text->at == NULL) {
        if (!PyErr_ExceptionMatches(PyExc_UnicodeEncodeError))
            return false;
        PyErr_Clear();
        text->owner = PyUnicode_AsEncodedString(object, "utf-8", "surrogatepass");
        if (text->owner == NULL)
            return false;
        text->at = PyBytes_AsString(text->owner);
        len = PyBytes_Size(text->owner);
    }
    text->len = (size_t)len;
    return true;
}

bool take_text(PyObject *object, struct text *text)
{
    *text = (struct text){.object = object};
    if (PyUnicode_Check(object))
        return take_str(object, text);
    if (!PyBytes_Check(object)) {
        PyErr_SetString(PyExc_TypeError, "a text has to be a str or bytes");
        return false;
    }
    text->at = PyBytes_AsString(object);
    text->len = (size_t)PyBytes_Size(object);
    return true;
}

void drop_text(struct text *text)
{
    Py_CLEAR(text->owner);
}
