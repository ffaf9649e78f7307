/* The class Time: two numbers, how they compare, and how they are printed. The package adds methods that need datetime, and makes it a
 * frozen dataclass. It is no class of Python with a type in C below, since such a class takes part in the collection of garbage. */
#include "library.h"

#include <stdio.h>
#include <structmember.h>

enum { ROOM = 128 };

/* Both have 64 bits, so that an offset that a class below sets is refused and not cut. */
struct time {
    PyObject_HEAD
    long long seconds, offset;
};

PyObject *new_time(const struct state *state, const gix_date_time *time)
{
    struct time *self = (struct time *)PyType_GenericAlloc((PyTypeObject *)state->kept[TIME], 0);
    if (self) {
        self->seconds = time->seconds;
        self->offset = time->offset;
    }
    return (PyObject *)self;
}

static void free_time(PyObject *object)
{
    PyTypeObject *type = Py_TYPE(object);
    const freefunc release = (freefunc)PyType_GetSlot(type, Py_tp_free);
    release(object);
    Py_DECREF(type);
}

static bool read_time(const struct time *self, gix_date_time *time)
{
    if (self->offset < INT32_MIN || self->offset > INT32_MAX) {
        PyErr_SetString(PyExc_OverflowError, "the offset of a time has 32 bits");
        return false;
    }
    *time = (gix_date_time){self->seconds, (int32_t)self->offset};
    return true;
}

bool take_time(const struct state *state, PyObject *object, gix_date_time *time)
{
    if (PyObject_TypeCheck(object, (PyTypeObject *)state->kept[TIME]))
        return read_time((const struct time *)object, time);
    PyErr_Format(PyExc_TypeError, "a time has to be a Time, not %R", object);
    return false;
}

static int set_time(PyObject *object, PyObject *arguments, PyObject *named)
{
    static char *names[] = {"seconds", "offset", NULL};
    struct time *self = (struct time *)object;
    PyObject *seconds, *offset;
    gix_date_time time;
    if (!PyArg_ParseTupleAndKeywords(arguments, named, "OO:Time", names, &seconds, &offset) || !take_int64(seconds, &time.seconds) ||
        !take_int32(offset, &time.offset))
        return -1;
    self->seconds = time.seconds;
    self->offset = time.offset;
    return 0;
}

static int order_of(long long one, long long other)
{
    return (one > other) - (one < other);
}

/* Not what is equal: by its class, since one below may have more fields. */
static PyObject *is_unequal(PyObject *object, PyObject *with)
{
    const richcmpfunc compare = (richcmpfunc)PyType_GetSlot(Py_TYPE(object), Py_tp_richcompare);
    PyObject *equal = compare(object, with, Py_EQ);
    if (equal == NULL || equal == Py_NotImplemented)
        return equal;
    const int is = PyObject_IsTrue(equal);
    Py_DECREF(equal);
    return is < 0 ? NULL : PyBool_FromLong(!is);
}

static PyObject *compare_times(PyObject *object, PyObject *with, int operation)
{
    if (operation == Py_NE)
        return is_unequal(object, with);
    if (Py_TYPE(object) != Py_TYPE(with))
        Py_RETURN_NOTIMPLEMENTED;
    const struct time *one = (const struct time *)object, *other = (const struct time *)with;
    int order = order_of(one->seconds, other->seconds);
    if (order == 0)
        order = order_of(one->offset, other->offset);
    Py_RETURN_RICHCOMPARE(order, 0, operation);
}

/* That of the tuple of both numbers. */
static Py_hash_t hash_time(PyObject *object)
{
    const struct time *self = (const struct time *)object;
    PyObject *both = Py_BuildValue("(LL)", self->seconds, self->offset);
    const Py_hash_t hash = both ? PyObject_Hash(both) : -1;
    Py_XDECREF(both);
    return hash;
}

/* The name of the class, and both numbers. */
static PyObject *repr_time(PyObject *object)
{
    char room[ROOM];
    const struct time *self = (const struct time *)object;
    const int len = snprintf(room, sizeof room, "(seconds=%lld, offset=%lld)", self->seconds, self->offset);
    PyObject *name = attribute((PyObject *)Py_TYPE(object), "__qualname__");
    PyObject *numbers = name ? PyUnicode_FromStringAndSize(room, len) : NULL;
    PyObject *text = numbers ? PyUnicode_Concat(name, numbers) : NULL;
    Py_XDECREF(name);
    Py_XDECREF(numbers);
    return text;
}

/* ---- printed texts ---- */

/* By memory that is taken, where a text needs more room. */
static uint32_t write_more(const struct writing *writing, size_t len, PyObject **text)
{
    char *out = PyMem_Malloc(len);
    const uint32_t status = out ? writing->write(writing, out, len, &len) : GIX_DATE_OUT_OF_MEMORY;
    if (status == GIX_DATE_OK)
        *text = PyUnicode_DecodeUTF8(out, (Py_ssize_t)len, NULL);
    PyMem_Free(out);
    return status;
}

PyObject *written(const struct state *state, const struct writing *writing)
{
    char room[ROOM];
    size_t len = 0;
    PyObject *text = NULL;
    uint32_t status = writing->write(writing, room, sizeof room, &len);
    if (status == GIX_DATE_OK)
        return PyUnicode_DecodeUTF8(room, (Py_ssize_t)len, NULL);
    if (status == GIX_DATE_NO_ROOM)
        status = write_more(writing, len, &text);
    if (status == GIX_DATE_OK)
        return text;
    return refuse(state, status, writing->second ? NULL : writing->first, writing->place ? *writing->place : GIT_DATE_NOTHING);
}

static uint32_t call_write_header(const struct writing *w, char *out, size_t out_len, size_t *len)
{
    return gix_date_write_header(&w->time, out, out_len, len);
}

static uint32_t call_format(const struct writing *w, char *out, size_t out_len, size_t *len)
{
    return gix_date_format(&w->time, w->format, out, out_len, len);
}

static uint32_t call_format_or_unix(const struct writing *w, char *out, size_t out_len, size_t *len)
{
    return gix_date_format_or_unix(&w->time, w->format, out, out_len, len);
}

static uint32_t call_pattern(const struct writing *w, char *out, size_t out_len, size_t *len)
{
    return gix_date_format_by_pattern(&w->time, w->first->at, w->first->len, out, out_len, len);
}

static uint32_t call_pattern_or_unix(const struct writing *w, char *out, size_t out_len, size_t *len)
{
    return gix_date_format_by_pattern_or_unix(&w->time, w->first->at, w->first->len, out, out_len, len);
}

/* ---- methods ---- */

/* The text in a commit header; from 100 hours of offset on the seconds alone. */
static PyObject *show_time(PyObject *object)
{
    char room[GIX_DATE_MAX_HEADER];
    size_t len = 0;
    gix_date_time time;
    if (!read_time((const struct time *)object, &time))
        return NULL;
    if (gix_date_write_header(&time, room, sizeof room, &len) != GIX_DATE_OK)
        len = (size_t)snprintf(room, sizeof room, "%lld", (long long)time.seconds);
    return PyUnicode_FromStringAndSize(room, (Py_ssize_t)len);
}

#define METHOD(name) \
    static PyObject *name(PyObject *self, PyTypeObject *class, PyObject *const *given, Py_ssize_t count, PyObject *names)

METHOD(to_header)
{
    static const struct call call = {"to_header", 0, 0, {NULL}};
    const struct state *state = state_of_type(class);
    struct writing writing = {.write = call_write_header};
    PyObject *taken[1];
    if (!state || !take_arguments(&call, given, count, names, taken) || !read_time((const struct time *)self, &writing.time))
        return NULL;
    return written(state, &writing);
}

/* Whether a pattern is the name of a form that Git shows, and has no directive: such a one prints itself, and is never meant. */
static bool is_name(const struct text *pattern)
{
    git_date_mode mode;
    return git_date_mode_named(pattern->at, pattern->len, &mode) == GIX_DATE_OK;
}

static PyObject *refuse_name(const struct state *state, PyObject *pattern)
{
    PyObject *refused = PyObject_CallFunctionObjArgs(state->kept[NO_DIRECTIVE], pattern, NULL);
    if (refused)
        PyErr_SetObject(state->kept[NO_DIRECTIVE], refused);
    Py_XDECREF(refused);
    return NULL;
}

static PyObject *print_by_pattern(const struct state *state, struct writing *writing, PyObject *object)
{
    struct text pattern;
    PyObject *printed = NULL;
    if (take_text(object, &pattern)) {
        writing->first = &pattern;
        printed = is_name(&pattern) ? refuse_name(state, object) : written(state, writing);
    }
    drop_text(&pattern);
    return printed;
}

/* Prints by a format or by a pattern. */
static PyObject *print_time(const struct state *state, PyObject *self, PyObject *format, bool or_unix)
{
    struct writing writing = {.write = or_unix ? call_format_or_unix : call_format};
    if (!read_time((const struct time *)self, &writing.time))
        return NULL;
    if (is_option(state->kept[FORMATS], format, &writing.format))
        return written(state, &writing);
    if (PyUnicode_Check(format) || PyBytes_Check(format)) {
        writing.write = or_unix ? call_pattern_or_unix : call_pattern;
        return print_by_pattern(state, &writing, format);
    }
    (void)take_option(state->kept[FORMATS], format, &writing.format);
    return NULL;
}

METHOD(format)
{
    static const struct call call = {"format", 1, 1, {"format", NULL}};
    const struct state *state = state_of_type(class);
    PyObject *form;
    return state && take_arguments(&call, given, count, names, &form) ? print_time(state, self, form, false) : NULL;
}

METHOD(format_or_unix)
{
    static const struct call call = {"format_or_unix", 1, 1, {"format", NULL}};
    const struct state *state = state_of_type(class);
    PyObject *form;
    return state && take_arguments(&call, given, count, names, &form) ? print_time(state, self, form, true) : NULL;
}

PyDoc_STRVAR(to_header_doc, "to_header($self, /)\n--\n\n"
"The text in a commit header. Seconds of the offset are dropped. Refuses by `OffsetTooWide`.");
PyDoc_STRVAR(format_doc, "format($self, /, format)\n--\n\n"
"The text of this time in a `Format`, or by a pattern of `strftime` with the directives of jiff, as a str or bytes.\n\n"
"Refuses by `Conversion`, `OffsetTooWide`, `Pattern` and `NotText`, and the name of a form, such as `iso`, by `NoDirective`.");
PyDoc_STRVAR(format_or_unix_doc, "format_or_unix($self, /, format)\n--\n\n"
"Prints as `format` does, but the seconds for a time that has no such text. Refuses by `NotText` and `NoDirective`.");

/* For the dataclasses below this one, whose `__init__` sets the fields one by one. */
static PyObject *after_init(PyObject *self, PyObject *nothing)
{
    gix_date_time time;
    (void)nothing;
    return read_time((const struct time *)self, &time) ? Py_NewRef(Py_None) : NULL;
}

#define AS_METHOD(name) {#name, (PyCFunction)(void (*)(void))name, METH_METHOD | METH_FASTCALL | METH_KEYWORDS, name##_doc}
static PyMethodDef methods[] = {
    AS_METHOD(to_header), AS_METHOD(format), AS_METHOD(format_or_unix),
    {"__post_init__", after_init, METH_NOARGS, "Refuses an offset of more than 32 bits."},
    {NULL, NULL, 0, NULL}};

/* The dataclass lets nobody set them. */
static PyMemberDef members[] = {
    {"seconds", T_LONGLONG, offsetof(struct time, seconds), 0, "Seconds since 1970-01-01 00:00:00 UTC, of 64 bits."},
    {"offset", T_LONGLONG, offsetof(struct time, offset), 0, "Seconds east of UTC, of 32 bits."},
    {NULL, 0, 0, 0, NULL}};

PyDoc_STRVAR(time_doc, "Time(seconds, offset)\n--\n\n"
"A time. Any two numbers are one; `str` of it is the text in a commit header.\n\n"
"- seconds: since 1970-01-01 00:00:00 UTC, of 64 bits; below 0 before it\n"
"- offset: seconds east of UTC, of 32 bits\n\n"
"Times are in order of their seconds, then of their offsets. Other types are a TypeError, larger numbers an OverflowError.");

static PyType_Slot slots[] = {
    {Py_tp_init, set_time}, {Py_tp_richcompare, compare_times}, {Py_tp_hash, hash_time}, {Py_tp_repr, repr_time}, {Py_tp_str, show_time},
    {Py_tp_methods, methods}, {Py_tp_members, members}, {Py_tp_doc, (void *)time_doc}, {Py_tp_dealloc, free_time}, {0, NULL}};

PyType_Spec time_spec = {"gix_date.times.Time", sizeof(struct time), 0, Py_TPFLAGS_DEFAULT | Py_TPFLAGS_BASETYPE, slots};
