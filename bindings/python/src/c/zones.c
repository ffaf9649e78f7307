/* Zones that were read, where their files are, and moments. */
#include "library.h"

#include <limits.h>
#include <string.h>
#include <structmember.h>

#define WANTED_ZONE "a zone has to be an int, a str or bytes"

/* A Zone: what a rule or a file says, read once for many calls. */
struct zone {
    PyObject_HEAD
    gix_date_zone zone;
    uint32_t status; /* of reading it: each call refuses a zone that was not read */
};

/* Whether the library takes a text for what Python gives it as: bytes for a file, a str for a rule. The library goes by how a text begins,
 * so that it would take a str for a file or an offset ("+0200"), and bytes for a rule. No rule begins with a sign. */
static bool is_what_it_seems(const struct text *text)
{
    const bool begins_as_file = text->len >= 4 && memcmp(text->at, "TZif", 4) == 0;
    const bool begins_as_offset = text->len > 0 && (*text->at == '+' || *text->at == '-');
    return PyBytes_Check(text->object) ? begins_as_file : !begins_as_file && !begins_as_offset;
}

/* Reads a zone; false with an exception if memory is refused. A zone that cannot be read becomes an offset beyond all that are valid, so
 * that each call refuses it in its turn among the arguments, by the status that it has for both. */
static bool read_zone(const struct text *text, struct zone *self)
{
    self->status = is_what_it_seems(text) ? gix_date_zone_read(text->at, text->len, &self->zone) : GIX_DATE_INVALID_ZONE;
    if (self->status == GIX_DATE_OUT_OF_MEMORY) {
        PyErr_NoMemory();
        return false;
    }
    if (self->status != GIX_DATE_OK)
        self->zone = (gix_date_zone)GIX_DATE_AT_OFFSET(INT32_MAX);
    return true;
}

static PyObject *new_zone(PyTypeObject *type, PyObject *arguments, PyObject *named)
{
    static char *names[] = {"", NULL};
    PyObject *object;
    struct text text;
    if (!PyArg_ParseTupleAndKeywords(arguments, named, "O:Zone", names, &object))
        return NULL;
    if (!PyUnicode_Check(object) && !PyBytes_Check(object)) {
        PyErr_SetString(PyExc_TypeError, WANTED_ZONE);
        return NULL;
    }
    if (!take_text(object, &text))
        return NULL;
    struct zone *self = (struct zone *)PyType_GenericAlloc(type, 0);
    if (self && !read_zone(&text, self))
        Py_CLEAR(self);
    drop_text(&text);
    return (PyObject *)self;
}

static void free_zone(PyObject *object)
{
    PyTypeObject *type = Py_TYPE(object);
    gix_date_zone_free(&((struct zone *)object)->zone);
    PyObject_Free(object);
    Py_DECREF(type);
}

static PyMemberDef zone_members[] = {
    {"status", T_UINT, offsetof(struct zone, status), READONLY, "The status of reading it, 0 if it was read. Calls refuse any other."},
    {NULL, 0, 0, 0, NULL}};

static PyType_Slot zone_slots[] = {
    {Py_tp_new, new_zone},
    {Py_tp_dealloc, free_zone},
    {Py_tp_members, zone_members},
    {Py_tp_doc, "A zone that was read."},
    {0, NULL}};

PyType_Spec zone_spec = {"gix_date._library.Zone", sizeof(struct zone), 0, Py_TPFLAGS_DEFAULT | Py_TPFLAGS_IMMUTABLETYPE, zone_slots};

PyObject *zone_path(PyObject *module, PyObject *arguments)
{
    const struct state *state = state_of(module);
    PyObject *first, *second;
    struct text tz, tzdir;
    char path[PATH_MAX];
    size_t len;
    if (!state || !PyArg_ParseTuple(arguments, "SS:zone_path", &first, &second) || !take_text(first, &tz) || !take_text(second, &tzdir))
        return NULL;
    const uint32_t status = gix_date_zone_path(tz.at, tz.len, tzdir.at, tzdir.len, path, sizeof path, &len);
    if (status == GIX_DATE_NOT_TEXT)
        return refuse(state, GIX_DATE_INVALID_ZONE, &tz, GIT_DATE_NOTHING);
    /* No system has a file of a longer path. */
    return PyBytes_FromStringAndSize(path, status == GIX_DATE_OK ? (Py_ssize_t)len : 0);
}

PyObject *zone_file(PyObject *module, PyObject *path)
{
    char *at, *bytes;
    size_t len;
    uint32_t status;
    (void)module;
    if (PyBytes_AsStringAndSize(path, &at, NULL) < 0)
        return NULL;
    bytes = PyMem_Malloc(GIX_DATE_ZONE_FILE_ROOM);
    if (bytes == NULL)
        return PyErr_NoMemory();
    Py_BEGIN_ALLOW_THREADS
    status = gix_date_zone_file(at, bytes, GIX_DATE_ZONE_FILE_ROOM, &len);
    Py_END_ALLOW_THREADS
    PyObject *file = status == GIX_DATE_OK ? PyBytes_FromStringAndSize(bytes, (Py_ssize_t)len) : Py_None;
    if (file == Py_None)
        Py_INCREF(file);
    PyMem_Free(bytes);
    return file;
}

/* What a callable of the package makes of an object. It has to be of a type. */
static PyObject *made(PyObject *callable, PyObject *of, PyObject *type)
{
    PyObject *object = PyObject_CallFunctionObjArgs(callable, of, NULL);
    if (object && !PyObject_TypeCheck(object, (PyTypeObject *)type)) {
        PyErr_SetString(PyExc_TypeError, "the package makes another type");
        Py_CLEAR(object);
    }
    return object;
}

/* Keeps the zone of a file, by its bytes or its key, or of a rule. Refuses a file that counts leap seconds. */
static bool keep_zone(const struct state *state, PyObject *object, struct moment *moment)
{
    moment->kept = (struct zone *)made(state->kept[PyUnicode_Check(object) ? NAMED_ZONE : READ_ZONE], object, state->kept[ZONE]);
    if (moment->kept && moment->kept->status == GIX_DATE_ZONE_COUNTS_LEAP_SECONDS)
        return refuse(state, moment->kept->status, NULL, GIT_DATE_NOTHING) != NULL;
    return moment->kept != NULL;
}

static bool take_zone(const struct state *state, PyObject *object, struct moment *moment)
{
    if (PyIndex_Check(object))
        return take_int32(object, &moment->fixed.offset);
    if (PyUnicode_Check(object) || PyBytes_Check(object))
        return keep_zone(state, object, moment);
    PyErr_SetString(PyExc_TypeError, WANTED_ZONE);
    return false;
}

/* Takes the parts of a moment: a tuple of seconds, nanoseconds and a zone. */
static bool take_parts(const struct state *state, PyObject *parts, struct moment *moment)
{
    if (PyTuple_Size(parts) != 3) {
        PyErr_SetString(PyExc_TypeError, "a moment has seconds, nanoseconds and a zone");
        return false;
    }
    return take_int64(PyTuple_GetItem(parts, 0), &moment->now.seconds) &&
           take_int32(PyTuple_GetItem(parts, 1), &moment->now.nanoseconds) && take_zone(state, PyTuple_GetItem(parts, 2), moment);
}

bool take_moment(const struct state *state, PyObject *object, struct moment *moment)
{
    *moment = (struct moment){.is_given = true};
    if (PyObject_TypeCheck(object, (PyTypeObject *)state->kept[MOMENT]))
        return take_parts(state, object, moment);
    PyObject *parts = made(state->kept[PARTS_IN_ZONE], object, (PyObject *)&PyTuple_Type);
    const bool taken = parts && take_parts(state, parts, moment);
    Py_XDECREF(parts);
    return taken;
}

bool take_any_moment(const struct state *state, PyObject *object, struct moment *moment)
{
    *moment = (struct moment){.is_given = false};
    return object == NULL || object == Py_None || take_moment(state, object, moment);
}

void drop_moment(struct moment *moment)
{
    Py_CLEAR(moment->kept);
}

const gix_date_zone *zone_of(const struct moment *moment)
{
    return moment->kept ? &moment->kept->zone : &moment->fixed;
}
