/* The module gix_date._library. */
#include "library.h"

#include <string.h>

static const struct state *connected(PyObject *module)
{
    struct state *state = module ? PyModule_GetState(module) : NULL;
    if (state && state->kept[CONNECTED])
        return state;
    if (!PyErr_Occurred())
        PyErr_SetString(PyExc_RuntimeError, "the package gix_date has not connected this module");
    return NULL;
}

const struct state *state_of(PyObject *module)
{
    return connected(module);
}

const struct state *state_of_type(PyTypeObject *type)
{
    return connected(PyType_GetModule(type));
}

/* ---- what the package gives ---- */

static const struct call connect_call = {
    "connect", 0, KEPT - CONNECTED,
    {"moment", "read_date", "approximate", "date_mode", "git_time", "expires", "raw_offsets", "without_offset", "texts", "formats",
     "kinds", "refusals", "no_directive", "naive", "parts_in_zone", "read_zone", "named_zone", NULL}};

/* Whether all is of the types on which the calls rely. */
static bool are_fit(PyObject *const *taken)
{
    static const enum kept classes[] = {MOMENT, READ_DATE, APPROXIMATE, DATE_MODE, GIT_TIME};
    static const enum kept tuples[] = {EXPIRES, RAW_OFFSETS, WITHOUT_OFFSET, TEXTS, FORMATS, KINDS};
    bool are = true;
    for (size_t i = 0; i < sizeof classes / sizeof *classes; i++)
        are = are && PyType_Check(taken[classes[i] - CONNECTED]);
    for (size_t i = 0; i < sizeof tuples / sizeof *tuples; i++)
        are = are && PyTuple_Check(taken[tuples[i] - CONNECTED]) && PyTuple_Size(taken[tuples[i] - CONNECTED]) > 0;
    are = are && PyType_IsSubtype((PyTypeObject *)taken[MOMENT - CONNECTED], &PyTuple_Type);
    if (!are)
        PyErr_SetString(PyExc_TypeError, "the package connects what is of other types");
    return are;
}

CALL(connect_package)
{
    struct state *state = PyModule_GetState(module);
    PyObject *taken[KEPT - CONNECTED];
    if (!state || !take_arguments(&connect_call, given, count, names, taken) || !are_fit(taken))
        return NULL;
    for (int i = 0; i < KEPT - CONNECTED; i++) {
        PyObject *old = state->kept[CONNECTED + i];
        state->kept[CONNECTED + i] = Py_NewRef(taken[i]);
        Py_XDECREF(old);
    }
    Py_RETURN_NONE;
}

static PyObject *status_text(PyObject *module, PyObject *number)
{
    const unsigned long status = PyLong_AsUnsignedLong(number);
    (void)module;
    if (PyErr_Occurred())
        return NULL;
    return PyUnicode_FromString(git_date_status_text((uint32_t)status));
}

static PyObject *versions(PyObject *module, PyObject *nothing)
{
    (void)module, (void)nothing;
    return Py_BuildValue("(II)", gix_date_version(), gix_date_ported_version());
}

/* ---- words of help ---- */

PyDoc_STRVAR(parse_header_doc, "parse_header($module, /, text)\n--\n\n"
"Reads the time of a commit header, `1660797906 +0800`, as leniently as gix-date does: `12abc` is 12, 0.\n\n"
"Refuses by `NotText` and `InvalidTime`.");

PyDoc_STRVAR(is_canonical_header_doc, "is_canonical_header($module, /, text)\n--\n\n"
"Whether a text is as Git writes it: read as a header and written, it comes back byte for byte.");

PyDoc_STRVAR(parse_doc, "parse($module, /, text, now=None, *, raw_offsets=None)\n--\n\n"
"Reads a date as the crate gix-date 0.18.1 does, perhaps relative to a moment.\n\n"
"docs/SPECIFICATION.md lists the forms. `raw_offsets` is `RawOffsets.QUARTERS` if it is not given. Refuses by `NotText`,\n"
"`UnknownFormat`, `DateConversion`, `MissingNow` and `Range`, and the moment by `NaiveDatetime`, `InvalidInstant` and `InvalidZone`.");

PyDoc_STRVAR(parse_carefully_doc,
"parse_carefully($module, /, text, now=None, *, raw_offsets=None, without_offset=None, texts=None)\n--\n\n"
"Reads a date as `parse` does, but refuses it by `Unclear` unless each character says something that is used.\n\n"
"The options are `RawOffsets.QUARTERS`, `WithoutOffset.UTC` and `Texts.CAREFUL` if they are not given. A number of seconds above\n"
"253402300799 needs `@`: else it is `AfterYear9999`, since it may be milliseconds or digits of a date. The other refusals are those\n"
"of `parse`.");

PyDoc_STRVAR(write_signature_doc, "write_signature($module, /, name, email, time)\n--\n\n"
"The signature line of a name, an email and a time, without a newline.\n\nRefuses by `NotText`, `BadPart` and `OffsetTooWide`.");

PyDoc_STRVAR(write_ident_doc, "write_ident($module, /, name, email, time)\n--\n\n"
"The identity line that Git writes of a name, an email and a time, as bytes without a newline.\n\n"
"Name and email lose crud at both ends: bytes from 1 to 32, and each of . , : ; < > \" \\ and '. Then they lose `<`, `>` and newlines.\n"
"Refuses by `NulInPart`, `EmptyName`, `OnlyCrud`, `BeforeEpoch` and `OffsetTooWide`, in this order.");

PyDoc_STRVAR(write_ident_as_is_doc, "write_ident_as_is($module, /, name, email, time)\n--\n\n"
"The identity line of a name, an email and a `GitTime` as they are, as bytes without a newline.\n\nRefuses by `BadPart`.");

PyDoc_STRVAR(parse_date_doc, "parse_date($module, /, text, now)\n--\n\n"
"Reads a date as Git's exact reader does: a `ExactDate`.\n\nRefuses by `Unreadable`, `NumberTooLarge`, `YearRefused` and `Range`.");

PyDoc_STRVAR(approxidate_doc, "approxidate($module, /, text, now)\n--\n\n"
"Reads a date as people write it: an `Approximate`. A word that Git does not know is ignored: `5 mins ago` is the fifth.\n\n"
"Refuses by `NumberTooLarge`, `BackTooFar`, `YearRefused` and `Range`.");

PyDoc_STRVAR(expiry_date_doc, "expiry_date($module, /, text, now)\n--\n\n"
"Reads what expires: what is older than a date, as an `Approximate`, or `never`, `false`, `all` and `now`, as an `Expires`.\n\n"
"Refuses as `approxidate` does, and by `Unreadable` if nothing was understood.");

PyDoc_STRVAR(show_date_doc, "show_date($module, /, time, mode, now)\n--\n\n"
"A date as `git log --date=MODE` shows it at a moment. The mode is a `DateMode`, a `DateKind`, or Git's name. It may also be\n"
"`format:` or `format-local:` with a format, as in `format:%Y-%m-%d`, which may make a text of any length.\n\n"
"Refuses by `Range` what Git cannot show, by `UnknownMode` a name, and by `FlagRefused`, `UnknownDirective` and `WidthTooLarge` a format.");

PyDoc_STRVAR(show_git_time_doc, "show_git_time($module, /, time, mode, now)\n--\n\n"
"The date of an identity line, a `GitTime`, as `git log --date=MODE` shows it at a moment, with the offset that the line writes.\n"
"The mode is a `DateMode`, a `DateKind`, or Git's name.\n\n"
"Refuses by `Range`, `BeforeEpoch` and `OffsetTooWide`, and by `UnknownMode` a name.");

PyDoc_STRVAR(parse_offset_doc, "parse_offset($module, /, text)\n--\n\n"
"The seconds east of UTC of an offset: a sign, two digits of hours to 25, and perhaps two of minutes, with a colon before them or\n"
"without, as in `-03:30`.\n\nRefuses by `InvalidZone` any other text.");

PyDoc_STRVAR(offset_text_doc, "offset_text($module, /, offset)\n--\n\n"
"The text of an offset in seconds east of UTC, as Git writes it: a sign, hours in two digits or more, and two digits of minutes, as in\n"
"`+0530`. Seconds beyond whole minutes are dropped.");

PyDoc_STRVAR(offset_from_decimal_doc, "offset_from_decimal($module, /, decimal)\n--\n\n"
"The offset in seconds that a number says as Git's own code has it: hours and two digits of minutes, as -130 of `-0130`. One of more than\n"
"2147483647 seconds is that many.");

PyDoc_STRVAR(offset_to_decimal_doc, "offset_to_decimal($module, /, offset)\n--\n\n"
"The number that says an offset so, without the seconds beyond whole minutes: -130 of -5400.");

PyDoc_STRVAR(age_of_doc, "age_of($module, /, time, now)\n--\n\nThe unit of an age, its count, and the months beyond years.");
PyDoc_STRVAR(cut_signature_doc, "cut_signature($module, /, line)\n--\n\nThe name, the email and the time of a signature line.");
PyDoc_STRVAR(cut_ident_doc, "cut_ident($module, /, line)\n--\n\n"
"The name, the email, the rest, the seconds and the offset of an identity line, the time that Git shows or None, whether the line comes\n"
"back, and the indices of its parts.");
PyDoc_STRVAR(ident_time_doc, "ident_time($module, /, seconds, offset)\n--\n\nThe time of Git's seconds and decimal offset.");
PyDoc_STRVAR(git_time_text_doc, "git_time_text($module, /, time)\n--\n\nThe text of a GitTime in an identity line.");
PyDoc_STRVAR(fsck_number_doc, "fsck_number($module, /, line)\n--\n\n"
"The number of what git fsck says of an identity line, which is 0 for nothing, and the index of what is wrong, or None.");
PyDoc_STRVAR(parts_of_doc, "parts_of($module, /, at)\n--\n\n"
"Seconds since 1970, microseconds from 0 to 999999, and the offset in seconds of an aware datetime.\n\n"
"Refuses by `NaiveDatetime`, and an offset with parts of a second by `InvalidZone`.");
PyDoc_STRVAR(mode_named_doc, "mode_named($module, /, name)\n--\n\nThe kind of one of Git's modes, and whether it is local.");
PyDoc_STRVAR(times_of_lines_doc, "times_of_lines($module, /, reader, data, begin, end, now, raw_offsets)\n--\n\n"
"A Time or a refusal of each line from an index to another.");
PyDoc_STRVAR(add_lines_doc, "add_lines($module, /, outputs, begin, so_far, reader, data, first, end, now, raw_offsets)\n--\n\n"
"Puts the lines from an index to another into two outputs, and their refusals into those so far. How many lines are done.");
PyDoc_STRVAR(add_idents_doc, "add_idents($module, /, outputs, begin, so_far, front, data, first, end)\n--\n\n"
"The same of identity lines, for ten outputs of which any may be None. The data stand at an index of the source.");
PyDoc_STRVAR(zone_path_doc, "The path of the file that says the zone of a TZ and a TZDIR. It is empty if none does.");
PyDoc_STRVAR(zone_file_doc, "The bytes of the file at a path; none if there is no file, and None if it may not be read as a zone.");
PyDoc_STRVAR(connect_package_doc, "Keeps the classes, options and functions of the package that the calls use.");
PyDoc_STRVAR(status_text_doc, "What a status means, in English.");
PyDoc_STRVAR(versions_doc, "The versions of the library and of what it ports, as numbers.");

#define AS_CALL(name) {#name, (PyCFunction)(void (*)(void))name, METH_FASTCALL | METH_KEYWORDS, name##_doc}
static PyMethodDef calls[] = {
    AS_CALL(parse_header), AS_CALL(is_canonical_header), AS_CALL(parse), AS_CALL(parse_carefully), AS_CALL(parts_of),
    AS_CALL(cut_signature), AS_CALL(write_signature),
    AS_CALL(cut_ident), AS_CALL(ident_time), AS_CALL(git_time_text), AS_CALL(fsck_number), AS_CALL(write_ident), AS_CALL(write_ident_as_is),
    AS_CALL(parse_date), AS_CALL(approxidate), AS_CALL(expiry_date), AS_CALL(mode_named), AS_CALL(show_date),
    AS_CALL(show_git_time), AS_CALL(age_of),
    AS_CALL(parse_offset), AS_CALL(offset_text), AS_CALL(offset_from_decimal), AS_CALL(offset_to_decimal),
    AS_CALL(times_of_lines), AS_CALL(add_lines), AS_CALL(add_idents),
    {"connect", (PyCFunction)(void (*)(void))connect_package, METH_FASTCALL | METH_KEYWORDS, connect_package_doc},
    {"zone_path", zone_path, METH_VARARGS, zone_path_doc},
    {"zone_file", zone_file, METH_O, zone_file_doc},
    {"status_text", status_text, METH_O, status_text_doc},
    {"versions", versions, METH_NOARGS, versions_doc},
    {NULL, NULL, 0, NULL}};

/* ---- the module ---- */

static bool keep_type(PyObject *module, PyType_Spec *spec, const char *name, PyObject **kept)
{
    *kept = PyType_FromModuleAndSpec(module, spec, NULL);
    return *kept && PyObject_SetAttrString(module, name, *kept) == 0;
}

static bool keep_names(struct state *state)
{
    static const char *names[] = {"time", "has_offset", "understood", "ignored", "kind", "local", "offset", "lines", "format", "cast",
                                  "frombytes", "utcoffset", "days", "seconds", "microseconds", "toordinal", "hour", "minute", "second",
                                  "microsecond", "minus_zero"};
    for (int i = 0; i < CONNECTED - NAME_TIME; i++) {
        state->kept[NAME_TIME + i] = PyUnicode_InternFromString(names[i]);
        if (state->kept[NAME_TIME + i] == NULL)
            return false;
    }
    return true;
}

static int begin_module(PyObject *module)
{
    struct state *state = PyModule_GetState(module);
    return keep_type(module, &time_spec, "Time", &state->kept[TIME]) &&
           keep_type(module, &zone_spec, "Zone", &state->kept[ZONE]) && keep_names(state) ? 0 : -1;
}

static int visit_state(PyObject *module, visitproc visit, void *arg)
{
    const struct state *state = PyModule_GetState(module);
    for (int i = 0; state && i < KEPT; i++)
        Py_VISIT(state->kept[i]);
    return 0;
}

static int clear_state(PyObject *module)
{
    struct state *state = PyModule_GetState(module);
    for (int i = 0; state && i < KEPT; i++)
        Py_CLEAR(state->kept[i]);
    return 0;
}

static void free_state(void *module)
{
    (void)clear_state(module);
}

static PyModuleDef_Slot library_slots[] = {{Py_mod_exec, begin_module}, {0, NULL}};

static struct PyModuleDef library = {
    PyModuleDef_HEAD_INIT, "gix_date._library", "The calls of the library for C. Use the module gix_date.", sizeof(struct state), calls,
    library_slots, visit_state, clear_state, free_state};

PyMODINIT_FUNC PyInit__library(void)
{
    if (!gix_date_version_fits()) {
        PyErr_SetString(PyExc_ImportError, "the library gix_date does not fit the header of this extension");
        return NULL;
    }
    return PyModuleDef_Init(&library);
}
