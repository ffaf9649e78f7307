/* Calls that read headers, dates and signature lines. */
#include "library.h"

static PyObject *answer_time(const struct state *state, uint32_t status, const gix_date_time *time, const struct text *text, size_t place)
{
    return status == GIX_DATE_OK ? new_time(state, time) : refuse(state, status, text, place);
}

CALL(parse_header)
{
    static const struct call call = {"parse_header", 1, 1, {"text", NULL}};
    const struct state *state = state_of(module);
    struct text text;
    gix_date_time time = {0, 0};
    PyObject *object;
    if (!state || !take_arguments(&call, given, count, names, &object) || !take_text(object, &text))
        return NULL;
    const uint32_t status = gix_date_parse_header(text.at, text.len, &time);
    PyObject *answer = answer_time(state, status, &time, &text, GIT_DATE_NOTHING);
    drop_text(&text);
    return answer;
}

CALL(is_canonical_header)
{
    static const struct call call = {"is_canonical_header", 1, 1, {"text", NULL}};
    struct text text;
    PyObject *object;
    (void)module;
    if (!take_arguments(&call, given, count, names, &object) || !take_text(object, &text))
        return NULL;
    const bool is = gix_date_is_canonical_header(text.at, text.len);
    drop_text(&text);
    return PyBool_FromLong(is);
}

static uint32_t parse_at(struct moment *moment, const struct text *text, uint32_t raw, gix_date_time *time)
{
    if (!moment->is_given)
        return gix_date_parse(text->at, text->len, raw, time);
    return gix_date_parse_at(text->at, text->len, raw, &moment->now, zone_of(moment), time);
}

CALL(parse)
{
    enum { AT_TEXT, NOW, RAW, ALL };
    static const struct call call = {"parse", 2, 1, {"text", "now", "raw_offsets", NULL}};
    const struct state *state = state_of(module);
    struct text text;
    struct moment moment = {.is_given = false};
    gix_date_time time = {0, 0};
    uint32_t raw;
    PyObject *taken[ALL], *answer = NULL;
    if (!state || !take_arguments(&call, given, count, names, taken) || !take_text(taken[AT_TEXT], &text))
        return NULL;
    if (take_any_option(state->kept[RAW_OFFSETS], taken[RAW], &raw) && take_any_moment(state, taken[NOW], &moment)) {
        const uint32_t status = parse_at(&moment, &text, raw, &time);
        answer = answer_time(state, status, &time, &text, GIT_DATE_NOTHING);
    }
    drop_moment(&moment);
    drop_text(&text);
    return answer;
}

static uint32_t parse_carefully_at(struct moment *m, const struct text *text, const gix_date_careful_options *options,
                                   gix_date_time *time, size_t *place)
{
    if (!m->is_given)
        return gix_date_parse_carefully(text->at, text->len, options, time, place);
    return gix_date_parse_carefully_at(text->at, text->len, options, &m->now, zone_of(m), time, place);
}

CALL(parse_carefully)
{
    enum { AT_TEXT, NOW, RAW, WITHOUT, WHICH, ALL };
    static const struct call call = {"parse_carefully", 2, 1, {"text", "now", "raw_offsets", "without_offset", "texts", NULL}};
    const struct state *state = state_of(module);
    struct text text;
    struct moment moment = {.is_given = false};
    gix_date_careful_options options;
    gix_date_time time = {0, 0};
    size_t place = GIT_DATE_NOTHING;
    PyObject *taken[ALL], *answer = NULL;
    if (!state || !take_arguments(&call, given, count, names, taken) || !take_text(taken[AT_TEXT], &text))
        return NULL;
    if (take_any_option(state->kept[RAW_OFFSETS], taken[RAW], &options.raw_offsets) &&
        take_any_option(state->kept[WITHOUT_OFFSET], taken[WITHOUT], &options.without_offset) &&
        take_any_option(state->kept[TEXTS], taken[WHICH], &options.texts) && take_any_moment(state, taken[NOW], &moment)) {
        const uint32_t status = parse_carefully_at(&moment, &text, &options, &time, &place);
        answer = answer_time(state, status, &time, &text, place);
    }
    drop_moment(&moment);
    drop_text(&text);
    return answer;
}

/* ---- signature lines ---- */

CALL(cut_signature)
{
    static const struct call call = {"cut_signature", 1, 1, {"line", NULL}};
    const struct state *state = state_of(module);
    struct text line;
    gix_date_signature parts = {{0, 0}, {0, 0}, {0, 0}};
    PyObject *object, *answer;
    if (!state || !take_arguments(&call, given, count, names, &object) || !take_text(object, &line))
        return NULL;
    const uint32_t status = gix_date_cut_signature(line.at, line.len, &parts);
    if (status == GIX_DATE_OK)
        answer = Py_BuildValue("(s#s#s#)", line.at + parts.name.start, (Py_ssize_t)parts.name.len, line.at + parts.email.start,
                               (Py_ssize_t)parts.email.len, line.at + parts.time.start, (Py_ssize_t)parts.time.len);
    else
        answer = refuse(state, status, &line, GIT_DATE_NOTHING);
    drop_text(&line);
    return answer;
}

static uint32_t call_write_signature(const struct writing *w, char *out, size_t out_len, size_t *len)
{
    return gix_date_write_signature(w->first->at, w->first->len, w->second->at, w->second->len, &w->time, out, out_len, len);
}

CALL(write_signature)
{
    enum { NAME, EMAIL, AT_TIME, ALL };
    static const struct call call = {"write_signature", 3, 3, {"name", "email", "time", NULL}};
    const struct state *state = state_of(module);
    struct text name = {.at = NULL}, email = {.at = NULL};
    struct writing writing = {.write = call_write_signature, .first = &name, .second = &email};
    PyObject *taken[ALL], *answer = NULL;
    if (!state || !take_arguments(&call, given, count, names, taken))
        return NULL;
    if (take_text(taken[NAME], &name) && take_text(taken[EMAIL], &email) && take_time(state, taken[AT_TIME], &writing.time))
        answer = written(state, &writing);
    drop_text(&name);
    drop_text(&email);
    return answer;
}
