/* Runs rows of outside values on the library for C: those of the files that are named, in the
 * folder that it runs in. A line that is empty or begins with '#' is no row. A row is a call, its
 * arguments and the answer that is due, cut by tabs; a refusal is due where the last field is '!'
 * and its name. Says which rows differ, and of each file how many there are, and which calls this
 * library lacks. git_rows.c makes the calls of git_date.h. */
#include "rows.h"

#include <inttypes.h>
#include <stdarg.h>
#include <stdio.h>
#include <stdlib.h>
#include <string.h>

static const struct {
    const char *name;
    uint32_t number;
} formats[] =
    {
        /* Made by scripts/formats. */
        {"UNIX", GIX_DATE_UNIX},
        {"RAW", GIX_DATE_RAW},
        {"SHORT", GIX_DATE_SHORT},
        {"RFC2822", GIX_DATE_RFC2822},
        {"GIT_RFC2822", GIX_DATE_GIT_RFC2822},
        {"ISO8601", GIX_DATE_ISO8601},
        {"ISO8601_STRICT", GIX_DATE_ISO8601_STRICT},
        {"GITOXIDE", GIX_DATE_GITOXIDE},
        {"DEFAULT", GIX_DATE_DEFAULT},
        /* Made until here. */
},
  refusals[] = {
      {"NotText", GIX_DATE_NOT_TEXT},
      {"NoSuchOption", GIX_DATE_NO_SUCH_OPTION},
      {"NoRoom", GIX_DATE_NO_ROOM},
      {"InvalidTime", GIX_DATE_INVALID_TIME},
      {"UnknownFormat", GIX_DATE_UNKNOWN_FORMAT},
      {"DateConversion", GIX_DATE_DATE_CONVERSION},
      {"MissingNow", GIX_DATE_MISSING_NOW},
      {"Range", GIX_DATE_RANGE},
      {"InvalidInstant", GIX_DATE_INVALID_INSTANT},
      {"InvalidZone", GIX_DATE_INVALID_ZONE},
      {"Conversion", GIX_DATE_CONVERSION},
      {"OffsetTooWide", GIX_DATE_OFFSET_TOO_WIDE},
      {"Pattern", GIX_DATE_PATTERN},
      {"OutOfMemory", GIX_DATE_OUT_OF_MEMORY},
      {"NoSignature", GIX_DATE_NO_SIGNATURE},
      {"BadPart", GIX_DATE_BAD_PART},
      {"Unclear", GIX_DATE_UNCLEAR},
      {"AfterYear9999", GIX_DATE_AFTER_YEAR_9999},
      {"NoIdentity", GIX_DATE_NO_IDENTITY},
      {"NulInPart", GIX_DATE_NUL_IN_PART},
      {"EmptyName", GIX_DATE_EMPTY_NAME},
      {"OnlyCrud", GIX_DATE_ONLY_CRUD},
      {"BeforeEpoch", GIX_DATE_BEFORE_EPOCH},
};

/* Calls that other callers of the rows have, and this library has not. */
static const char *const lacking[] = {"to_zoned", "now_local"};

static void fail(const char *what, const char *which)
{
    fprintf(stderr, "%s: %s\n", which, what);
    exit(2);
}

field read_file(const char *name)
{
    FILE *file = fopen(name, "rb");
    field whole = {malloc(1), 0};
    char piece[4096];
    size_t count;
    if (!file)
        fail("cannot be opened", name);
    while ((count = fread(piece, 1, sizeof piece, file)) > 0) {
        whole.bytes = realloc(whole.bytes, whole.len + count + 1);
        if (!whole.bytes)
            fail("no memory", name);
        memcpy(whole.bytes + whole.len, piece, count);
        whole.len += count;
    }
    fclose(file);
    whole.bytes[whole.len] = 0;
    return whole;
}

/* The UTF-8 of a character, at most four bytes. */
static size_t put_character(unsigned long code, char *out)
{
    size_t more = code < 0x80 ? 0 : code < 0x800 ? 1 : code < 0x10000 ? 2 : 3;
    static const unsigned char first[] = {0, 0xc0, 0xe0, 0xf0};
    out[0] = (char)(first[more] | code >> 6 * more);
    for (size_t i = 1; i <= more; i++)
        out[i] = (char)(0x80 | (code >> 6 * (more - i) & 0x3f));
    return more + 1;
}

/* Takes the escapes out of a field in place: \t, \n, \r, \\, \xff and \u{2028}. */
static bool unescape(field *text)
{
    char *from = text->bytes, *to = text->bytes, *end;
    while (*from) {
        unsigned long code;
        if (*from != '\\') {
            *to++ = *from++;
            continue;
        }
        switch (from[1]) {
        case 't':
            *to++ = '\t';
            from += 2;
            break;
        case 'n':
            *to++ = '\n';
            from += 2;
            break;
        case 'r':
            *to++ = '\r';
            from += 2;
            break;
        case '\\':
            *to++ = '\\';
            from += 2;
            break;
        case 'x': {
            char digits[3] = {from[2], from[2] ? from[3] : 0, 0};
            code = strtoul(digits, &end, 16);
            if (end != digits + 2)
                return false;
            *to++ = (char)code;
            from += 4;
            break;
        }
        case 'u':
            code = from[2] == '{' ? strtoul(from + 3, &end, 16) : 0;
            if (from[2] != '{' || end == from + 3 || *end != '}' || code > 0x10ffff)
                return false;
            to += put_character(code, to);
            from = end + 1;
            break;
        default: return false;
        }
    }
    text->len = (size_t)(to - text->bytes);
    *to = 0;
    return true;
}

field take(arguments *row)
{
    static char none[1];
    return row->taken++ < row->count ? row->fields[row->taken - 1] : (field){none, 0};
}

bool to_number(const char *text, int64_t *number)
{
    char *end;
    *number = strtoll(text, &end, 10);
    return end != text && *end == 0;
}

bool take_time(arguments *row, gix_date_time *time)
{
    int64_t offset;
    bool is_one = to_number(take(row).bytes, &time->seconds);
    is_one &= to_number(take(row).bytes, &offset);
    time->offset = (int32_t)offset;
    return is_one && time->offset == offset;
}

void tell(answer *told, const char *format, ...)
{
    va_list parts;
    va_start(parts, format);
    told->len = (size_t)vsnprintf(told->bytes, MAX_ANSWER, format, parts);
    va_end(parts);
}

void tell_apart(answer *told)
{
    told->refused = true;
    tell(told, "%s", APART);
}

bool is_refused(uint32_t status, answer *told)
{
    told->refused = status != GIX_DATE_OK;
    for (size_t i = 0; i < LENGTH(refusals); i++)
        if (refusals[i].number == status)
            tell(told, "%s", refusals[i].name);
    return told->refused;
}

static void tell_time(uint32_t status, gix_date_time time, answer *told)
{
    if (!is_refused(status, told))
        tell(told, "%" PRId64 " %" PRId32, time.seconds, time.offset);
}

void agree(answer *told, const answer *other)
{
    if (told->refused == other->refused && told->len == other->len &&
        !memcmp(told->bytes, other->bytes, told->len))
        return;
    tell_apart(told);
}

/* How a date is to be parsed: carefully by the options, or else by their rule for raw offsets. */
typedef struct manner {
    bool carefully;
    gix_date_careful_options options;
} manner;

/* What a call stores where it stores nothing. */
static const gix_date_time no_time = {-77, -7};
static const size_t no_place = SIZE_MAX;

/* Tells a date that was parsed, and of a text that is not clear the place. No other stores one. */
static void tell_date(uint32_t status, gix_date_time time, size_t place, answer *told)
{
    tell_time(status, time, told);
    if (status == GIX_DATE_UNCLEAR) {
        tell(told, "Unclear %zu", place);
    } else if (place != no_place) {
        tell_apart(told);
    }
}

/* A date parsed at no moment. */
static void parse_alone(const manner *how, field text, answer *told)
{
    gix_date_time time = no_time;
    size_t place = no_place;
    uint32_t status = how->carefully
                          ? gix_date_parse_carefully(TEXT(text), &how->options, &time, &place)
                          : gix_date_parse(TEXT(text), how->options.raw_offsets, &time);
    keep_line(&(line_reader){how->carefully, how->options, ""}, text, status, time);
    tell_date(status, time, place, told);
}

bool to_moment(field moment, gix_date_instant *now, field *zone)
{
    char *rest;
    now->seconds = strtoll(moment.bytes, &rest, 10);
    now->nanoseconds = (int32_t)strtol(rest, &rest, 10);
    if (*rest != ' ')
        return false;
    *zone = (field){rest + 1, strlen(rest + 1)};
    return true;
}

uint32_t read_zone(field name, gix_date_zone *zone)
{
    int64_t offset;
    *zone = (gix_date_zone)GIX_DATE_AT_OFFSET(0);
    if (name.len > 5 && !strcmp(name.bytes + name.len - 5, ".tzif")) {
        field file = read_file(name.bytes);
        uint32_t status = gix_date_zone_read(TEXT(file), zone);
        free(file.bytes);
        return status;
    }
    if (!to_number(name.bytes, &offset))
        return gix_date_zone_read(TEXT(name), zone);
    zone->offset = (int32_t)offset;
    return GIX_DATE_OK;
}

void in_copy(gix_date_zone *zone)
{
    gix_date_zone copy = GIX_DATE_AT_OFFSET(1);
    if (gix_date_zone_copy(zone, &copy) != GIX_DATE_OK)
        abort();
    gix_date_zone_free(zone);
    *zone = copy;
}

static void parse_in_zone(const manner *how, field text, const gix_date_instant *now,
                          gix_date_zone *zone, answer *told)
{
    const gix_date_careful_options *options = &how->options;
    gix_date_time time = no_time;
    size_t place = no_place;
    uint32_t status =
        how->carefully
            ? gix_date_parse_carefully_at(TEXT(text), options, now, zone, &time, &place)
            : gix_date_parse_at(TEXT(text), options->raw_offsets, now, zone, &time);
    tell_date(status, time, place, told);
}

/* A date parsed at an instant in a zone, and in a copy of it. */
static void parse_in(const manner *how, field text, const gix_date_instant *now, field name,
                     answer *told)
{
    gix_date_zone zone;
    answer other;
    uint32_t status = read_zone(name, &zone);
    if (status != GIX_DATE_OK) {
        tell_date(status, no_time, no_place, told);
        return;
    }
    parse_in_zone(how, text, now, &zone, told);
    in_copy(&zone);
    parse_in_zone(how, text, now, &zone, &other);
    agree(told, &other);
    gix_date_zone_free(&zone);
}

/* Keeps what one text came to at a moment that there is. */
static void keep_date(const manner *how, field moment, field text)
{
    gix_date_instant now;
    field name;
    gix_date_zone zone;
    gix_date_time time = no_time;
    size_t place;
    if (!to_moment(moment, &now, &name) || read_zone(name, &zone) != GIX_DATE_OK)
        return;
    uint32_t status =
        how->carefully
            ? gix_date_parse_carefully_at(TEXT(text), &how->options, &now, &zone, &time, &place)
            : gix_date_parse_at(TEXT(text), how->options.raw_offsets, &now, &zone, &time);
    keep_line(&(line_reader){how->carefully, how->options, moment.bytes}, text, status, time);
    gix_date_zone_free(&zone);
}

/* A date parsed at a moment: `none`, or its seconds, its nanoseconds and its zone. */
static bool parse_at(field moment, const manner *how, field text, answer *told)
{
    gix_date_instant now;
    field zone;
    if (!strcmp(moment.bytes, "none")) {
        parse_alone(how, text, told);
        return true;
    }
    if (!to_moment(moment, &now, &zone))
        return false;
    parse_in(how, text, &now, zone, told);
    keep_date(how, moment, text);
    return true;
}

/* Moments at which a text that is not relative means the same. */
static const char *const any[] = {
    "none", "1698400800 0 0", "1698400800 0 3600", "1698400800 0 7200", "-1 0 -34200", "0 0 93599",
};

/* Takes one of two words: the number of an option. */
static bool take_option(arguments *row, const char *first, const char *second, uint32_t *number)
{
    const char *word = take(row).bytes;
    *number = strcmp(word, first) != 0;
    return !*number || !strcmp(word, second);
}

/* Takes the words of the options that only the careful calls have. */
static bool take_options(arguments *row, gix_date_careful_options *options)
{
    bool are_all = take_option(row, "utc", "local", &options->without_offset);
    return are_all & take_option(row, "careful", "all", &options->texts);
}

/* A date by each rule that the row names, at each moment that it means. */
static bool parse(arguments *row, bool carefully, answer *told)
{
    static const struct {
        const char *name;
        uint32_t first, last;
    } rules[] = {{"both", GIX_DATE_QUARTERS, GIX_DATE_WHOLE_MINUTES},
                 {"quarters", GIX_DATE_QUARTERS, GIX_DATE_QUARTERS},
                 {"minutes", GIX_DATE_WHOLE_MINUTES, GIX_DATE_WHOLE_MINUTES}};
    manner how = {carefully, {0, 0, 0}};
    field name = take(row);
    if (carefully && !take_options(row, &how.options))
        return false;
    field moment = take(row), text = take(row);
    bool is_any = !carefully && !strcmp(moment.bytes, "any"), is_first = true;
    for (size_t i = 0; i < LENGTH(rules); i++) {
        if (strcmp(rules[i].name, name.bytes) != 0)
            continue;
        for (uint32_t rule = rules[i].first; rule <= rules[i].last; rule++) {
            how.options.raw_offsets = rule;
            for (size_t at = 0; at < (is_any ? LENGTH(any) : 1); at++) {
                field now = is_any ? (field){(char *)any[at], strlen(any[at])} : moment;
                answer other;
                if (!parse_at(now, &how, text, is_first ? told : &other))
                    return false;
                if (!is_first)
                    agree(told, &other);
                is_first = false;
            }
        }
    }
    return !is_first;
}

/* A text in a format or by a pattern, and by the call that gives the seconds where there is none.
 */
static bool print(arguments *row, bool by_pattern, answer *told)
{
    field how = take(row);
    gix_date_time time;
    if (!take_time(row, &time))
        return false;
    answer always = {false, "", 0}, seconds = {false, "", 0};
    char *out = told->bytes, *other = always.bytes;
    uint32_t status = 0, also = 0;
    bool is_known = by_pattern;
    if (by_pattern) {
        status = gix_date_format_by_pattern(&time, TEXT(how), out, MAX_ANSWER, &told->len);
        also = gix_date_format_by_pattern_or_unix(&time, TEXT(how), other, MAX_ANSWER, &always.len);
    }
    for (size_t i = 0; !by_pattern && i < LENGTH(formats); i++) {
        if (strcmp(formats[i].name, how.bytes) != 0)
            continue;
        status = gix_date_format(&time, formats[i].number, out, MAX_ANSWER, &told->len);
        also = gix_date_format_or_unix(&time, formats[i].number, other, MAX_ANSWER, &always.len);
        is_known = true;
    }
    if (!is_known)
        return false;
    if (is_refused(status, told)) {
        tell(&seconds, "%" PRId64, time.seconds);
        agree(&always, &seconds);
        if (also != GIX_DATE_OK || always.refused)
            tell_apart(told);
    } else {
        always.refused = also != GIX_DATE_OK;
        agree(told, &always);
    }
    return true;
}

static void cut_signature(field line, answer *told)
{
    gix_date_signature parts;
    if (is_refused(gix_date_cut_signature(TEXT(line), &parts), told))
        return;
    const gix_date_span spans[] = {parts.name, parts.email, parts.time};
    for (size_t i = told->len = 0; i < LENGTH(spans); i++) {
        memcpy(told->bytes + told->len, line.bytes + spans[i].start, spans[i].len);
        told->len += spans[i].len;
        if (i < 2)
            told->bytes[told->len++] = "<>"[i];
    }
}

static void signature_time(field line, answer *told)
{
    gix_date_signature parts;
    gix_date_time time = {0, 0};
    uint32_t cut = gix_date_cut_signature(TEXT(line), &parts);
    if (is_refused(cut, told)) {
        keep_line(&(line_reader){GIX_DATE_SIGNATURE_LINES, {0, 0, 0}, ""}, line, cut, time);
        return;
    }
    const char *start = line.bytes + parts.time.start;
    uint32_t status = gix_date_parse_header(start, parts.time.len, &time);
    keep_line(&(line_reader){GIX_DATE_SIGNATURE_LINES, {0, 0, 0}, ""}, line, status, time);
    tell_time(status, time, told);
}

static bool write_signature(arguments *row, answer *told)
{
    field name = take(row), email = take(row);
    gix_date_time time;
    if (!take_time(row, &time))
        return false;
    char *out = told->bytes;
    is_refused(gix_date_write_signature(TEXT(name), TEXT(email), &time, out, MAX_ANSWER, &told->len),
               told);
    return true;
}

static void add(answer *told, field line, gix_date_span part)
{
    memcpy(told->bytes + told->len, line.bytes + part.start, part.len);
    told->len += part.len;
}

/* The parts of a line that Git shows, with these two texts after its name and its email; then the
 * seconds or nothing. */
static void ident(field line, const char *opening, bool has_seconds, answer *told)
{
    gix_date_ident_parts parts;
    keep_identity(line);
    if (is_refused(gix_date_ident(TEXT(line), &parts), told))
        return;
    told->len = 0;
    add(told, line, parts.name);
    memcpy(told->bytes + told->len, opening, strlen(opening));
    told->len += strlen(opening);
    add(told, line, parts.email);
    told->bytes[told->len++] = '>';
    if (has_seconds)
        add(told, line, parts.seconds);
}

/* The line that is written of what Git shows of it, if the same comes back. */
static void ident_again(field line, answer *told)
{
    gix_date_ident_parts parts;
    if (is_refused(gix_date_ident(TEXT(line), &parts), told))
        return;
    if (!parts.comes_back) {
        told->refused = true;
        tell(told, "%s", "NotBack");
        return;
    }
    const char *name = line.bytes + parts.name.start, *email = line.bytes + parts.email.start;
    is_refused(gix_date_write_ident_as_is(name, parts.name.len, email, parts.email.len, &parts.shown,
                                          told->bytes, MAX_ANSWER, &told->len),
               told);
    const size_t end = parts.rest.start + parts.rest.len;
    if (!parts.has_date || told->len != end || memcmp(told->bytes, line.bytes, end) != 0)
        tell_apart(told);
}

/* Reads the date of a line; what Git shows where it shows none is nothing and 0, 0. */
static bool has_date(field line, gix_date_ident_parts *parts, answer *told)
{
    keep_identity(line);
    if (is_refused(gix_date_ident(TEXT(line), parts), told))
        return false;
    if (parts->has_date && parts->seconds.len > 0 && parts->offset.len > 1)
        return true;
    told->refused = true;
    tell(told, "%s", "NoDate");
    if (parts->has_date || parts->seconds.len > 0 || parts->offset.len > 0 || parts->shown.seconds != 0 || parts->shown.offset != 0)
        tell_apart(told);
    return false;
}

static void ident_date(const char *name, field line, answer *told)
{
    gix_date_ident_parts parts;
    gix_date_time time = no_time;
    if (!has_date(line, &parts, told))
        return;
    told->len = 0;
    if (!strcmp(name, "ident_offset"))
        add(told, line, parts.offset);
    else if (!strcmp(name, "git_time"))
        tell(told, "%" PRId64 " %+05" PRId32, parts.shown.seconds, parts.shown.offset);
    else
        tell_time(gix_date_ident_time(&parts.shown, &time), time, told);
}

/* The ID of what fsck says, and whether it has a place in the line where it says something. */
static void fsck_of(field line, answer *told)
{
    size_t place = no_place;
    uint32_t message = gix_date_fsck(TEXT(line), &place);
    keep_identity(line);
    told->refused = false;
    tell(told, "%s", message == GIX_DATE_FSCK_PASSES ? "none" : gix_date_fsck_id(message));
    if (message == GIX_DATE_FSCK_PASSES ? place != no_place : place > line.len)
        tell_apart(told);
}

static bool write_ident(arguments *row, answer *told)
{
    field name = take(row), email = take(row);
    gix_date_time time;
    if (!take_time(row, &time))
        return false;
    char *out = told->bytes;
    is_refused(gix_date_write_ident(TEXT(name), TEXT(email), &time, out, MAX_ANSWER, &told->len),
               told);
    return true;
}

/* Makes a call for identity lines that a row names. */
static enum outcome ident_call(const char *name, arguments *row, answer *told)
{
    if (!strcmp(name, "ident"))
        ident(take(row), "<", true, told);
    else if (!strcmp(name, "ident_label"))
        ident(take(row), " <", false, told);
    else if (!strcmp(name, "ident_again"))
        ident_again(take(row), told);
    else if (!strcmp(name, "ident_offset") || !strcmp(name, "git_time") || !strcmp(name, "ident_time"))
        ident_date(name, take(row), told);
    else if (!strcmp(name, "fsck_of"))
        fsck_of(take(row), told);
    else if (!strcmp(name, "write_ident"))
        return write_ident(row, told) ? ANSWERED : MALFORMED;
    else
        return git_call(name, row, told);
    return ANSWERED;
}

static bool header_text(arguments *row, answer *told)
{
    gix_date_time time;
    if (!take_time(row, &time))
        return false;
    is_refused(gix_date_write_header(&time, told->bytes, MAX_ANSWER, &told->len), told);
    return true;
}

static void parse_header(field text, answer *told)
{
    gix_date_time time = {0, 0};
    uint32_t status = gix_date_parse_header(TEXT(text), &time);
    keep_line(&(line_reader){GIX_DATE_HEADER_LINES, {0, 0, 0}, ""}, text, status, time);
    tell_time(status, time, told);
}

static void is_canonical_header(field text, answer *told)
{
    bool is_one = gix_date_is_canonical_header(TEXT(text));
    keep_line(&(line_reader){CHECKED, {0, 0, 0}, ""}, text, is_one, no_time);
    told->refused = false;
    tell(told, "%s", is_one ? "yes" : "no");
}

/* Makes the call that a row names. */
static enum outcome call(arguments *row, answer *told)
{
    const char *name = take(row).bytes;
    bool is_right = true;
    for (size_t i = 0; i < LENGTH(lacking); i++)
        if (!strcmp(lacking[i], name))
            return LACKING;
    if (!strcmp(name, "parse") || !strcmp(name, "parse_carefully"))
        is_right = parse(row, !strcmp(name, "parse_carefully"), told);
    else if (!strcmp(name, "parse_header"))
        parse_header(take(row), told);
    else if (!strcmp(name, "is_canonical_header"))
        is_canonical_header(take(row), told);
    else if (!strcmp(name, "header_text"))
        is_right = header_text(row, told);
    else if (!strcmp(name, "format") || !strcmp(name, "format_by_pattern"))
        is_right = print(row, !strcmp(name, "format_by_pattern"), told);
    else if (!strcmp(name, "cut_signature"))
        cut_signature(take(row), told);
    else if (!strcmp(name, "signature_time"))
        signature_time(take(row), told);
    else if (!strcmp(name, "write_signature"))
        is_right = write_signature(row, told);
    else {
        enum outcome outcome = ident_call(name, row, told);
        return outcome == ANSWERED && row->taken != row->count ? MALFORMED : outcome;
    }
    return is_right && row->taken == row->count ? ANSWERED : MALFORMED;
}

/* Cuts a row at its tabs. The last field keeps its escapes, since '!' means another thing there
 * than `\x21`. */
static bool cut(char *line, arguments *row, field *due)
{
    char *tab = strrchr(line, '\t');
    if (!tab)
        return false;
    *tab = 0;
    *due = (field){tab + 1, strlen(tab + 1)};
    for (row->count = row->taken = 0; line && row->count < MAX_FIELDS; row->count++) {
        char *end = strchr(line, '\t');
        if (end)
            *end = 0;
        row->fields[row->count] = (field){line, 0};
        if (!unescape(&row->fields[row->count]))
            return false;
        line = end ? end + 1 : NULL;
    }
    return !line;
}

/* Runs a row, and says what is wrong with it. */
static enum outcome run(const char *file, size_t number, char *line)
{
    arguments row;
    field due;
    answer told;
    enum outcome outcome = cut(line, &row, &due) ? call(&row, &told) : MALFORMED;
    if (outcome == MALFORMED)
        printf("%s:%zu: no row\n", file, number);
    if (outcome != ANSWERED)
        return outcome;
    bool refused = due.bytes[0] == '!';
    due.bytes += refused;
    if (unescape(&due) && refused == told.refused && due.len == told.len &&
        !memcmp(due.bytes, told.bytes, due.len))
        return ANSWERED;
    printf("%s:%zu: it answers %s%.*s\n", file, number, told.refused ? "!" : "", (int)told.len,
           told.bytes);
    return MALFORMED;
}

/* Runs the rows of a file, and answers how many differ. */
static size_t run_file(const char *name)
{
    field file = read_file(name);
    size_t rows = 0, differing = 0, number = 0, left_out[LENGTH(lacking)] = {0};
    for (char *line = file.bytes, *end; *line; line = end + 1) {
        end = strchr(line, '\n');
        if (!end)
            fail("its last line has no end", name);
        *end = 0;
        number++;
        if (!*line || *line == '#')
            continue;
        rows++;
        enum outcome outcome = run(name, number, line);
        differing += outcome == MALFORMED;
        for (size_t i = 0; outcome == LACKING && i < LENGTH(lacking); i++)
            left_out[i] += !strcmp(lacking[i], line);
    }
    free(file.bytes);
    printf("%s: %zu rows, %zu differ\n", name, rows, differing);
    for (size_t i = 0; i < LENGTH(lacking); i++)
        if (left_out[i])
            printf("%s: %zu left out: %s\n", name, left_out[i], lacking[i]);
    return differing + run_lines(name);
}

int main(int count, char **names)
{
    size_t differing = 0;
    for (int i = 1; i < count; i++)
        differing += run_file(names[i]);
    return count < 2 || differing > 0;
}
