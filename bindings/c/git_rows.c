/* Makes the calls of git_date.h that rows name, for rows.c. A date in the zone of an offset is read
 * and shown by a rule that says this offset too, and any other by a copy of its zone. */
#include "rows.h"

#include "git_date.h"

#include <inttypes.h>
#include <stdio.h>
#include <stdlib.h>
#include <string.h>

static const struct {
    const char *name;
    uint32_t status;
    bool has_place;
} refusals[] = {
    {"Unreadable", GIT_DATE_UNREADABLE, false},
    {"NumberTooLarge", GIT_DATE_NUMBER_TOO_LARGE, true},
    {"BackTooFar", GIT_DATE_BACK_TOO_FAR, true},
    {"YearRefused", GIT_DATE_YEAR_REFUSED, true},
    {"Range", GIT_DATE_RANGE, false},
    {"FlagRefused", GIT_DATE_FLAG_REFUSED, true},
    {"UnknownDirective", GIT_DATE_UNKNOWN_DIRECTIVE, true},
    {"WidthTooLarge", GIT_DATE_WIDTH_TOO_LARGE, true},
};

static const char *const kinds[] = {"relative", "iso8601-strict", "iso8601", "rfc2822", "short",
                                    "default",  "human",          "raw",     "unix"};

/* The calls that read a text. */
enum reader { EXACT, APPROXIMATE, EXPIRY };

/* What of it a row asks for. */
enum asked { DATE, IGNORED, HAS_OFFSET };

/* What a call that reads a text leaves. */
typedef struct reading {
    uint32_t status;
    size_t place;
    git_date_exact exact;
    git_date_approximate approximate;
    git_date_expiry expiry;
} reading;

/* What such a call has to leave where it stores nothing. */
static const reading untouched = {
    GIX_DATE_OK,          (size_t)-2, {{-77, -7}, 9, true}, {{-77, -7}, 9, true},
    {99, {{-77, -7}, 9, true}}};

static bool is_same_date(const git_date_approximate *one, const git_date_approximate *other)
{
    return one->time.seconds == other->time.seconds && one->time.offset == other->time.offset &&
           one->ignored == other->ignored && one->understood == other->understood;
}

/* Whether a call changed nothing but its status and perhaps the place. */
static bool stored_nothing(const reading *seen)
{
    return seen->exact.time.seconds == untouched.exact.time.seconds &&
           seen->exact.time.offset == untouched.exact.time.offset &&
           seen->exact.ignored == untouched.exact.ignored &&
           seen->exact.has_offset == untouched.exact.has_offset &&
           is_same_date(&seen->approximate, &untouched.approximate) &&
           seen->expiry.kind == untouched.expiry.kind &&
           is_same_date(&seen->expiry.before, &untouched.expiry.before);
}

static uint32_t read_text(enum reader reader, field text, const gix_date_instant *now,
                          const gix_date_zone *in, reading *seen)
{
    switch (reader) {
    case EXACT:
        return git_date_parse_at(TEXT(text), now, in, &seen->exact, &seen->place);
    case APPROXIMATE:
        return git_date_approxidate_at(TEXT(text), now, in, &seen->approximate, &seen->place);
    default:
        return git_date_expiry_at(TEXT(text), now, in, &seen->expiry, &seen->place);
    }
}

/* Answers a status where it is a refusal, with its place where it has one. */
static bool is_refused_at(uint32_t status, size_t place, answer *told)
{
    bool has_place = false;
    told->refused = status != GIX_DATE_OK;
    if (status == GIX_DATE_NOT_TEXT || status == GIX_DATE_INVALID_ZONE ||
        status == GIX_DATE_INVALID_INSTANT || status == GIX_DATE_BEFORE_EPOCH ||
        status == GIX_DATE_OFFSET_TOO_WIDE)
        is_refused(status, told);
    else if (status != GIX_DATE_OK)
        tell(told, "status %u", (unsigned)status);
    for (size_t i = 0; i < LENGTH(refusals); i++) {
        if (refusals[i].status != status)
            continue;
        has_place = refusals[i].has_place;
        tell(told, has_place ? "%s %zu" : "%s", refusals[i].name, place);
    }
    if (!has_place && place != untouched.place)
        tell_apart(told);
    return told->refused;
}

static void tell_time(gix_date_time time, bool is_certain, answer *told)
{
    tell(told, "%" PRId64 " %" PRId32 "%s", time.seconds, time.offset, is_certain ? "" : " ?");
}

static void tell_expiry(const git_date_expiry *expiry, answer *told)
{
    if (expiry->kind == GIT_DATE_BEFORE)
        tell_time(expiry->before.time, expiry->before.understood, told);
    else if (is_same_date(&expiry->before, &untouched.expiry.before))
        tell(told, "%s", expiry->kind == GIT_DATE_NEVER ? "never" : "all");
    else
        tell_apart(told);
}

static void tell_ignored(size_t place, answer *told)
{
    if (place == GIT_DATE_NOTHING)
        tell(told, "none");
    else
        tell(told, "%zu", place);
}

/* Reads a text in a zone, and tells what of it the row asks for. */
static void read_in(enum reader reader, enum asked asked, field text, const gix_date_instant *now,
                    const gix_date_zone *in, answer *told)
{
    reading seen = untouched;
    seen.status = read_text(reader, text, now, in, &seen);
    if (is_refused_at(seen.status, seen.place, told)) {
        if (!stored_nothing(&seen))
            tell_apart(told);
    } else if (reader == EXPIRY) {
        tell_expiry(&seen.expiry, told);
    } else if (asked == IGNORED) {
        tell_ignored(reader == EXACT ? seen.exact.ignored : seen.approximate.ignored, told);
    } else if (asked == HAS_OFFSET) {
        tell(told, "%s", seen.exact.has_offset ? "yes" : "no");
    } else if (reader == EXACT) {
        tell_time(seen.exact.time, true, told);
    } else {
        tell_time(seen.approximate.time, seen.approximate.understood, told);
    }
}

static void show_in(gix_date_time time, git_date_mode mode, const gix_date_instant *now,
                    const gix_date_zone *in, answer *told)
{
    uint32_t status =
        git_date_show_at(&time, &mode, now, in, told->bytes, MAX_ANSWER, &told->len);
    is_refused_at(status, untouched.place, told);
}

/* Shows the date of a line. A buffer that is one byte too short has to stay as it is. */
static void show_line_in(gix_date_git_time time, git_date_mode mode, const gix_date_instant *now,
                         const gix_date_zone *in, answer *told)
{
    char small[GIT_DATE_MAX_SHOWN_GIT_TIME] = {0};
    size_t needed = 0;
    uint32_t status = git_date_show_git_time_at(&time, &mode, now, in, told->bytes, sizeof small,
                                                &told->len);
    if (is_refused_at(status, untouched.place, told))
        return;
    status = git_date_show_git_time_at(&time, &mode, now, in, small, told->len - 1, &needed);
    if (status != GIX_DATE_NO_ROOM || needed != told->len || small[0])
        tell_apart(told);
}

/* What a format shows, by the zone's clock or not. A buffer that is one byte too short has to stay as it is. */
static void show_by_format_in(gix_date_time time, field format, bool local, const gix_date_zone *in,
                              answer *told)
{
    size_t place = untouched.place, room, needed = 0;
    char *const out = told->bytes;
    uint32_t status = git_date_show_by_format(&time, TEXT(format), local, in, out, MAX_ANSWER,
                                              &told->len, &place);
    if (is_refused_at(status, place, told) || told->len == 0)
        return;
    room = told->len - 1;
    char *const small = calloc(told->len, 1);
    status = git_date_show_by_format(&time, TEXT(format), local, in, small, room, &needed, &place);
    if (status != GIX_DATE_NO_ROOM || needed != told->len || small[0] || place != untouched.place)
        tell_apart(told);
    free(small);
}

/* Tells an age in the words of Git. */
static void tell_age(gix_date_time time, const gix_date_instant *now, answer *told)
{
    static const char *const units[] = {"second", "minute", "hour", "day", "week", "month", "year"};
    git_date_age age;
    if (is_refused_at(git_date_age_at(&time, now, &age), untouched.place, told))
        return;
    if (age.unit == GIT_DATE_FUTURE)
        tell(told, "in the future");
    else if (age.months > 0)
        tell(told, "%u year%s, %u month%s ago", (unsigned)age.count, age.count == 1 ? "" : "s",
             (unsigned)age.months, age.months == 1 ? "" : "s");
    else
        tell(told, "%u %s%s ago", (unsigned)age.count, units[age.unit], age.count == 1 ? "" : "s");
}

/* Tells a time with the offset that it has in a zone, or with its own, by the number of Git for this offset. */
static void tell_raw(gix_date_time time, bool local, const gix_date_zone *in, answer *told)
{
    const gix_date_instant instant = {time.seconds, 0};
    if (local && is_refused_at(gix_date_offset_at(&instant, in, &time.offset), untouched.place, told))
        return;
    const int32_t decimal = git_date_offset_to_decimal(time.offset);
    tell(told, "%" PRId64 " %+05" PRId32, time.seconds, decimal);
    if (git_date_offset_from_decimal(decimal) != time.offset - time.offset % 60)
        tell_apart(told);
}

/* The other calls say what a mode shows of a time. Git knows no offset of a zone before 1970 and after 2099. */
static void show_otherwise(gix_date_time time, git_date_mode mode, const gix_date_instant *now,
                           const gix_date_zone *in, answer *told)
{
    const int64_t last_of_2099 = 4102444799, day = 86400;
    answer other = *told;
    if (mode.kind == GIT_DATE_RELATIVE)
        tell_age(time, now, &other);
    else if (mode.kind == GIT_DATE_RAW && !told->refused && day <= time.seconds &&
             time.seconds <= last_of_2099 - day)
        tell_raw(time, mode.local, in, &other);
    agree(told, &other);
}

/* Puts in the place of a zone what means the same: the rule that always has its offset, within a day, or else
 * a copy. */
static void in_other_words(field name, gix_date_zone *zone)
{
    char room[32];
    int64_t offset;
    int64_t size = to_number(name.bytes, &offset) ? imaxabs(offset) : 86400;
    if (size >= 86400) {
        in_copy(zone);
        return;
    }
    int len = snprintf(room, sizeof room, "<ROW>%s%d:%02d:%02d", offset < 0 ? "" : "-",
                       (int)size / 3600, (int)size / 60 % 60, (int)size % 60);
    if (gix_date_zone_read(room, (size_t)len, zone) != GIX_DATE_OK)
        abort();
}

/* Answers a zone that is refused. */
static bool is_no_zone(uint32_t status, answer *told)
{
    return status != GIX_DATE_OK && is_refused_at(status, untouched.place, told);
}

/* Keeps what one date came to, for the lines of a block. */
static void keep_date(enum reader reader, field moment, field text, const gix_date_instant *now,
                      const gix_date_zone *in)
{
    reading seen = untouched;
    if (reader == EXPIRY)
        return;
    uint32_t status = read_text(reader, text, now, in, &seen);
    keep_line(&(line_reader){reader == EXACT ? EXACT_LINES : APPROXIMATE_LINES, {0, 0, 0},
                             moment.bytes},
              text, status, reader == EXACT ? seen.exact.time : seen.approximate.time);
}

/* Reads the text of a row, at the moment before it. */
static bool read_row(enum reader reader, enum asked asked, arguments *row, answer *told)
{
    gix_date_instant now;
    gix_date_zone zone;
    answer other;
    field moment = take(row), text = take(row), name;
    if (!to_moment(moment, &now, &name))
        return false;
    if (is_no_zone(read_zone(name, &zone), told))
        return true;
    read_in(reader, asked, text, &now, &zone, told);
    /* A call leaves the zone the same. */
    read_in(reader, asked, text, &now, &zone, &other);
    agree(told, &other);
    keep_date(reader, moment, text, &now, &zone);
    in_other_words(name, &zone);
    read_in(reader, asked, text, &now, &zone, &other);
    agree(told, &other);
    gix_date_zone_free(&zone);
    return true;
}

/* Shows the time of a row, at the moment before it. */
static bool show_row(arguments *row, answer *told)
{
    gix_date_instant now;
    gix_date_time time;
    git_date_mode mode;
    gix_date_zone zone;
    answer other;
    field name = take(row), moment = take(row), zone_name;
    if (git_date_mode_named(TEXT(name), &mode) != GIX_DATE_OK ||
        !to_moment(moment, &now, &zone_name) || !take_time(row, &time))
        return false;
    if (is_no_zone(read_zone(zone_name, &zone), told))
        return true;
    show_in(time, mode, &now, &zone, told);
    show_in(time, mode, &now, &zone, &other);
    agree(told, &other);
    show_otherwise(time, mode, &now, &zone, told);
    in_other_words(zone_name, &zone);
    show_in(time, mode, &now, &zone, &other);
    agree(told, &other);
    gix_date_zone_free(&zone);
    return true;
}

/* Shows the date of a line, at the moment before it. */
static bool show_line_row(arguments *row, answer *told)
{
    gix_date_instant now;
    gix_date_time time;
    git_date_mode mode;
    gix_date_zone zone;
    answer other;
    field name = take(row), moment = take(row), zone_name;
    if (git_date_mode_named(TEXT(name), &mode) != GIX_DATE_OK ||
        !to_moment(moment, &now, &zone_name) || !take_time(row, &time))
        return false;
    if (is_no_zone(read_zone(zone_name, &zone), told))
        return true;
    const gix_date_git_time shown = {time.seconds, time.offset, false};
    show_line_in(shown, mode, &now, &zone, told);
    show_line_in(shown, mode, &now, &zone, &other);
    agree(told, &other);
    in_other_words(zone_name, &zone);
    show_line_in(shown, mode, &now, &zone, &other);
    agree(told, &other);
    gix_date_zone_free(&zone);
    return true;
}

/* Shows the time of a row by the format before it. A moment has to be there, of which only the zone counts. */
static bool show_by_format_row(arguments *row, answer *told)
{
    gix_date_instant now;
    gix_date_time time;
    gix_date_zone zone;
    answer other;
    field format = take(row), clock = take(row), moment = take(row), zone_name;
    bool local = !strcmp(clock.bytes, "local");
    if ((!local && strcmp(clock.bytes, "own")) || !to_moment(moment, &now, &zone_name) ||
        !take_time(row, &time))
        return false;
    if (is_no_zone(read_zone(zone_name, &zone), told))
        return true;
    show_by_format_in(time, format, local, &zone, told);
    show_by_format_in(time, format, local, &zone, &other);
    agree(told, &other);
    /* A rule has another abbreviation than the offset. */
    in_copy(&zone);
    show_by_format_in(time, format, local, &zone, &other);
    agree(told, &other);
    gix_date_zone_free(&zone);
    return true;
}

/* The long name of the mode that a row names. */
static void mode_row(field name, answer *told)
{
    git_date_mode mode = {99, true};
    uint32_t status = git_date_mode_named(TEXT(name), &mode);
    told->refused = status != GIX_DATE_OK;
    if (status == GIX_DATE_NO_SUCH_OPTION && mode.kind == 99)
        tell(told, "UnknownMode");
    else if (is_refused(status, told) ? mode.kind != 99 : mode.kind >= LENGTH(kinds))
        tell_apart(told);
    else if (!told->refused)
        tell(told, "%s%s", kinds[mode.kind], mode.local ? "-local" : "");
}

enum outcome git_call(const char *name, arguments *row, answer *told)
{
    static const struct {
        const char *name;
        enum reader reader;
        enum asked asked;
    } readers[] = {
        {"parse_date", EXACT, DATE},
        {"ignored", EXACT, IGNORED},
        {"has_offset", EXACT, HAS_OFFSET},
        {"approxidate", APPROXIMATE, DATE},
        {"approximate_ignored", APPROXIMATE, IGNORED},
        {"expiry_date", EXPIRY, DATE},
    };
    bool is_right = false;
    for (size_t i = 0; i < LENGTH(readers); i++)
        if (!strcmp(readers[i].name, name))
            is_right = read_row(readers[i].reader, readers[i].asked, row, told);
    if (!strcmp(name, "show_date"))
        is_right = show_row(row, told);
    if (!strcmp(name, "show_git_time"))
        is_right = show_line_row(row, told);
    if (!strcmp(name, "show_by_format"))
        is_right = show_by_format_row(row, told);
    if (!strcmp(name, "date_mode")) {
        mode_row(take(row), told);
        is_right = true;
    }
    return is_right && row->taken == row->count ? ANSWERED : MALFORMED;
}
