/* Answers by the library for C what Git 2.39.5 asks of its dates. It is compiled in the unpacked source of
 * Git, in the place of Git's own file: README.md says how.
 *
 * Git's functions cannot refuse as the library does. Where the library refuses to read approximately, the
 * answer is now, and not understood. Where it refuses to show, the time 0 +0000 is shown. */
#include "git_date.h"

/* Git's headers, last: they put macros in the place of functions of the C library. */
#include "cache.h"
#include "date.h"

/* Git's number of each kind of date that is shown. */
static const enum date_mode_type types[] = {
    [GIT_DATE_RELATIVE] = DATE_RELATIVE,
    [GIT_DATE_ISO8601_STRICT] = DATE_ISO8601_STRICT,
    [GIT_DATE_ISO8601] = DATE_ISO8601,
    [GIT_DATE_RFC2822] = DATE_RFC2822,
    [GIT_DATE_SHORT] = DATE_SHORT,
    [GIT_DATE_DEFAULT] = DATE_NORMAL,
    [GIT_DATE_HUMAN] = DATE_HUMAN,
    [GIT_DATE_RAW] = DATE_RAW,
    [GIT_DATE_UNIX] = DATE_UNIX,
};

static uint32_t kind_of(enum date_mode_type type)
{
    uint32_t kind = 0;
    while (kind < ARRAY_SIZE(types) && types[kind] != type)
        kind++;
    return kind;
}

/* The moment of the system's clock. */
static gix_date_instant system_now(void)
{
    const gix_date_instant now = {time(NULL), 0};
    return now;
}

/* The moment for ages and for dates of people: that of the system, or one that Git's tests hand in. Of that 32
 * bits count. */
static gix_date_instant present(void)
{
    gix_date_instant now = system_now();
    const char *handed_in = getenv("GIT_TEST_DATE_NOW");
    if (handed_in)
        now.seconds = (int32_t)strtoll(handed_in, NULL, 10);
    return now;
}

static const gix_date_zone utc = GIX_DATE_AT_OFFSET(0);

/* The zone of the process, which is read once. One that cannot be read is UTC, as in the C library. */
static const gix_date_zone *own_zone(void)
{
    static gix_date_zone zone;
    static bool is_read;
    if (!is_read)
        is_read = gix_date_zone_find(getenv("TZ"), getenv("TZDIR"), &zone) != GIX_DATE_OUT_OF_MEMORY;
    return &zone;
}

static void add_time(struct strbuf *out, gix_date_time time)
{
    strbuf_addf(out, "%" PRId64 " %+05d", time.seconds, git_date_offset_to_decimal(time.offset));
}

/* Reads a date exactly at the system's moment, in a zone. */
static bool read_in(const gix_date_zone *zone, const char *text, git_date_exact *date)
{
    const gix_date_instant now = system_now();
    size_t place;
    return git_date_parse_at(text, strlen(text), &now, zone, date, &place) == GIX_DATE_OK;
}

/* Most texts name their offset: for these no zone's file is read. */
static bool read_exactly(const char *text, gix_date_time *time)
{
    git_date_exact date;
    bool is_read = read_in(&utc, text, &date);
    if (is_read && !date.has_offset)
        is_read = read_in(own_zone(), text, &date);
    if (is_read)
        *time = date.time;
    return is_read;
}

int parse_date_basic(const char *text, timestamp_t *seconds, int *minutes)
{
    gix_date_time time;
    if (!read_exactly(text, &time))
        return -1;
    if (seconds)
        *seconds = time.seconds;
    if (minutes)
        *minutes = time.offset / 60;
    return 0;
}

int parse_date(const char *text, struct strbuf *out)
{
    gix_date_time time;
    if (!read_exactly(text, &time))
        return -1;
    add_time(out, time);
    return 0;
}

/* The seconds of a date of people that is no exact one: now, if it is refused. */
static timestamp_t read_approximately(const char *text, bool *understood)
{
    const gix_date_instant now = present();
    git_date_approximate date;
    size_t place;
    uint32_t status = git_date_approxidate_at(text, strlen(text), &now, own_zone(), &date, &place);
    *understood = status == GIX_DATE_OK && date.understood;
    return status == GIX_DATE_OK ? date.time.seconds : now.seconds;
}

timestamp_t approxidate_careful(const char *text, int *error)
{
    gix_date_time exact;
    bool understood = read_exactly(text, &exact);
    timestamp_t seconds = understood ? exact.seconds : read_approximately(text, &understood);
    if (error)
        *error = !understood;
    return seconds;
}

timestamp_t approxidate_relative(const char *text)
{
    return approxidate_careful(text, NULL);
}

int parse_expiry_date(const char *text, timestamp_t *seconds)
{
    const gix_date_instant now = present();
    git_date_expiry expiry = {.kind = GIT_DATE_BEFORE};
    size_t place;
    int error = 0;
    /* What it refuses is a date of people, as any text but the words for never and for all. */
    if (git_date_expiry_at(text, strlen(text), &now, own_zone(), &expiry, &place) != GIX_DATE_OK)
        expiry.kind = GIT_DATE_BEFORE;
    switch (expiry.kind) {
    case GIT_DATE_NEVER:
        *seconds = 0;
        break;
    case GIT_DATE_ALL:
        *seconds = TIME_MAX;
        break;
    default:
        *seconds = approxidate_careful(text, &error);
    }
    return error;
}

/* The system's time now, with the offset of the zone. */
void datestamp(struct strbuf *out)
{
    const gix_date_instant now = system_now();
    gix_date_time time = {now.seconds, 0};
    if (gix_date_offset_at(&now, own_zone(), &time.offset) == GIX_DATE_OK)
        add_time(out, time);
}

int date_overflows(timestamp_t seconds)
{
    return seconds > INT64_MAX;
}

/* The days of a month may go on into the next. */
time_t tm_to_time_t(const struct tm *tm)
{
    struct tm clock = *tm;
    if (tm->tm_year < 70 || tm->tm_year > 199 || tm->tm_mon < 0 || tm->tm_mon > 11 || tm->tm_hour < 0 ||
        tm->tm_min < 0 || tm->tm_sec < 0)
        return -1;
    return timegm(&clock);
}

/* The time of seconds and an offset of Git, or 0 +0000 where the seconds are too many. */
static gix_date_time time_of(timestamp_t seconds, int tz)
{
    gix_date_time time = {0, 0};
    if (!date_overflows(seconds)) {
        time.seconds = seconds;
        time.offset = git_date_offset_from_decimal(tz);
    }
    return time;
}

/* How long ago a time was, in the user's language. */
void show_date_relative(timestamp_t seconds, struct strbuf *out)
{
#define AGO(unit) {"%" PRIuMAX " " unit " ago", "%" PRIuMAX " " unit "s ago"}
    static const char *const ages[][2] = {
        [GIT_DATE_SECONDS] = AGO("second"), [GIT_DATE_MINUTES] = AGO("minute"),
        [GIT_DATE_HOURS] = AGO("hour"),     [GIT_DATE_DAYS] = AGO("day"),
        [GIT_DATE_WEEKS] = AGO("week"),     [GIT_DATE_MONTHS] = AGO("month"),
        [GIT_DATE_YEARS] = AGO("year"),
    };
    const gix_date_instant now = present();
    const gix_date_time time = time_of(seconds, 0);
    git_date_age age;
    if (git_date_age_at(&time, &now, &age) != GIX_DATE_OK || age.unit == GIT_DATE_FUTURE) {
        strbuf_addstr(out, _("in the future"));
    } else if (age.months > 0) {
        char *years = xstrfmt(Q_("%" PRIuMAX " year", "%" PRIuMAX " years", age.count), (uintmax_t)age.count);
        strbuf_addf(out, Q_("%s, %" PRIuMAX " month ago", "%s, %" PRIuMAX " months ago", age.months), years,
                    (uintmax_t)age.months);
        free(years);
    } else {
        strbuf_addf(out, Q_(ages[age.unit][0], ages[age.unit][1], age.count), (uintmax_t)age.count);
    }
}

/* Shows a time and an offset of Git as the library does. Most modes ask for no zone. */
static void add_shown(struct strbuf *out, timestamp_t seconds, int tz, git_date_mode mode)
{
    static const gix_date_git_time epoch;
    const gix_date_instant now = present();
    const gix_date_git_time time = {date_overflows(seconds) ? 0 : seconds, date_overflows(seconds) ? 0 : tz, false};
    const gix_date_zone *zone = mode.local || mode.kind == GIT_DATE_HUMAN ? own_zone() : &utc;
    char shown[GIT_DATE_MAX_SHOWN_GIT_TIME];
    size_t len;
    if (git_date_show_git_time_at(&time, &mode, &now, zone, shown, sizeof shown, &len) == GIX_DATE_OK ||
        git_date_show_git_time_at(&epoch, &mode, &now, zone, shown, sizeof shown, &len) == GIX_DATE_OK)
        strbuf_add(out, shown, len);
}

/* Shows a time by a format, as the library does. It refuses some formats and times, and does not know how the
 * C library abbreviates a zone of neither a file nor a rule. */
static bool is_added_by_format(struct strbuf *out, gix_date_time time, const struct date_mode *mode)
{
    const char *format = mode->strftime_fmt;
    const gix_date_zone *zone = mode->local ? own_zone() : &utc;
    size_t len = 0, place;
    uint32_t status;
    if (mode->local && !zone->held)
        return false;
    do {
        strbuf_grow(out, len);
        status = git_date_show_by_format(&time, format, strlen(format), mode->local, zone, out->buf + out->len,
                                         strbuf_avail(out), &len, &place);
    } while (status == GIX_DATE_NO_ROOM);
    strbuf_setlen(out, out->len + len);
    return status == GIX_DATE_OK;
}

/* The same by Git and by the clock of the C library. Outside 1970 to 2099 Git takes the offset of a zone for 0. */
static void add_by_git(struct strbuf *out, gix_date_time time, const struct date_mode *mode)
{
    time_t seconds = mode->local ? time.seconds : time.seconds + time.offset;
    struct tm clock;
    if (!(mode->local ? localtime_r(&seconds, &clock) : gmtime_r(&seconds, &clock))) {
        seconds = time.offset = 0;
        gmtime_r(&seconds, &clock);
    } else if (mode->local) {
        time.offset = tm_to_time_t(&clock) < 0 ? 0 : clock.tm_gmtoff;
    }
    strbuf_addftime(out, mode->strftime_fmt, &clock, git_date_offset_to_decimal(time.offset), !mode->local);
}

const char *show_date(timestamp_t seconds, int tz, const struct date_mode *mode)
{
    static struct strbuf shown = STRBUF_INIT;
    const gix_date_time time = time_of(seconds, tz);
    strbuf_reset(&shown);
    if (mode->type == DATE_RELATIVE)
        show_date_relative(seconds, &shown);
    else if (mode->type != DATE_STRFTIME)
        add_shown(&shown, seconds, tz, (git_date_mode){kind_of(mode->type), mode->local});
    else if (!is_added_by_format(&shown, time, mode))
        add_by_git(&shown, time, mode);
    return shown.buf;
}

/* Formats are not modes of the library, and neither is `auto:`, which depends on where the output goes. */
void parse_date_format(const char *name, struct date_mode *mode)
{
    const char *pattern;
    git_date_mode named;
    if (skip_prefix(name, "auto:", &name) && !isatty(1) && !pager_in_use())
        name = "default";
    if (skip_prefix(name, "format:", &pattern) || skip_prefix(name, "format-local:", &pattern)) {
        mode->type = DATE_STRFTIME;
        mode->local = name[strlen("format")] == '-';
        mode->strftime_fmt = xstrdup(pattern);
    } else if (starts_with(name, "format")) {
        die("date format missing colon separator: %s", name);
    } else if (git_date_mode_named(name, strlen(name), &named) != GIX_DATE_OK) {
        die("unknown date format %s", name);
    } else {
        mode->type = types[named.kind];
        mode->local = named.local;
    }
}

/* Of any type but that of formats. */
struct date_mode *date_mode_from_type(enum date_mode_type type)
{
    static struct date_mode mode;
    mode.type = type;
    return &mode;
}

void date_mode_release(struct date_mode *mode)
{
    free((char *)mode->strftime_fmt);
}
