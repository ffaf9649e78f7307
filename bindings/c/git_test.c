/* Calls each function of git_date.h on rows with Git's answers, on bad input and long texts, and by
 * sixteen threads at once. Counts what the library asks malloc and realloc for: link with
 * -Wl,--wrap=malloc,--wrap=realloc. */
#include "git_date.h"
#include "test.h"

/* A Sunday in UTC, and an hour of New York that its clock shows twice. */
static const gix_date_instant sunday = {1251660000, 0}, in_fold = {1699165800, 0};

/* The place that no call stores. */
enum { NO_PLACE = 99 };

static const git_date_exact no_date = {{-77, -7}, 9, true};
static const git_date_approximate no_guess = {{-77, -7}, 9, true};
static const git_date_expiry no_expiry = {99, {{-77, -7}, 9, true}};

static bool is_exact(git_date_exact date, int64_t seconds, int32_t offset, size_t ignored,
                     bool has_offset)
{
    return is_time(date.time, seconds, offset) && date.ignored == ignored &&
           date.has_offset == has_offset;
}

static bool is_approximate(git_date_approximate date, int64_t seconds, int32_t offset,
                           size_t ignored, bool understood)
{
    return is_time(date.time, seconds, offset) && date.ignored == ignored &&
           date.understood == understood;
}

static bool is_no_guess(git_date_approximate date)
{
    return is_approximate(date, -77, -7, 9, true);
}

/* A text that is refused with this status, and where. */
typedef struct refused_text {
    const char *text;
    uint32_t status;
    size_t place;
} refused_text;

static void exact_dates(void)
{
    static const refused_text rows[] = {
        {"2008-02-14", GIT_DATE_UNREADABLE, NO_PLACE},
        {"10:00 4294967301-01-02 +0000", GIT_DATE_NUMBER_TOO_LARGE, 6},
        {"1900-02-03 10:00 2009 +0000", GIT_DATE_YEAR_REFUSED, 0},
        {"12-sunny/-1900_2101/01/12 10:25Ttea +0415/", GIT_DATE_YEAR_REFUSED, 15},
        {"1970-01-01 00:00 +0100", GIT_DATE_RANGE, NO_PLACE},
        {"2008\xc3", GIT_DATE_UNREADABLE, NO_PLACE},
    };
    for (size_t i = 0; i < sizeof rows / sizeof *rows; i++) {
        git_date_exact date = no_date;
        size_t place = NO_PLACE;
        uint32_t status = git_date_parse_at(TEXT(rows[i].text), &sunday, AT(0), &date, &place);
        EXPECT(status == rows[i].status && place == rows[i].place, "%s: %u, %zu", rows[i].text,
               status, place);
        EXPECT(is_exact(date, -77, -7, 9, true), "%s", rows[i].text);
    }
    git_date_exact date = no_date;
    size_t place = NO_PLACE;
    EXPECT(git_date_parse_at(TEXT("Mon, 4 Mar 2019 10:00:00 +0100 (Mitteleurop\xe4ische Zeit)"), &sunday,
                             AT(0), &date, &place) == GIX_DATE_OK &&
               is_time(date.time, 1551690000, 3600),
           "%lld", (long long)date.time.seconds);
    /* A NUL ends the text before its length does. */
    EXPECT(git_date_parse_at(BYTES("Thu, 14 Feb 2008 20:30:45 +0000\0 +0500"), &sunday, AT(0), &date,
                             &place) == GIX_DATE_OK &&
               is_exact(date, 1203021045, 0, 31, true),
           "%lld %zu", (long long)date.time.seconds, date.ignored);
    EXPECT(git_date_parse_at(TEXT("2008-02-14 20:30:45 IST"), &sunday, AT(0), &date, &place) ==
                   GIX_DATE_OK &&
               is_exact(date, 1203021045, 0, 20, false),
           "%lld %zu", (long long)date.time.seconds, date.ignored);
    EXPECT(git_date_parse_at(TEXT("2008-02-14 20:30:45 EST"), &sunday, AT(0), &date, &place) ==
                   GIX_DATE_OK &&
               is_exact(date, 1203039045, -18000, GIT_DATE_NOTHING, true),
           "%lld %zu", (long long)date.time.seconds, date.ignored);
    EXPECT(git_date_parse_at(TEXT("2005-04-07 22:13:13"), &sunday, AT(-16200), &date, &place) ==
                   GIX_DATE_OK &&
               is_exact(date, 1112928193, -16200, GIT_DATE_NOTHING, false),
           "%lld", (long long)date.time.seconds);
    EXPECT(place == NO_PLACE, "%zu", place);
}

static void approximate_dates(void)
{
    static const refused_text rows[] = {
        {"10045thur 0sun 23.wednesday", GIT_DATE_BACK_TOO_FAR, 0},
        {"10600130-0-2004", GIT_DATE_YEAR_REFUSED, 0},
        {"12345678934567890", GIT_DATE_RANGE, NO_PLACE},
    };
    for (size_t i = 0; i < sizeof rows / sizeof *rows; i++) {
        git_date_approximate date = no_guess;
        size_t place = NO_PLACE;
        uint32_t status =
            git_date_approxidate_at(TEXT(rows[i].text), &sunday, AT(0), &date, &place);
        EXPECT(status == rows[i].status && place == rows[i].place, "%s: %u, %zu", rows[i].text,
               status, place);
        EXPECT(is_no_guess(date), "%s", rows[i].text);
    }
    git_date_approximate date = no_guess;
    size_t place = NO_PLACE;
    EXPECT(git_date_approxidate_at(TEXT("5 mins ago"), &sunday, AT(0), &date, &place) ==
                   GIX_DATE_OK &&
               is_approximate(date, 1249500000, 0, 2, true),
           "%lld %zu", (long long)date.time.seconds, date.ignored);
    EXPECT(git_date_approxidate_at(TEXT("last friday at noon"), &sunday, AT(0), &date, &place) ==
                   GIX_DATE_OK &&
               is_approximate(date, 1251460800, 0, GIT_DATE_NOTHING, true),
           "%lld %zu", (long long)date.time.seconds, date.ignored);
    EXPECT(git_date_approxidate_at(TEXT("noon\xffyesterday"), &sunday, AT(0), &date, &place) ==
                   GIX_DATE_OK &&
               is_approximate(date, 1251547200, 0, GIT_DATE_NOTHING, true),
           "%lld", (long long)date.time.seconds);
    EXPECT(git_date_approxidate_at(TEXT("lst day, llast day"), &sunday, AT(0), &date, &place) ==
                   GIX_DATE_OK &&
               is_time(date.time, 1251660000, 0) && !date.understood,
           "%lld", (long long)date.time.seconds);
    EXPECT(place == NO_PLACE, "%zu", place);
}

static void expect_expiry(const char *text, uint32_t status, uint32_t kind, int64_t seconds)
{
    git_date_expiry expiry = no_expiry;
    size_t place = NO_PLACE;
    EXPECT(git_date_expiry_at(TEXT(text), &sunday, AT(0), &expiry, &place) == status, "%s",
           text);
    EXPECT(expiry.kind == kind && place == NO_PLACE, "%s: %u", text, expiry.kind);
    if (kind == GIT_DATE_BEFORE)
        EXPECT(is_approximate(expiry.before, seconds, 0, GIT_DATE_NOTHING, true), "%s", text);
    else
        EXPECT(is_no_guess(expiry.before), "%s", text);
}

static void expiries(void)
{
    expect_expiry("never", GIX_DATE_OK, GIT_DATE_NEVER, 0);
    expect_expiry("false", GIX_DATE_OK, GIT_DATE_NEVER, 0);
    expect_expiry("all", GIX_DATE_OK, GIT_DATE_ALL, 0);
    expect_expiry("now", GIX_DATE_OK, GIT_DATE_ALL, 0);
    expect_expiry("Never", GIX_DATE_OK, GIT_DATE_BEFORE, 0);
    expect_expiry("NOW", GIX_DATE_OK, GIT_DATE_BEFORE, 1251660000);
    expect_expiry("ALL", GIT_DATE_UNREADABLE, 99, 0);
    expect_expiry("2008\xc3", GIX_DATE_OK, GIT_DATE_BEFORE, 1220124000);
    expect_expiry("\xff", GIT_DATE_UNREADABLE, 99, 0);
    git_date_expiry expiry = no_expiry;
    size_t place = NO_PLACE;
    EXPECT(git_date_expiry_at(TEXT("10600130-0-2004"), &sunday, AT(0), &expiry, &place) ==
                   GIT_DATE_YEAR_REFUSED &&
               place == 0 && expiry.kind == 99,
           "%zu", place);
}

/* Dates in New York, by the zone's rule and its file, which serve all calls and take no memory in them. */
static void dates_in(const gix_date_zone *zone)
{
    static const gix_date_instant november = {1700000000, 0};
    git_date_exact date = no_date;
    git_date_approximate guess = no_guess;
    git_date_expiry expiry = no_expiry;
    size_t place = NO_PLACE;
    const demand before = so_far();
    EXPECT(git_date_parse_at(TEXT("2023-07-01 12:00"), &sunday, zone, &date, &place) ==
                   GIX_DATE_OK &&
               is_exact(date, 1688227200, -14400, GIT_DATE_NOTHING, false),
           "%lld", (long long)date.time.seconds);
    EXPECT(git_date_parse_at(TEXT("2023-11-05 01:30"), &in_fold, zone, &date, &place) ==
                   GIX_DATE_OK &&
               is_exact(date, 1699162200, -14400, GIT_DATE_NOTHING, false),
           "%lld", (long long)date.time.seconds);
    EXPECT(git_date_approxidate_at(TEXT("noon july 1"), &november, zone, &guess, &place) ==
                   GIX_DATE_OK &&
               is_time(guess.time, 1688230800, -14400),
           "%lld", (long long)guess.time.seconds);
    /* At night noon is that of the day before, so the 1 is ignored. */
    EXPECT(git_date_approxidate_at(TEXT("noon july 1"), &in_fold, zone, &guess, &place) ==
                   GIX_DATE_OK &&
               is_approximate(guess, 1688486400, -14400, 10, true),
           "%lld", (long long)guess.time.seconds);
    EXPECT(git_date_expiry_at(TEXT("never"), &sunday, zone, &expiry, &place) == GIX_DATE_OK &&
               expiry.kind == GIT_DATE_NEVER,
           "%u", expiry.kind);
    EXPECT(git_date_expiry_at(TEXT("noon july 1"), &in_fold, zone, &expiry, &place) ==
                   GIX_DATE_OK &&
               expiry.kind == GIT_DATE_BEFORE && is_time(expiry.before.time, 1688486400, -14400),
           "%lld", (long long)expiry.before.time.seconds);
    expect_demand(before, none, "dates in a zone");
    EXPECT(place == NO_PLACE, "%zu", place);
}

static void dates_in_new_york(void)
{
    gix_date_zone zones[] = {zone_of(TEXT(new_york)), zone_of(BYTES(zone_file))};
    for (size_t i = 0; i < sizeof zones / sizeof *zones; i++) {
        dates_in(&zones[i]);
        gix_date_zone_free(&zones[i]);
    }
}

/* A moment and a zone that are none are told before anything of the text. */
static void moments(void)
{
    static const gix_date_instant odd = {0, 1000000000};
    static const gix_date_time day = {1251660000, 0};
    static const git_date_mode mode = {99, false};
    static const gix_date_git_time of_line = {1251660000, 60, false};
    git_date_exact date = no_date;
    git_date_approximate guess = no_guess;
    git_date_expiry expiry = no_expiry;
    char out[4];
    size_t place = NO_PLACE, len = 99;
    const uint32_t bad_zone = GIX_DATE_INVALID_ZONE, bad_instant = GIX_DATE_INVALID_INSTANT;
    EXPECT(git_date_parse_at(BYTES("\xff"), &odd, AT(93600), &date, &place) == bad_zone, "zone");
    EXPECT(git_date_parse_at(BYTES("\xff"), &odd, AT(0), &date, &place) == bad_instant,
           "moment");
    EXPECT(git_date_approxidate_at(TEXT("now"), &odd, AT(-93600), &guess, &place) == bad_zone,
           "zone");
    EXPECT(git_date_approxidate_at(TEXT("now"), &odd, AT(0), &guess, &place) == bad_instant,
           "moment");
    EXPECT(git_date_expiry_at(TEXT("never"), &odd, AT(93600), &expiry, &place) == bad_zone,
           "zone");
    EXPECT(git_date_expiry_at(TEXT("never"), &odd, AT(0), &expiry, &place) == bad_instant,
           "moment");
    EXPECT(git_date_show_at(&day, &mode, &odd, AT(93600), out, sizeof out, &len) == bad_zone &&
               len == 0,
           "zone");
    EXPECT(git_date_show_at(&day, &mode, &odd, AT(0), out, sizeof out, &len) == bad_instant,
           "moment");
    len = 99;
    EXPECT(git_date_show_git_time_at(&of_line, &mode, &odd, AT(93600), out, sizeof out, &len) ==
                   bad_zone &&
               len == 0,
           "zone");
    EXPECT(git_date_show_git_time_at(&of_line, &mode, &odd, AT(0), out, sizeof out, &len) ==
               bad_instant,
           "moment");
    EXPECT(is_exact(date, -77, -7, 9, true) && is_no_guess(guess) && is_no_guess(expiry.before) &&
               expiry.kind == 99 && place == NO_PLACE,
           "a refusal stores nothing");
}

/* Texts and buffers of no bytes, at NULL. */
static void null_pointers(void)
{
    static const gix_date_time day = {1251660000, 0};
    static const gix_date_git_time of_line = {1251660000, 60, false};
    static const git_date_mode mode = {GIT_DATE_ISO8601, false};
    git_date_exact date = no_date;
    git_date_approximate guess = no_guess;
    git_date_expiry expiry = no_expiry;
    git_date_mode named = mode;
    size_t place = NO_PLACE, len = 99;
    EXPECT(git_date_parse_at(NULL, 0, &sunday, AT(0), &date, &place) == GIT_DATE_UNREADABLE,
           "a date");
    EXPECT(git_date_approxidate_at(NULL, 0, &sunday, AT(0), &guess, &place) == GIX_DATE_OK &&
               is_approximate(guess, 1251660000, 0, GIT_DATE_NOTHING, false),
           "a date");
    EXPECT(git_date_expiry_at(NULL, 0, &sunday, AT(0), &expiry, &place) == GIT_DATE_UNREADABLE,
           "a date");
    EXPECT(git_date_mode_named(NULL, 0, &named) == GIX_DATE_NO_SUCH_OPTION, "a mode");
    EXPECT(git_date_show_at(&day, &mode, &sunday, AT(0), NULL, 0, &len) == GIX_DATE_NO_ROOM &&
               len == 25,
           "%zu", len);
    len = 99;
    EXPECT(git_date_show_git_time_at(&of_line, &mode, &sunday, AT(0), NULL, 0, &len) ==
                   GIX_DATE_NO_ROOM &&
               len == 25,
           "%zu", len);
    EXPECT(place == NO_PLACE && is_exact(date, -77, -7, 9, true), "a refusal stores nothing");
}

static void modes(void)
{
    static const struct {
        const char *name;
        git_date_mode mode;
    } rows[] = {
        {"relative", {GIT_DATE_RELATIVE, false}},
        {"iso-strict", {GIT_DATE_ISO8601_STRICT, false}},
        {"iso8601-local", {GIT_DATE_ISO8601, true}},
        {"rfc", {GIT_DATE_RFC2822, false}},
        {"short", {GIT_DATE_SHORT, false}},
        {"local", {GIT_DATE_DEFAULT, true}},
        {"human-local", {GIT_DATE_HUMAN, true}},
        {"raw", {GIT_DATE_RAW, false}},
        {"unix", {GIT_DATE_UNIX, false}},
    };
    for (size_t i = 0; i < sizeof rows / sizeof *rows; i++) {
        git_date_mode mode = {99, !rows[i].mode.local};
        EXPECT(git_date_mode_named(TEXT(rows[i].name), &mode) == GIX_DATE_OK &&
                   mode.kind == rows[i].mode.kind && mode.local == rows[i].mode.local,
               "%s: %u %d", rows[i].name, mode.kind, mode.local);
    }
    git_date_mode mode = {99, true};
    EXPECT(git_date_mode_named(TEXT("ISO"), &mode) == GIX_DATE_NO_SUCH_OPTION, "letter case");
    EXPECT(git_date_mode_named(BYTES("\xff"), &mode) == GIX_DATE_NOT_TEXT, "no text");
    EXPECT(mode.kind == 99 && mode.local, "a refusal stores nothing");
}

/* The noon of July 1, 2023 in New York. */
static uint32_t show_in_new_york(const gix_date_zone *zone, git_date_mode mode, char *out,
                                 size_t room, size_t *len)
{
    static const gix_date_time time = {1688227200, 0};
    return git_date_show_at(&time, &mode, &in_fold, zone, out, room, len);
}

/* What Git shows of 1251660000 +0000 two hours later. */
static const char *const shown[] = {
    "2 hours ago",
    "2009-08-30T19:20:00+00:00",
    "2009-08-30 19:20:00 +0000",
    "Sun, 30 Aug 2009 19:20:00 +0000",
    "2009-08-30",
    "Sun Aug 30 19:20:00 2009 +0000",
    "2 hours ago",
    "1251660000 +0000",
    "1251660000",
};

/* What Git shows of 1688227200 +0000 by New York's clock, in November of that year. */
static const char *const shown_locally[] = {
    "4 months ago",
    "2023-07-01T12:00:00-04:00",
    "2023-07-01 12:00:00 -0400",
    "Sat, 1 Jul 2023 12:00:00 -0400",
    "2023-07-01",
    "Sat Jul 1 12:00:00 2023",
    "Sat Jul 1 12:00",
    "1688227200 -0400",
    "1688227200",
};

/* A buffer of each length, too short or not, for the text that is due: in New York's zone, or in none. */
static void expect_shown(const char *due, uint32_t kind, const gix_date_zone *zone)
{
    static const gix_date_time time = {1251660000, 0};
    static const gix_date_instant later = {1251667200, 0};
    const git_date_mode mode = {kind, zone != NULL};
    for (size_t room = 0; room <= strlen(due) + 1; room++) {
        char *buffer = malloc(room + 1);
        memset(buffer, '#', room + 1);
        size_t len = 99;
        bool fits = room >= strlen(due);
        demand before = so_far();
        uint32_t status = zone ? show_in_new_york(zone, mode, buffer, room, &len)
                               : git_date_show_at(&time, &mode, &later, AT(0), buffer, room, &len);
        expect_demand(before, none, due);
        EXPECT(status == (fits ? GIX_DATE_OK : GIX_DATE_NO_ROOM) && len == strlen(due),
               "%s: %u, %zu", due, status, len);
        EXPECT(fits ? holds(buffer, room + 1, due, len) : is_untouched(buffer, room + 1), "%s",
               due);
        free(buffer);
    }
}

static void shown_dates(void)
{
    gix_date_zone rule = zone_of(TEXT(new_york)), file = zone_of(BYTES(zone_file));
    for (uint32_t kind = 0; kind < sizeof shown / sizeof *shown; kind++) {
        expect_shown(shown[kind], kind, NULL);
        expect_shown(shown_locally[kind], kind, &rule);
        expect_shown(shown_locally[kind], kind, &file);
        EXPECT(strlen(shown[kind]) <= GIT_DATE_MAX_SHOWN, "%s", shown[kind]);
    }
    gix_date_zone_free(&rule);
    gix_date_zone_free(&file);
}

static void refused_to_show(void)
{
    static const gix_date_time day = {1251660000, 0}, early = {-1, 0}, odd = {1251660000, 30};
    const git_date_mode iso = {GIT_DATE_ISO8601, false}, none_such = {9, false};
    git_date_mode neither = iso;
    char buffer[32];
    char *out = buffer;
    size_t len = 99;
    memset(buffer, '#', sizeof buffer);
    memset(&neither.local, 2, 1);
    EXPECT(git_date_show_at(&early, &iso, &sunday, AT(0), out, sizeof buffer, &len) ==
                   GIT_DATE_RANGE &&
               len == 0,
           "before 1970");
    EXPECT(git_date_show_at(&odd, &iso, &sunday, AT(0), out, sizeof buffer, &len) ==
               GIT_DATE_RANGE,
           "an offset with seconds");
    EXPECT(git_date_show_at(&day, &none_such, &sunday, AT(0), out, sizeof buffer, &len) ==
               GIX_DATE_NO_SUCH_OPTION,
           "kind 9");
    EXPECT(git_date_show_at(&day, &neither, &sunday, AT(0), out, sizeof buffer, &len) ==
               GIX_DATE_NO_SUCH_OPTION,
           "neither true nor false");
    EXPECT(len == 0 && is_untouched(buffer, sizeof buffer), "a refusal stores nothing");
}

/* What Git shows of a line's 1251660000 +0060 two hours later, and by New York's clock. */
static const char *const shown_of_line[] = {
    "2 hours ago",
    "2009-08-30T20:20:00+00:60",
    "2009-08-30 20:20:00 +0060",
    "Sun, 30 Aug 2009 20:20:00 +0060",
    "2009-08-30",
    "Sun Aug 30 20:20:00 2009 +0060",
    "2 hours ago",
    "1251660000 +0060",
    "1251660000",
};
static const char locally[] = "2009-08-30 15:20:00 -0400";

/* A buffer of each length, too short or not, for the text that is due. */
static void expect_of_line(const char *due, git_date_mode mode, const gix_date_zone *zone)
{
    static const gix_date_git_time time = {1251660000, 60, false};
    static const gix_date_instant later = {1251667200, 0};
    for (size_t room = 0; room <= strlen(due) + 1; room++) {
        char *buffer = malloc(room + 1);
        memset(buffer, '#', room + 1);
        size_t len = 99;
        bool fits = room >= strlen(due);
        demand before = so_far();
        uint32_t status = git_date_show_git_time_at(&time, &mode, &later, zone, buffer, room, &len);
        expect_demand(before, none, due);
        EXPECT(status == (fits ? GIX_DATE_OK : GIX_DATE_NO_ROOM) && len == strlen(due),
               "%s: %u, %zu", due, status, len);
        EXPECT(fits ? holds(buffer, room + 1, due, len) : is_untouched(buffer, room + 1), "%s",
               due);
        free(buffer);
    }
}

static void shown_dates_of_lines(void)
{
    gix_date_zone rule = zone_of(TEXT(new_york));
    for (uint32_t kind = 0; kind < sizeof shown_of_line / sizeof *shown_of_line; kind++)
        expect_of_line(shown_of_line[kind], (git_date_mode){kind, false}, AT(0));
    expect_of_line(locally, (git_date_mode){GIT_DATE_ISO8601, true}, &rule);
    gix_date_zone_free(&rule);
}

static void refused_dates_of_lines(void)
{
    static const struct {
        gix_date_git_time time;
        git_date_mode mode;
        uint32_t status;
    } rows[] = {
        {{0, -100, false}, {GIT_DATE_ISO8601, false}, GIX_DATE_BEFORE_EPOCH},
        {{0, 59652315, false}, {GIT_DATE_ISO8601, false}, GIX_DATE_OFFSET_TOO_WIDE},
        {{INT64_MAX, 0, false}, {GIT_DATE_ISO8601, false}, GIT_DATE_RANGE},
        {{0, 0, false}, {9, false}, GIX_DATE_NO_SUCH_OPTION},
    };
    char out[GIT_DATE_MAX_SHOWN_GIT_TIME];
    memset(out, '#', sizeof out);
    for (size_t i = 0; i < sizeof rows / sizeof *rows; i++) {
        size_t len = 99;
        uint32_t status = git_date_show_git_time_at(&rows[i].time, &rows[i].mode, &sunday, AT(0), out,
                                                    sizeof out, &len);
        EXPECT(status == rows[i].status && len == 0, "%lld %d: %u",
               (long long)rows[i].time.seconds, (int)rows[i].time.offset, status);
    }
    EXPECT(is_untouched(out, sizeof out), "a refusal stores nothing");
}

/* A format, and what it shows of 1251660000 +0200 by its own clock and by New York's. */
typedef struct by_format {
    const char *format, *own, *local;
} by_format;

static const gix_date_time evening = {1251660000, 7200};

/* A buffer of each length, too short or not, for the text that is due. */
static void expect_by_format(gix_date_time time, const char *format, const char *due, bool local,
                             const gix_date_zone *zone)
{
    for (size_t room = 0; room <= strlen(due) + 1; room++) {
        char *buffer = malloc(room + 1);
        size_t len = 99, place = NO_PLACE;
        memset(buffer, '#', room + 1);
        bool fits = room >= strlen(due);
        uint32_t status = git_date_show_by_format(&time, TEXT(format), local, zone, buffer, room,
                                                  &len, &place);
        EXPECT(status == (fits ? GIX_DATE_OK : GIX_DATE_NO_ROOM) && len == strlen(due) &&
                   place == NO_PLACE,
               "%s: %u, %zu", format, status, len);
        EXPECT(fits ? holds(buffer, room + 1, due, len) : is_untouched(buffer, room + 1), "%s",
               format);
        free(buffer);
    }
}

static void formats(void)
{
    static const by_format rows[] = {
        {"%Y-%m-%d %H:%M:%S %z", "2009-08-30 21:20:00 +0200", "2009-08-30 15:20:00 -0400"},
        {"[%Z] %s", "[] 1251660000", "[EDT] 1251660000"},
        {"%l:%M%P %-I %5e %-5e %05e", " 9:20pm 9    30    30 00030", " 3:20pm 3    30    30 00030"},
        {"%G-W%V-%u %U %W %j", "2009-W35-7 35 34 242", "2009-W35-7 35 34 242"},
        {"%%%n%t", "%\n\t", "%\n\t"},
        {"", "", ""},
    };
    gix_date_zone rule = zone_of(TEXT(new_york)), file = zone_of(BYTES(zone_file));
    for (size_t i = 0; i < sizeof rows / sizeof *rows; i++) {
        expect_by_format(evening, rows[i].format, rows[i].own, false, AT(93599));
        expect_by_format(evening, rows[i].format, rows[i].own, false, &file);
        expect_by_format(evening, rows[i].format, rows[i].local, true, &rule);
    }
    expect_by_format((gix_date_time){1688227200, 0}, "%T %z %Z", "12:00:00 -0400 EDT", true, &file);
    expect_by_format(evening, "%T %z %Z", "21:20:00 +0200 +02", true, AT(7200));
    gix_date_zone_free(&rule);
    gix_date_zone_free(&file);
}

static void refused_formats(void)
{
    static const struct {
        const char *format;
        int64_t seconds;
        int32_t offset;
        uint32_t status;
        size_t place;
    } rows[] = {
        {"%Y %-s", 0, 0, GIT_DATE_FLAG_REFUSED, 3},
        {"%F%E", -1, 30, GIT_DATE_UNKNOWN_DIRECTIVE, 2},
        {"%q%256d", 0, 0, GIT_DATE_UNKNOWN_DIRECTIVE, 0},
        {"100%% %256d", 0, 0, GIT_DATE_WIDTH_TOO_LARGE, 6},
        {"%Y", -1, 0, GIT_DATE_RANGE, NO_PLACE},
        {"%Y", 1251660000, 30, GIT_DATE_RANGE, NO_PLACE},
        {"%s", 4102444800, 0, GIT_DATE_RANGE, NO_PLACE},
        {"\xff%q", 0, 0, GIX_DATE_NOT_TEXT, NO_PLACE},
    };
    char out[32];
    memset(out, '#', sizeof out);
    for (size_t i = 0; i < sizeof rows / sizeof *rows; i++) {
        const gix_date_time time = {rows[i].seconds, rows[i].offset};
        size_t len = 99, place = NO_PLACE;
        uint32_t status = git_date_show_by_format(&time, TEXT(rows[i].format), false, AT(0), out,
                                                  sizeof out, &len, &place);
        EXPECT(status == rows[i].status && len == 0 && place == rows[i].place, "%s: %u, %zu",
               rows[i].format, status, place);
        for (int local = 0; local < 2; local++)
            EXPECT(git_date_show_by_format(&time, TEXT(rows[i].format), local, AT(93600), out,
                                           sizeof out, &len, &place) == GIX_DATE_INVALID_ZONE,
                   "the zone is looked at first");
    }
    EXPECT(is_untouched(out, sizeof out), "a refusal stores nothing");
}

/* Ages as Git shows them at 1251660000, and what of them is stored. */
static void ages(void)
{
    static const struct {
        int64_t seconds;
        git_date_age age;
    } rows[] = {
        {1251659999, {GIT_DATE_SECONDS, 1, 0}},   {1251659880, {GIT_DATE_MINUTES, 2, 0}},
        {1251652800, {GIT_DATE_HOURS, 2, 0}},     {1251448277, {GIT_DATE_DAYS, 2, 0}},
        {1245695181, {GIT_DATE_WEEKS, 10, 0}},    {1241829365, {GIT_DATE_MONTHS, 4, 0}},
        {1214160000, {GIT_DATE_YEARS, 1, 2}},     {1188674400, {GIT_DATE_YEARS, 2, 0}},
        {1251660001, {GIT_DATE_FUTURE, 0, 0}},
    };
    static const gix_date_instant odd = {0, 1000000000}, early = {-1, 0}, part = {1251660000, -1};
    static const gix_date_time before = {-1, 0}, second = {1251659999, 0};
    git_date_age age;
    for (size_t i = 0; i < sizeof rows / sizeof *rows; i++) {
        const gix_date_time time = {rows[i].seconds, 3600};
        const git_date_age due = rows[i].age;
        age = (git_date_age){99, 99, 99};
        EXPECT(git_date_age_at(&time, &sunday, &age) == GIX_DATE_OK && age.unit == due.unit &&
                   age.count == due.count && age.months == due.months,
               "%lld: %u %u %u", (long long)time.seconds, age.unit, age.count, age.months);
    }
    EXPECT(git_date_age_at(&second, &part, &age) == GIX_DATE_OK && age.unit == GIT_DATE_SECONDS &&
               age.count == 0,
           "a part of a second: %u", age.count);
    age = (git_date_age){99, 99, 99};
    EXPECT(git_date_age_at(&before, &sunday, &age) == GIT_DATE_RANGE, "a time before 1970");
    EXPECT(git_date_age_at(&second, &early, &age) == GIT_DATE_RANGE, "a moment before 1970");
    EXPECT(git_date_age_at(&before, &odd, &age) == GIX_DATE_INVALID_INSTANT, "no moment");
    EXPECT(age.unit == 99 && age.count == 99 && age.months == 99, "a refusal stores nothing");
}

/* Offsets and their numbers: +0530, -0130, 100 hours, and what no offset of minutes says. */
static void decimal_offsets(void)
{
    static const int32_t both[][2] = {
        {0, 0}, {530, 19800}, {-130, -5400}, {1, 60}, {-1, -60}, {10000, 360000}, {-9959, -359940},
        {59652314, 2147483640}, {-59652314, -2147483640},
    };
    static const int32_t read[][2] = {{60, 3600}, {-90, -5400}, {59652315, INT32_MAX},
                                      {INT32_MAX, INT32_MAX}, {INT32_MIN, -INT32_MAX}};
    static const int32_t told[][2] = {{59, 0}, {-59, 0}, {3661, 101}, {INT32_MAX, 59652314},
                                      {INT32_MIN, -59652314}};
    for (size_t i = 0; i < sizeof both / sizeof *both; i++) {
        EXPECT(git_date_offset_from_decimal(both[i][0]) == both[i][1], "%d", both[i][0]);
        EXPECT(git_date_offset_to_decimal(both[i][1]) == both[i][0], "%d", both[i][1]);
    }
    for (size_t i = 0; i < sizeof read / sizeof *read; i++)
        EXPECT(git_date_offset_from_decimal(read[i][0]) == read[i][1], "%d", read[i][0]);
    for (size_t i = 0; i < sizeof told / sizeof *told; i++)
        EXPECT(git_date_offset_to_decimal(told[i][0]) == told[i][1], "%d", told[i][0]);
}

/* The texts of offsets, as they are read and written. */
static void offset_texts(void)
{
    static const struct {
        const char *text;
        int32_t offset;
    } both[] = {{"+0000", 0}, {"+0530", 19800}, {"-0130", -5400}, {"-2559", -93540}},
      read[] = {{"+02", 7200}, {"-03:30", -12600}, {"-0000", 0}},
      written[] = {{"+51800", 1864800}, {"-0001", -119}, {"+0000", -59}, {"-59652314", INT32_MIN}};
    static const char *const refused[] = {"", "0200", "+2", "+020", "+02:0", "+0260", "+2600", "+02000", "Z", "+02 "};
    char out[16];
    size_t len;
    int32_t offset;
    for (size_t i = 0; i < sizeof both / sizeof *both; i++) {
        EXPECT(git_date_parse_offset(TEXT(both[i].text), &offset) == GIX_DATE_OK && offset == both[i].offset, "%s", both[i].text);
        EXPECT(git_date_offset_text(offset, out, sizeof out, &len) == GIX_DATE_OK && len == strlen(both[i].text) &&
                   !memcmp(out, both[i].text, len),
               "%s", both[i].text);
    }
    for (size_t i = 0; i < sizeof read / sizeof *read; i++)
        EXPECT(git_date_parse_offset(TEXT(read[i].text), &offset) == GIX_DATE_OK && offset == read[i].offset, "%s", read[i].text);
    for (size_t i = 0; i < sizeof written / sizeof *written; i++)
        EXPECT(git_date_offset_text(written[i].offset, out, sizeof out, &len) == GIX_DATE_OK &&
                   len == strlen(written[i].text) && !memcmp(out, written[i].text, len),
               "%s", written[i].text);
    for (size_t i = 0; i < sizeof refused / sizeof *refused; i++) {
        offset = 99;
        EXPECT(git_date_parse_offset(TEXT(refused[i]), &offset) == GIX_DATE_INVALID_ZONE && offset == 99, "%s", refused[i]);
    }
    memset(out, '#', sizeof out);
    EXPECT(git_date_offset_text(0, out, 4, &len) == GIX_DATE_NO_ROOM && len == 5 && out[0] == '#', "no room");
}

enum { LONG = 60000 };

/* A format of 60000 bytes shows 2,550,000, for which there may be no memory. */
static void long_formats(void)
{
    static const gix_date_time day = {1251660000, 0};
    static char format[LONG], out[LONG / 6 * 255];
    size_t len = 99, place = NO_PLACE;
    for (size_t i = 0; i < LONG; i++)
        format[i] = "%0255d"[i % 6];
    EXPECT(git_date_show_by_format(&day, format, LONG, false, AT(0), out, sizeof out, &len,
                                   &place) == GIX_DATE_OK &&
               len == sizeof out && !memcmp(out + len - 4, "0030", 4),
           "%zu", len);
    EXPECT(git_date_show_by_format(&day, format, LONG, false, AT(0), out, sizeof out - 1, &len,
                                   &place) == GIX_DATE_NO_ROOM &&
               len == sizeof out,
           "%zu", len);
    size_t before = so_far().requests;
    EXPECT(git_date_show_by_format(&day, format, LONG, false, AT(0), NULL, 0, &len, &place) ==
               GIX_DATE_NO_ROOM,
           "%zu", len);
    size_t requests = so_far().requests - before;
    EXPECT(requests > 0, "%zu", requests);
    for (size_t i = 1; i <= requests; i++) {
        len = 99;
        refuse_after(i - 1);
        uint32_t status = git_date_show_by_format(&day, format, LONG, false, AT(0), out, sizeof out,
                                                  &len, &place);
        refuse_after(SIZE_MAX);
        EXPECT(status == GIX_DATE_OUT_OF_MEMORY && len == 0, "request %zu: %u", i, status);
    }
    EXPECT(place == NO_PLACE, "%zu", place);
}

/* Pieces that fill 60000 bytes before a date, which Git reads all the same, exactly but for one. */
static void long_texts(void)
{
    static const char *const pieces[] = {
        "0", "x", "-", ".", ":", "+05:", "10:00 ", "Jan ", "xyz1 ", "2005-04-07 ", "1."};
    static const char date[] = "2005-04-07 10:00 +0100";
    static char text[LONG + sizeof date];
    for (size_t i = 0; i < sizeof pieces / sizeof *pieces; i++) {
        size_t size = strlen(pieces[i]), len = 0;
        for (; len + size <= LONG; len += size)
            memcpy(text + len, pieces[i], size);
        memcpy(text + len, date, sizeof date - 1);
        len += sizeof date - 1;
        git_date_exact exact = no_date;
        git_date_approximate guess = no_guess;
        git_date_expiry expiry = no_expiry;
        git_date_mode mode;
        size_t place = NO_PLACE;
        bool is_sign = *pieces[i] == '-';
        uint32_t status = git_date_parse_at(text, len, &sunday, AT(0), &exact, &place);
        EXPECT(is_sign ? status == GIT_DATE_UNREADABLE
                       : status == GIX_DATE_OK && is_time(exact.time, 1112864400, 3600),
               "%s: %u", pieces[i], status);
        status = git_date_approxidate_at(text, len, &sunday, AT(0), &guess, &place);
        EXPECT(status == GIX_DATE_OK && guess.time.seconds == (is_sign ? 1112868000 : 1112864400),
               "%s: %u, %lld", pieces[i], status, (long long)guess.time.seconds);
        status = git_date_expiry_at(text, len, &sunday, AT(0), &expiry, &place);
        EXPECT(status == GIX_DATE_OK && expiry.before.time.seconds == guess.time.seconds, "%s: %u",
               pieces[i], status);
        EXPECT(git_date_mode_named(text, len, &mode) == GIX_DATE_NO_SUCH_OPTION, "%s", pieces[i]);
        EXPECT(place == NO_PLACE, "%s: %zu", pieces[i], place);
    }
}

/* The statuses of this header have words of their own, and the others those of gix_date.h. */
static void status_texts(void)
{
    static const char *const texts[] = {
        "not a date that Git reads",
        "a number of the date is too large",
        "the date leads back too far",
        "the year of the date is refused: expected 1970 to 2099",
        "the date is before 1970 or leads to an instant that cannot be computed with",
    };
    static const char *const of_formats[] = {
        "a directive of the format takes no flags and no width",
        "a directive of the format is unknown",
        "a width of the format is above 255",
    };
    const uint32_t first = GIX_DATE_UNCLEAR + 1;
    for (uint32_t status = 0; status < first; status++)
        EXPECT(git_date_status_text(status) == gix_date_status_text(status) ||
                   !strcmp(git_date_status_text(status), gix_date_status_text(status)),
               "%u", status);
    for (uint32_t i = 0; i < sizeof texts / sizeof *texts; i++)
        EXPECT(!strcmp(git_date_status_text(first + i), texts[i]), "%u", first + i);
    EXPECT(first + sizeof texts / sizeof *texts == GIX_DATE_AFTER_YEAR_9999 &&
               !strcmp(git_date_status_text(GIX_DATE_AFTER_YEAR_9999),
                       gix_date_status_text(GIX_DATE_AFTER_YEAR_9999)),
           "the number after the last of this header");
    for (uint32_t i = 0; i < sizeof of_formats / sizeof *of_formats; i++)
        EXPECT(!strcmp(git_date_status_text(GIT_DATE_FLAG_REFUSED + i), of_formats[i]), "%u", i);
    EXPECT(!strcmp(git_date_status_text(GIX_DATE_ZONE_COUNTS_LEAP_SECONDS + 1), "unknown status"),
           "the number after the last");
}

static void *reads_and_shows(void *unused)
{
    (void)unused;
    for (int i = 0; i < 200; i++) {
        exact_dates();
        approximate_dates();
        expiries();
        modes();
        formats();
        char out[GIT_DATE_MAX_SHOWN];
        size_t len;
        gix_date_zone zone = zone_of(BYTES(zone_file));
        EXPECT(show_in_new_york(&zone, (git_date_mode){GIT_DATE_DEFAULT, true}, out, sizeof out,
                                &len) == GIX_DATE_OK &&
                   len == 23 && !memcmp(out, "Sat Jul 1 12:00:00 2023", 23),
               "a thread");
        gix_date_zone_free(&zone);
    }
    return NULL;
}

int main(void)
{
    status_texts();
    without_memory(exact_dates, "exact dates");
    without_memory(approximate_dates, "approximate dates");
    without_memory(expiries, "expiries");
    without_memory(moments, "moments");
    without_memory(null_pointers, "texts at NULL");
    without_memory(modes, "modes");
    without_memory(refused_to_show, "dates that are not shown");
    without_memory(refused_dates_of_lines, "dates of lines that are not shown");
    without_memory(ages, "ages");
    without_memory(decimal_offsets, "decimal offsets");
    without_memory(offset_texts, "offset texts");
    without_memory(long_texts, "long texts");
    without_memory(refused_formats, "formats that are refused");
    shown_dates();
    shown_dates_of_lines();
    formats();
    long_formats();
    dates_in_new_york();
    in_threads(reads_and_shows);
    if (failures > 0)
        return 1;
    puts("each call of git_date.h answers as its rows say");
    return 0;
}
