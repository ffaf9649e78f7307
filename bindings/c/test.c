/* Calls each function of gix_date.h on rows with outside values, on bad input, and by sixteen
 * threads at once. Counts what the library asks malloc and realloc for: link with
 * -Wl,--wrap=malloc,--wrap=realloc. */
#include "test.h"

static void headers(void)
{
    gix_date_time time = untouched;
    EXPECT(gix_date_parse_header(TEXT("1:2"), &time) == GIX_DATE_INVALID_TIME, "a colon");
    EXPECT(gix_date_parse_header(BYTES("12\xff"), &time) == GIX_DATE_NOT_TEXT,
           "a byte that is no text");
    EXPECT(is_time(time, untouched.seconds, untouched.offset), "stored for no time");
    EXPECT(!gix_date_is_canonical_header(BYTES("\xff")), "a byte that is no text");
    EXPECT(gix_date_parse_header(BYTES("1"), &time) == GIX_DATE_OK && is_time(time, 1, 0),
           "one byte");
}

/* Texts and buffers of no bytes, at NULL. */
static void null_pointers(void)
{
    static const gix_date_time day = {1660797906, 28800};
    static const gix_date_instant now = {0, 0};
    static const gix_date_careful_options options = {0, 0, 0};
    gix_date_time time = untouched;
    gix_date_zone zone = GIX_DATE_AT_OFFSET(0);
    gix_date_signature parts;
    gix_date_ident_parts ident;
    size_t len = 99, place = 99;
    EXPECT(gix_date_parse_header(NULL, 0, &time) == GIX_DATE_INVALID_TIME, "a header");
    EXPECT(!gix_date_is_canonical_header(NULL, 0), "a header");
    EXPECT(gix_date_parse(NULL, 0, 0, &time) == GIX_DATE_UNKNOWN_FORMAT, "a date");
    EXPECT(gix_date_parse_at(NULL, 0, 0, &now, AT(0), &time) == GIX_DATE_UNKNOWN_FORMAT,
           "a date");
    EXPECT(gix_date_zone_read(NULL, 0, &zone) == GIX_DATE_INVALID_ZONE, "a zone");
    EXPECT(gix_date_parse_carefully(NULL, 0, &options, &time, &place) == GIX_DATE_UNKNOWN_FORMAT,
           "a date");
    EXPECT(gix_date_cut_signature(NULL, 0, &parts) == GIX_DATE_NO_SIGNATURE, "a line");
    EXPECT(gix_date_ident(NULL, 0, &ident) == GIX_DATE_NO_IDENTITY, "a line");
    EXPECT(place == 99, "a refusal stores no place");
    EXPECT(gix_date_fsck(NULL, 0, &place) == GIX_DATE_FSCK_MISSING_EMAIL && place == 0, "a line");
    EXPECT(is_time(time, untouched.seconds, untouched.offset), "a refusal stores nothing");
    EXPECT(gix_date_write_ident(NULL, 0, NULL, 0, &day, NULL, 0, &len) == GIX_DATE_EMPTY_NAME &&
               len == 0,
           "%zu", len);
    EXPECT(gix_date_write_header(&day, NULL, 0, &len) == GIX_DATE_NO_ROOM && len == 16, "%zu", len);
    EXPECT(gix_date_write_signature(NULL, 0, NULL, 0, &day, NULL, 0, &len) == GIX_DATE_NO_ROOM &&
               len == 20,
           "%zu", len);
}

static void written_headers(void)
{
    static const gix_date_time least = {INT64_MIN, -359999}, wide = {0, 360000};
    const char *text = "-9223372036854775808 -9959";
    for (size_t room = 0; room <= 28; room++) {
        char *buffer = malloc(room + 1);
        memset(buffer, '#', room + 1);
        size_t len = 99, before = requests;
        uint32_t status = gix_date_write_header(&least, buffer, room, &len);
        EXPECT(requests == before, "memory was asked for");
        EXPECT(len == GIX_DATE_MAX_HEADER, "%zu", len);
        EXPECT(status == (room < 26 ? GIX_DATE_NO_ROOM : GIX_DATE_OK), "%zu: %u", room, status);
        EXPECT(room < 26 ? is_untouched(buffer, room + 1) : holds(buffer, room + 1, text, len),
               "%zu", room);
        EXPECT(gix_date_write_header(&wide, buffer, room, &len) ==
                   GIX_DATE_OFFSET_TOO_WIDE,
               "%zu", room);
        EXPECT(len == 0, "%zu", len);
        free(buffer);
    }
}

static void dates(void)
{
    static const struct {
        const char *text;
        uint32_t raw_offsets, status;
    } rows[] = {
        {"@5 +0007", GIX_DATE_QUARTERS, GIX_DATE_UNKNOWN_FORMAT},
        {"9999-12-31", GIX_DATE_QUARTERS, GIX_DATE_DATE_CONVERSION},
        {"yesterday", GIX_DATE_WHOLE_MINUTES, GIX_DATE_MISSING_NOW},
        {"2018-12-24", 2, GIX_DATE_NO_SUCH_OPTION},
        {"2018\xc3", GIX_DATE_QUARTERS, GIX_DATE_NOT_TEXT},
        {"2018\xc3", 2, GIX_DATE_NO_SUCH_OPTION},
    };
    gix_date_time time = untouched;
    for (size_t i = 0; i < sizeof rows / sizeof *rows; i++) {
        uint32_t status = gix_date_parse(TEXT(rows[i].text), rows[i].raw_offsets, &time);
        EXPECT(status == rows[i].status, "%s: %u", rows[i].text, status);
        EXPECT(is_time(time, untouched.seconds, untouched.offset), "%s", rows[i].text);
    }
    EXPECT(gix_date_parse(TEXT("@-1000"), GIX_DATE_QUARTERS, &time) == GIX_DATE_OK &&
               is_time(time, -1000, 0),
           "%lld", (long long)time.seconds);
}

static void relative_dates(void)
{
    static const gix_date_instant now = {1698400800, 0}, beyond = {253402207201, 0},
                                  odd = {0, 1000000000}, last = {253402207200, 999999999},
                                  last_otherwise = {253402207201, -1};
    static const gix_date_instant before_a_second = {1, -1};
    gix_date_time time = untouched;
    EXPECT(gix_date_parse_at(TEXT("yesterday"), 0, &now, AT(7200), &time) == GIX_DATE_OK,
           "yesterday");
    EXPECT(is_time(time, 1698314400, 7200), "%lld", (long long)time.seconds);
    EXPECT(gix_date_parse_at(TEXT("1 month 2 days ago"), 0, &now, AT(7200), &time) ==
               GIX_DATE_OK,
           "a month and two days");
    EXPECT(is_time(time, 1695636000, 7200), "%lld", (long long)time.seconds);
    EXPECT(gix_date_parse_at(TEXT("@0"), 0, &now, AT(7200), &time) == GIX_DATE_OK &&
               is_time(time, 0, 0),
           "@0");
    EXPECT(gix_date_parse_at(TEXT("now"), 0, &before_a_second, AT(0), &time) == GIX_DATE_OK &&
               is_time(time, 0, 0),
           "a nanosecond before second 1 is in second 0");

    EXPECT(gix_date_parse_at(TEXT("now"), 0, &last, AT(0), &time) == GIX_DATE_OK &&
               is_time(time, 253402207200, 0),
           "the last instant");

    time = untouched;
    EXPECT(gix_date_parse_at(TEXT("now"), 0, &last_otherwise, AT(0), &time) ==
               GIX_DATE_INVALID_INSTANT,
           "the last instant by a second more");
    EXPECT(gix_date_parse_at(TEXT("12023 years ago"), 0, &now, AT(0), &time) == GIX_DATE_RANGE,
           "too long ago");
    EXPECT(gix_date_parse_at(TEXT("now"), 0, &now, AT(93600), &time) == GIX_DATE_INVALID_ZONE,
           "26 hours");
    EXPECT(gix_date_parse_at(TEXT("now"), 0, &beyond, AT(0), &time) == GIX_DATE_INVALID_INSTANT,
           "beyond the last instant");
    EXPECT(gix_date_parse_at(TEXT("now"), 0, &odd, AT(0), &time) == GIX_DATE_INVALID_INSTANT,
           "a second of nanoseconds");
    EXPECT(gix_date_parse_at(TEXT("2018-12-24"), 0, &odd, AT(0), &time) == GIX_DATE_INVALID_INSTANT,
           "a date that needs no instant");
    EXPECT(gix_date_parse_at(TEXT("2018-12-24"), 0, &odd, AT(93600), &time) == GIX_DATE_INVALID_ZONE,
           "a date that needs no zone, which is looked at first");
    EXPECT(gix_date_parse_at(TEXT("2018-12-24"), 7, &now, AT(0), &time) == GIX_DATE_NO_SUCH_OPTION,
           "a date that no rule needs");
    EXPECT(gix_date_parse_at(BYTES("\xff"), 0, &now, AT(0), &time) == GIX_DATE_NOT_TEXT,
           "no text");
    EXPECT(gix_date_parse_at(TEXT("banana"), 0, &now, AT(0), &time) == GIX_DATE_UNKNOWN_FORMAT,
           "no date");
    EXPECT(gix_date_parse_at(TEXT("now"), 7, &now, AT(0), &time) == GIX_DATE_NO_SUCH_OPTION,
           "no rule");
    EXPECT(is_time(time, untouched.seconds, untouched.offset), "a refusal stores nothing");
}

static void relative_dates_by_a_rule(void)
{
    static const gix_date_instant in_fold = {1699165800, 0};
    gix_date_zone zone = zone_of(TEXT(new_york));
    gix_date_time time = untouched;
    EXPECT(gix_date_parse_at(TEXT("now"), 0, &in_fold, &zone, &time) == GIX_DATE_OK, "now");
    EXPECT(is_time(time, 1699165800, -18000), "%lld %d", (long long)time.seconds, (int)time.offset);
    EXPECT(gix_date_parse_at(TEXT("1 hour ago"), 0, &in_fold, &zone, &time) == GIX_DATE_OK,
           "1 hour ago");
    EXPECT(is_time(time, 1699158600, -14400), "%lld %d", (long long)time.seconds, (int)time.offset);
    gix_date_zone_free(&zone);
}

/* Options of careful calls: the usual, dates in the moment's zone, and all texts. */
static const gix_date_careful_options usual = {0, 0, 0},
                                      local = {GIX_DATE_QUARTERS, GIX_DATE_MOMENTS_ZONE,
                                               GIX_DATE_CAREFUL},
                                      lenient = {GIX_DATE_WHOLE_MINUTES, GIX_DATE_UTC,
                                                 GIX_DATE_ALL_TEXTS};

/* The place that no call stores. */
enum { NO_PLACE = 99 };

/* What a careful call answers: a time, or a status and perhaps a place. */
typedef struct careful_answer {
    uint32_t status;
    gix_date_time time;
    size_t place;
} careful_answer;

/* A careful call has to answer this, and to leave alone what it does not store. */
static void expect_answer(careful_answer seen, careful_answer due, const char *text)
{
    EXPECT(seen.status == due.status && seen.place == due.place &&
               is_time(seen.time, due.time.seconds, due.time.offset),
           "%s: %u, %lld %d, %zu", text, seen.status, (long long)seen.time.seconds,
           (int)seen.time.offset, seen.place);
}

static careful_answer refused(uint32_t status)
{
    return (careful_answer){status, untouched, NO_PLACE};
}

static careful_answer unclear(size_t place)
{
    return (careful_answer){GIX_DATE_UNCLEAR, untouched, place};
}

static careful_answer answers(int64_t seconds, int32_t offset)
{
    return (careful_answer){GIX_DATE_OK, {seconds, offset}, NO_PLACE};
}

static void expect_careful(const char *text, gix_date_careful_options options, careful_answer due)
{
    careful_answer seen = {0, untouched, NO_PLACE};
    seen.status = gix_date_parse_carefully(TEXT(text), &options, &seen.time, &seen.place);
    expect_answer(seen, due, text);
}

static void careful_dates(void)
{
    static const gix_date_careful_options none_such[] = {{2, 0, 0}, {0, 2, 0}, {0, 0, 2}};
    expect_careful("2024-01-05 10:00", usual, answers(1704448800, 0));
    expect_careful("30 min ago", usual, unclear(3));
    expect_careful("in 2 weeks", usual, unclear(0));
    expect_careful("2 weeks", usual, unclear(7));
    expect_careful("2 weeks ago", usual, refused(GIX_DATE_MISSING_NOW));
    expect_careful("30 min ago", lenient, refused(GIX_DATE_MISSING_NOW));
    expect_careful("2024-01-05 10:00", local, refused(GIX_DATE_MISSING_NOW));
    expect_careful("2024-01-05 10:00 +0100", local, answers(1704445200, 3600));
    expect_careful("@5 +0007", usual, refused(GIX_DATE_UNKNOWN_FORMAT));
    expect_careful("@5 +0007", lenient, answers(5, 420));
    expect_careful("9999-12-31", usual, refused(GIX_DATE_DATE_CONVERSION));
    expect_careful("", local, refused(GIX_DATE_UNKNOWN_FORMAT));
    expect_careful("2018\xc3", usual, refused(GIX_DATE_NOT_TEXT));
    for (size_t i = 0; i < sizeof none_such / sizeof *none_such; i++) {
        expect_careful("@0", none_such[i], refused(GIX_DATE_NO_SUCH_OPTION));
        expect_careful("2018\xc3", none_such[i], refused(GIX_DATE_NO_SUCH_OPTION));
    }
}

static void expect_at_offset(const char *text, gix_date_careful_options options, int32_t offset,
                             careful_answer due)
{
    static const gix_date_instant now = {1698400800, 0};
    careful_answer seen = {0, untouched, NO_PLACE};
    seen.status = gix_date_parse_carefully_at(TEXT(text), &options, &now, AT(offset), &seen.time, &seen.place);
    expect_answer(seen, due, text);
}

static void expect_in_zone(const char *text, gix_date_careful_options options, const char *rule,
                           careful_answer due)
{
    static const gix_date_instant now = {1699165800, 0};
    gix_date_zone zone = zone_of(TEXT(rule));
    careful_answer seen = {0, untouched, NO_PLACE};
    seen.status =
        gix_date_parse_carefully_at(TEXT(text), &options, &now, &zone, &seen.time, &seen.place);
    expect_answer(seen, due, text);
    gix_date_zone_free(&zone);
}

static void careful_dates_at_moments(void)
{
    static const gix_date_instant odd = {0, 1000000000};
    expect_at_offset("2 weeks ago", usual, 7200, answers(1697191200, 7200));
    expect_at_offset("2024-01-05 10:00", usual, 7200, answers(1704448800, 0));
    expect_at_offset("2024-01-05 10:00", local, 7200, answers(1704441600, 7200));
    expect_at_offset("30 min ago", local, 7200, unclear(3));
    expect_at_offset("30 min ago", lenient, 7200, answers(1698400770, 7200));
    expect_at_offset("12023 years ago", usual, 7200, refused(GIX_DATE_RANGE));
    expect_at_offset("9999-12-30 21:00", local, -7200, refused(GIX_DATE_RANGE));
    expect_at_offset("now", usual, 93600, refused(GIX_DATE_INVALID_ZONE));
    expect_at_offset("now", (gix_date_careful_options){0, 0, 2}, 0,
                     refused(GIX_DATE_NO_SUCH_OPTION));
    careful_answer seen = {0, untouched, NO_PLACE};
    seen.status =
        gix_date_parse_carefully_at(TEXT("now"), &usual, &odd, AT(0), &seen.time, &seen.place);
    expect_answer(seen, refused(GIX_DATE_INVALID_INSTANT), "a second of nanoseconds");
}

static void careful_dates_by_a_rule(void)
{
    const char *rule = new_york;
    expect_in_zone("2024-01-05 10:00", local, rule, answers(1704466800, -18000));
    /* A clock time that is there twice, and one that is skipped. */
    expect_in_zone("2023-11-05 01:30", local, rule, answers(1699162200, -14400));
    expect_in_zone("2024-03-10 02:30", local, rule, answers(1710055800, -14400));
    expect_in_zone("1 hour ago", usual, rule, answers(1699158600, -14400));
    expect_in_zone("1 hour", usual, rule, unclear(6));
}

/* The rule for raw offsets, as each call that takes a moment is given it. */
static void rules_of_offsets(void)
{
    static const gix_date_instant now = {1698400800, 0};
    const char *text = "@5 +0007";
    gix_date_zone zone = zone_of(TEXT(new_york));
    gix_date_time time = untouched;
    EXPECT(gix_date_parse_at(TEXT(text), GIX_DATE_WHOLE_MINUTES, &now, AT(0), &time) ==
               GIX_DATE_OK,
           "%s", text);
    EXPECT(is_time(time, 5, 420), "%d", (int)time.offset);
    time = untouched;
    EXPECT(gix_date_parse_at(TEXT(text), GIX_DATE_WHOLE_MINUTES, &now, &zone, &time) == GIX_DATE_OK,
           "%s", text);
    EXPECT(is_time(time, 5, 420), "%d", (int)time.offset);
    time = untouched;
    EXPECT(gix_date_parse_at(TEXT(text), GIX_DATE_QUARTERS, &now, AT(0), &time) ==
               GIX_DATE_UNKNOWN_FORMAT,
           "%s", text);
    EXPECT(gix_date_parse_at(TEXT(text), GIX_DATE_QUARTERS, &now, &zone, &time) ==
               GIX_DATE_UNKNOWN_FORMAT,
           "%s", text);
    EXPECT(is_time(time, untouched.seconds, untouched.offset), "a refusal stores nothing");
    gix_date_zone_free(&zone);
}

/* A zone holds memory until it is freed: that of a rule 72 bytes, and that of a file more. */
static const demand of_rule = {1, 72}, of_file = {3, 272};

/* Whether a zone means New York's, and is as it was after the call. */
static bool is_new_york(const gix_date_zone *zone)
{
    static const gix_date_instant in_fold = {1699165800, 0};
    const gix_date_zone before = *zone;
    gix_date_time time = untouched;
    return gix_date_parse_at(TEXT("1 hour ago"), 0, &in_fold, zone, &time) == GIX_DATE_OK &&
           is_time(time, 1699158600, -14400) && before.kind == zone->kind &&
           before.offset == zone->offset;
}

/* Whether a zone has this offset now. */
static bool shows(const gix_date_zone *zone, int32_t offset)
{
    static const gix_date_instant now = {1698400800, 0};
    gix_date_time time = untouched;
    return gix_date_parse_at(TEXT("now"), 0, &now, zone, &time) == GIX_DATE_OK &&
           is_time(time, 1698400800, offset);
}

/* Whether a zone always has this offset, and holds nothing. */
static bool is_at(const gix_date_zone *zone, int32_t offset)
{
    return !zone->held && zone->offset == offset && shows(zone, offset);
}

/* Zones that are read, each in the place of the one before, which is freed. */
static void zones_are_read(void)
{
    static const struct {
        const char *text;
        int32_t offset;
    } rows[] = {{"+0200", 7200}, {"-03:30", -12600}, {"+02", 7200}, {"-0000", 0}, {"+2559", 93540}};
    gix_date_zone zone = GIX_DATE_AT_OFFSET(-3600);
    EXPECT(is_at(&zone, -3600), "an offset needs no call");
    for (size_t i = 0; i < sizeof rows / sizeof *rows; i++) {
        demand before = so_far();
        EXPECT(gix_date_zone_read(TEXT(rows[i].text), &zone) == GIX_DATE_OK &&
                   is_at(&zone, rows[i].offset),
               "%s", rows[i].text);
        expect_demand(before, none, rows[i].text);
        before = so_far();
        EXPECT(gix_date_zone_read(TEXT(new_york), &zone) == GIX_DATE_OK && is_new_york(&zone),
               "a rule");
        expect_demand(before, of_rule, "a rule");
    }
    demand before = so_far();
    EXPECT(gix_date_zone_read(BYTES(zone_file), &zone) == GIX_DATE_OK, "a file");
    expect_demand(before, of_file, "a file");
    EXPECT(is_new_york(&zone) && is_new_york(&zone), "a zone serves many calls");
    EXPECT(gix_date_zone_read(TEXT("TZA-3"), &zone) == GIX_DATE_OK && shows(&zone, 10800),
           "a rule that begins as a file does, but for two letters");
    gix_date_zone_free(&zone);
    EXPECT(is_at(&zone, 0), "UTC, once freed");
    gix_date_zone_free(&zone);
    EXPECT(is_at(&zone, 0), "freed twice");
}

/* Offsets of New York, which goes back to -05:00 at 1699164000, and what has none. */
static void offsets(void)
{
    static const struct {
        gix_date_instant instant;
        int32_t offset;
    } rows[] = {{{1688227200, 0}, -14400}, {{1699163999, 999999999}, -14400}, {{1699164000, 0}, -18000},
                {{1699164000, -1}, -14400}, {{253402207200, 0}, -18000}};
    static const gix_date_instant now = {1698400800, 0}, odd = {0, 1000000000};
    gix_date_zone zones[] = {zone_of(TEXT(new_york)), zone_of(BYTES(zone_file))};
    int32_t offset = 99;
    for (size_t i = 0; i < sizeof zones / sizeof *zones; i++) {
        for (size_t k = 0; k < sizeof rows / sizeof *rows; k++) {
            const demand before = so_far();
            EXPECT(gix_date_offset_at(&rows[k].instant, &zones[i], &offset) == GIX_DATE_OK &&
                       offset == rows[k].offset,
                   "%lld: %d", (long long)rows[k].instant.seconds, (int)offset);
            expect_demand(before, none, "an offset");
        }
        EXPECT(is_new_york(&zones[i]), "the zone is as it was");
        gix_date_zone_free(&zones[i]);
    }
    EXPECT(gix_date_offset_at(&now, AT(-16200), &offset) == GIX_DATE_OK && offset == -16200,
           "%d", (int)offset);
    EXPECT(gix_date_offset_at(&odd, AT(93600), &offset) == GIX_DATE_INVALID_ZONE, "no zone");
    EXPECT(gix_date_offset_at(&odd, AT(0), &offset) == GIX_DATE_INVALID_INSTANT, "no instant");
    EXPECT(offset == -16200, "a refusal stores nothing");
}

/* The seconds at which rules change, by `date` of GNU with TZ: in the north, in the south, by a day of the year, and never. */
static void rule_changes(void)
{
    static const struct {
        const char *rule;
        int64_t seconds;
        int32_t offset;
    } rows[] = {{"CET-1CEST,M3.5.0,M10.5.0/3", 1711846799, 3600},
                {"CET-1CEST,M3.5.0,M10.5.0/3", 1711846800, 7200},
                {"CET-1CEST,M3.5.0,M10.5.0/3", 1729990799, 7200},
                {"CET-1CEST,M3.5.0,M10.5.0/3", 1729990800, 3600},
                {"AEST-10AEDT,M10.1.0,M4.1.0/3", 1712419199, 39600},
                {"AEST-10AEDT,M10.1.0,M4.1.0/3", 1712419200, 36000},
                {"AEST-10AEDT,M10.1.0,M4.1.0/3", 1728143999, 36000},
                {"AEST-10AEDT,M10.1.0,M4.1.0/3", 1728144000, 39600},
                {"EST5EDT,J60/2,J300/2", 1709189999, -18000},
                {"EST5EDT,J60/2,J300/2", 1709276400, -14400},
                {"EST5", 1709276400, -18000}};
    for (size_t i = 0; i < sizeof rows / sizeof *rows; i++) {
        gix_date_zone zone = zone_of(TEXT(rows[i].rule));
        const gix_date_instant instant = {rows[i].seconds, 0};
        int32_t offset = 99;
        EXPECT(gix_date_offset_at(&instant, &zone, &offset) == GIX_DATE_OK && offset == rows[i].offset,
               "%s at %lld: %d", rows[i].rule, (long long)rows[i].seconds, (int)offset);
        gix_date_zone_free(&zone);
    }
}

/* A TZif file of the first version: a header, one kind of time, and one leap second. */
static const char leap_seconds[] = "TZif\0\0\0\0\0\0\0\0\0\0\0\0\0\0\0\0"
                                   "\0\0\0\0\0\0\0\0\0\0\0\1\0\0\0\0\0\0\0\1\0\0\0\4"
                                   "\0\0\0\0\0\0UTC\0\4\262\130\0\0\0\0\1";

/* Texts that name no zone, after which a zone is as it was. */
static void refused_zones(void)
{
    static const char *const texts[] = {"",      "banana", "TZif", "TZif5",  "UT",          "+2600",
                                        "+0260", "0200",   "+2",   "+02000", "CET-1CEST,J", "+02:0",
                                        "+02.30", "+02x30"};
    gix_date_zone zone = zone_of(TEXT(new_york));
    const gix_date_zone before = zone;
    for (size_t i = 0; i < sizeof texts / sizeof *texts; i++)
        EXPECT(gix_date_zone_read(TEXT(texts[i]), &zone) == GIX_DATE_INVALID_ZONE, "%s", texts[i]);
    for (size_t len = 0; len < sizeof zone_file - 1; len++)
        EXPECT(gix_date_zone_read(zone_file, len, &zone) == GIX_DATE_INVALID_ZONE,
               "a file of %zu bytes", len);
    EXPECT(gix_date_zone_read(BYTES("\xff"), &zone) == GIX_DATE_NOT_TEXT, "no text");
    EXPECT(gix_date_zone_read(BYTES(leap_seconds), &zone) == GIX_DATE_ZONE_COUNTS_LEAP_SECONDS, "leap seconds");
    EXPECT(!memcmp(&before, &zone, sizeof zone) && is_new_york(&zone), "a refusal stores nothing");
    gix_date_zone_free(&zone);
}

/* Texts that mean a zone by themselves. In the last the United States had daylight saving time in October. */
static void zones_of_texts(void)
{
    static const struct {
        const char *text;
        int32_t offset;
    } rows[] = {{"UTC", 0}, {"gmt", 0}, {"CET-1", 3600}, {"CET-1CEST", 7200}, {"CET-1CEST,M3.5.0,M10.5.0/3", 7200}};
    gix_date_zone zone = GIX_DATE_AT_OFFSET(60);
    for (size_t i = 0; i < sizeof rows / sizeof *rows; i++)
        EXPECT(gix_date_zone_read(TEXT(rows[i].text), &zone) == GIX_DATE_OK && shows(&zone, rows[i].offset), "%s",
               rows[i].text);
    gix_date_zone_free(&zone);
}

/* The paths of files that say zones. */
static void paths_of_zones(void)
{
    static const struct {
        const char *tz, *tzdir, *path;
    } rows[] = {{"", "", ""},
                {":", "/z", ""},
                {"EST5EDT,M3.2.0,M11.1.0", "/z", ""},
                {"Europe/Berlin", "", "/usr/share/zoneinfo/Europe/Berlin"},
                {":Europe/Berlin", "/z", "/z/Europe/Berlin"},
                {"CET-1CEST", "z", "z/CET-1CEST"},
                {"UTC", "/z", "/z/UTC"},
                {"/a/b", "/z", "/a/b"},
                {GIX_DATE_MACHINE_ZONE, "", "/etc/localtime"}};
    char path[64];
    size_t len;
    for (size_t i = 0; i < sizeof rows / sizeof *rows; i++)
        EXPECT(gix_date_zone_path(TEXT(rows[i].tz), TEXT(rows[i].tzdir), path, sizeof path, &len) == GIX_DATE_OK &&
                   len == strlen(rows[i].path) && !memcmp(path, rows[i].path, len),
               "%s", rows[i].tz);
    EXPECT(gix_date_zone_path(TEXT("a"), TEXT("/z"), path, 3, &len) == GIX_DATE_NO_ROOM && len == 4, "no room");
    EXPECT(gix_date_zone_path(BYTES("\xff"), TEXT(""), path, sizeof path, &len) == GIX_DATE_NOT_TEXT, "no text");
    EXPECT(gix_date_zone_path(TEXT("a"), BYTES("\xff"), path, sizeof path, &len) == GIX_DATE_NOT_TEXT, "no folder");
    EXPECT(gix_date_zone_path(TEXT("UTC0"), BYTES("\xff"), path, sizeof path, &len) == GIX_DATE_OK && len == 0,
           "a rule needs no folder");
}

/* Zones by values of TZ and the bytes of their files. */
static void zones_are_found(void)
{
    static const char *const none[] = {"Europe/Berlin", "banana", "+0200", "/nonexistent"};
    static const char *const utc[] = {"", ":", "UTC", ":gmt", GIX_DATE_MACHINE_ZONE};
    gix_date_zone zone = GIX_DATE_AT_OFFSET(60);
    for (size_t i = 0; i < sizeof none / sizeof *none; i++) {
        EXPECT(gix_date_zone_named(TEXT(none[i]), NULL, 0, &zone) == GIX_DATE_INVALID_ZONE && is_at(&zone, 60), "%s", none[i]);
        EXPECT(gix_date_zone_find(none[i], "/nonexistent", &zone) == GIX_DATE_INVALID_ZONE && is_at(&zone, 60), "%s", none[i]);
    }
    EXPECT(gix_date_zone_named(BYTES("\xff"), NULL, 0, &zone) == GIX_DATE_NOT_TEXT && is_at(&zone, 60), "no text");
    EXPECT(gix_date_zone_named(TEXT("UTC"), BYTES("TZif"), &zone) == GIX_DATE_INVALID_ZONE && is_at(&zone, 60), "no file");
    EXPECT(gix_date_zone_named(TEXT("UTC"), BYTES(leap_seconds), &zone) == GIX_DATE_ZONE_COUNTS_LEAP_SECONDS &&
               is_at(&zone, 60),
           "leap seconds");
    EXPECT(gix_date_zone_named(TEXT("banana"), BYTES(zone_file), &zone) == GIX_DATE_OK && is_new_york(&zone), "a file");
    for (size_t i = 0; i < sizeof utc / sizeof *utc; i++) {
        EXPECT(gix_date_zone_named(TEXT(utc[i]), NULL, 0, &zone) == GIX_DATE_OK && shows(&zone, 0), "%s", utc[i]);
        refuse_after(0);
        EXPECT(gix_date_zone_named(TEXT(utc[i]), NULL, 0, &zone) == GIX_DATE_OUT_OF_MEMORY, "%s", utc[i]);
        refuse_after(SIZE_MAX);
    }
    static char bytes[GIX_DATE_ZONE_FILE_ROOM];
    size_t len = 1;
    EXPECT(gix_date_zone_file("/nonexistent/a", bytes, sizeof bytes, &len) == GIX_DATE_OK && len == 0, "no file");
    EXPECT(gix_date_zone_file("/dev/null", bytes, sizeof bytes, &len) == GIX_DATE_INVALID_ZONE && len == 0, "a device");
    EXPECT(gix_date_zone_file("/", bytes, sizeof bytes, &len) == GIX_DATE_INVALID_ZONE && len == 0, "a folder");
    EXPECT(gix_date_zone_find("EST5EDT,M3.2.0,M11.1.0", NULL, &zone) == GIX_DATE_OK && is_new_york(&zone), "a rule");
    EXPECT(gix_date_zone_find("", NULL, &zone) == GIX_DATE_OK && shows(&zone, 0), "nothing");
    for (size_t granted = 0; granted < of_file.requests; granted++) {
        refuse_after(granted);
        EXPECT(gix_date_zone_named(TEXT("banana"), BYTES(zone_file), &zone) == GIX_DATE_OUT_OF_MEMORY && shows(&zone, 0),
               "a file, after %zu requests", granted);
        refuse_after(SIZE_MAX);
    }
    gix_date_zone_free(&zone);
}

/* A zone that memory is refused for, each request in its turn, is as it was. */
static void zones_without_memory(void)
{
    gix_date_zone zone = zone_of(TEXT(new_york)), file = zone_of(BYTES(zone_file));
    const gix_date_zone before = zone;
    for (size_t granted = 0; granted < of_file.requests; granted++) {
        refuse_after(granted);
        EXPECT(gix_date_zone_read(BYTES(zone_file), &zone) == GIX_DATE_OUT_OF_MEMORY,
               "a file, after %zu requests", granted);
        refuse_after(SIZE_MAX);
    }
    refuse_after(0);
    EXPECT(gix_date_zone_read(TEXT("UTC0"), &zone) == GIX_DATE_OUT_OF_MEMORY, "a rule");
    EXPECT(gix_date_zone_copy(&file, &zone) == GIX_DATE_OUT_OF_MEMORY, "a copy");
    EXPECT(gix_date_zone_copy(AT(60), &file) == GIX_DATE_OK && is_at(&file, 60),
           "a copy of an offset");
    refuse_after(SIZE_MAX);
    EXPECT(!memcmp(&before, &zone, sizeof zone) && is_new_york(&zone), "a refusal stores nothing");
    gix_date_zone_free(&zone);
    gix_date_zone_free(&file);
}

/* A copy means the same, and outlives what it was made of. */
static void copied_zones(void)
{
    gix_date_zone zones[] = {zone_of(TEXT(new_york)), zone_of(BYTES(zone_file))};
    for (size_t i = 0; i < sizeof zones / sizeof *zones; i++) {
        gix_date_zone copy = zone_of(TEXT("UTC0"));
        demand before = so_far();
        EXPECT(gix_date_zone_copy(&zones[i], &copy) == GIX_DATE_OK && is_new_york(&zones[i]),
               "zone %zu", i);
        expect_demand(before, of_rule, "a copy");
        gix_date_zone_free(&zones[i]);
        EXPECT(is_new_york(&copy), "the copy of zone %zu", i);
        gix_date_zone_free(&copy);
    }
}

static void careful_dates_by_zone_files(void)
{
    static const gix_date_instant now = {1699165800, 0};
    static const struct {
        const char *text;
        careful_answer due;
    } rows[] = {
        {"2024-01-05 10:00", {GIX_DATE_OK, {1704466800, -18000}, NO_PLACE}},
        {"1 hour ago", {GIX_DATE_OK, {1699158600, -14400}, NO_PLACE}},
        {"1 hour from now", {GIX_DATE_UNCLEAR, {-77, -7}, 7}},
    };
    gix_date_zone zone = zone_of(BYTES(zone_file));
    for (size_t i = 0; i < sizeof rows / sizeof *rows; i++) {
        careful_answer seen = {0, untouched, NO_PLACE};
        demand before = so_far();
        seen.status = gix_date_parse_carefully_at(TEXT(rows[i].text), &local, &now, &zone,
                                                  &seen.time, &seen.place);
        expect_demand(before, none, rows[i].text);
        expect_answer(seen, rows[i].due, rows[i].text);
    }
    gix_date_zone_free(&zone);
}

typedef uint32_t formatter(const gix_date_time *, uint32_t, char *, size_t, size_t *);

static void formats(formatter *format)
{
    static const char *const texts[] = {
        [GIX_DATE_UNIX] = "1660797906",
        [GIX_DATE_RAW] = "1660797906 +0800",
        [GIX_DATE_SHORT] = "2022-08-18",
        [GIX_DATE_RFC2822] = "Thu, 18 Aug 2022 12:45:06 +0800",
        [GIX_DATE_GIT_RFC2822] = "Thu, 18 Aug 2022 12:45:06 +0800",
        [GIX_DATE_ISO8601] = "2022-08-18 12:45:06 +0800",
        [GIX_DATE_ISO8601_STRICT] = "2022-08-18T12:45:06+08:00",
        [GIX_DATE_GITOXIDE] = "Thu Aug 18 2022 12:45:06 +0800",
        [GIX_DATE_DEFAULT] = "Thu Aug 18 12:45:06 2022 +0800",
    };
    static const gix_date_time time = {1660797906, 28800}, early = {-62198755200, 0};
    for (uint32_t i = 0; i < sizeof texts / sizeof *texts; i++) {
        for (size_t room = 0; room <= strlen(texts[i]) + 1; room++) {
            char *buffer = malloc(room + 1);
            memset(buffer, '#', room + 1);
            size_t len = 99;
            demand before = so_far();
            uint32_t status = format(&time, i, buffer, room, &len);
            expect_demand(before, none, texts[i]);
            bool fits = room >= strlen(texts[i]);
            EXPECT(status == (fits ? GIX_DATE_OK : GIX_DATE_NO_ROOM) && len == strlen(texts[i]),
                   "%s: %u", texts[i], status);
            EXPECT(fits ? holds(buffer, room + 1, texts[i], len) : is_untouched(buffer, room + 1),
                   "%s", texts[i]);
            free(buffer);
        }
    }
    char buffer[64];
    size_t len = 99;
    memset(buffer, '#', sizeof buffer);
    demand before = so_far();
    EXPECT(format(&time, 9, buffer, sizeof buffer, &len) == GIX_DATE_NO_SUCH_OPTION &&
               len == 0,
           "format 9");
    expect_demand(before, none, "format 9");
    refuse_after(0);
    EXPECT(format(&early, GIX_DATE_ISO8601, buffer, sizeof buffer, &len) ==
               GIX_DATE_OUT_OF_MEMORY,
           "no memory");
    expect_demand(before, (demand){1, 40}, "a format that is refused memory");
    refuse_after(SIZE_MAX);
    EXPECT(len == 0 && is_untouched(buffer, sizeof buffer), "a refusal stores nothing");
}

static void refused_formats(void)
{
    static const gix_date_time wide = {5, 360000}, far = {INT64_MAX, 0}, day = {1660797906, 28800};
    char buffer[64];
    char *out = buffer;
    size_t len;
    memset(buffer, '#', sizeof buffer);
    EXPECT(gix_date_format(&wide, GIX_DATE_RAW, out, sizeof buffer, &len) ==
               GIX_DATE_OFFSET_TOO_WIDE,
           "raw");
    EXPECT(gix_date_format(&far, GIX_DATE_ISO8601, out, sizeof buffer, &len) == GIX_DATE_CONVERSION,
           "the last second");
    EXPECT(gix_date_format_by_pattern(&far, TEXT("%Y"), out, sizeof buffer, &len) ==
               GIX_DATE_CONVERSION,
           "the last second");
    EXPECT(gix_date_format_by_pattern(&day, TEXT("%!"), out, sizeof buffer, &len) ==
               GIX_DATE_PATTERN,
           "no directive");
    EXPECT(gix_date_format_by_pattern(&day, BYTES("\xff"), out, sizeof buffer, &len) ==
                   GIX_DATE_NOT_TEXT &&
               len == 0,
           "no text");
    EXPECT(gix_date_format_by_pattern_or_unix(&day, BYTES("\xff"), out, sizeof buffer, &len) ==
               GIX_DATE_NOT_TEXT,
           "no text");
    EXPECT(is_untouched(buffer, sizeof buffer), "a refusal stores nothing");
    EXPECT(gix_date_format_or_unix(&wide, GIX_DATE_RAW, out, sizeof buffer, &len) == GIX_DATE_OK,
           "raw");
    EXPECT(holds(buffer, sizeof buffer, "5", len), "the seconds of 5");
    EXPECT(gix_date_format_by_pattern(&day, TEXT("%H:%M"), out, sizeof buffer, &len) == GIX_DATE_OK,
           "a clock");
    EXPECT(len == 5 && memcmp(buffer, "12:45", 5) == 0, "a clock");
    EXPECT(gix_date_format_by_pattern(&day, TEXT("%H:%M"), out, 4, &len) == GIX_DATE_NO_ROOM &&
               len == 5,
           "four bytes");
    EXPECT(gix_date_format_by_pattern_or_unix(&far, TEXT("%Y"), out, sizeof buffer, &len) ==
               GIX_DATE_OK,
           "the last second");
    EXPECT(len == 19 && memcmp(buffer, "9223372036854775807", 19) == 0, "the last second");
    EXPECT(gix_date_format_by_pattern_or_unix(&day, TEXT("%!"), out, sizeof buffer, &len) ==
               GIX_DATE_OK,
           "no directive");
    EXPECT(len == 10 && memcmp(buffer, "1660797906", 10) == 0, "the seconds");
}

enum { BY_PATTERN = 99 };

/* A print of a time: by a format or by a pattern, or in its place the seconds. */
static void print(const gix_date_time *time, uint32_t format, const char *pattern, bool or_unix)
{
    char out[64];
    size_t len;
    uint32_t status =
        format == BY_PATTERN
            ? (or_unix ? gix_date_format_by_pattern_or_unix
                       : gix_date_format_by_pattern)(time, TEXT(pattern), out, sizeof out, &len)
            : (or_unix ? gix_date_format_or_unix : gix_date_format)(time, format, out, sizeof out,
                                                                    &len);
    EXPECT(status == GIX_DATE_OK || len == 0, "a refusal writes nothing");
}

/* What each print asks for. By a named pattern, or one of usual letters, it asks for nothing. By any
 * other the first request is for twice the pattern's length, and others follow only for a longer text. */
static void memory_of_prints(void)
{
    static const gix_date_time day = {1660874655, 28800}, early = {-62198755200, 0},
                               far = {INT64_MAX, 0}, wide = {0, 362340};
    static const struct {
        const gix_date_time *time;
        uint32_t format;
        const char *pattern;
        demand wanted, or_unix;
    } rows[] = {
        {&early, GIX_DATE_ISO8601, "", {1, 40}, {1, 40}},
        {&far, GIX_DATE_ISO8601, "", {0, 0}, {1, 19}},
        {&wide, GIX_DATE_RAW, "", {0, 0}, {1, 1}},
        {&day, BY_PATTERN, "%Y-%m-%d %H:%M:%S %z", {0, 0}, {0, 0}},
        {&day, BY_PATTERN, "%H:%M", {0, 0}, {0, 0}},
        {&day, BY_PATTERN, "%I:%M", {1, 10}, {1, 10}},
        {&day, BY_PATTERN, "%A, %B, %A, %B", {2, 28 + 56}, {2, 28 + 56}},
        {&day, BY_PATTERN, "", {0, 0}, {0, 0}},
        {&day, BY_PATTERN, "%!", {1, 4}, {2, 4 + 10}},
        {&day, BY_PATTERN, "\xff", {0, 0}, {0, 0}},
        {&far, BY_PATTERN, "%Y", {0, 0}, {1, 19}},
    };
    for (size_t i = 0; i < sizeof rows / sizeof *rows; i++) {
        demand before = so_far();
        print(rows[i].time, rows[i].format, rows[i].pattern, false);
        expect_demand(before, rows[i].wanted, rows[i].pattern);
        before = so_far();
        print(rows[i].time, rows[i].format, rows[i].pattern, true);
        expect_demand(before, rows[i].or_unix, rows[i].pattern);
    }
}

static void patterns_without_memory(void)
{
    static const gix_date_time day = {1660797906, 28800};
    char buffer[64];
    char *out = buffer;
    size_t len = 99, len_or_unix = 99;
    memset(buffer, '#', sizeof buffer);
    demand before = so_far();
    refuse_after(0);
    EXPECT(gix_date_format_by_pattern(&day, TEXT("%I:%M"), out, sizeof buffer, &len) ==
               GIX_DATE_OUT_OF_MEMORY,
           "a clock");
    EXPECT(gix_date_format_by_pattern_or_unix(&day, TEXT("%I:%M"), out, sizeof buffer,
                                              &len_or_unix) == GIX_DATE_OUT_OF_MEMORY,
           "a clock");
    refuse_after(SIZE_MAX);
    expect_demand(before, (demand){2, 10 + 10}, "two patterns that are refused memory");
    EXPECT(len == 0 && len_or_unix == 0 && is_untouched(buffer, sizeof buffer),
           "a refusal stores nothing");
}

/* Whether a part of a line is this text. */
static bool is_part(const char *line, gix_date_span part, const char *text)
{
    return part.len == strlen(text) && memcmp(line + part.start, text, part.len) == 0;
}

static void signatures(void)
{
    static const gix_date_time time = {1660874655, 28800}, wide = {0, 360000};
    const char *line = "A U Thor <author@example.com> 1660874655 +0800";
    gix_date_signature parts = {{9, 9}, {9, 9}, {9, 9}};
    EXPECT(gix_date_cut_signature(TEXT(line), &parts) == GIX_DATE_OK, "%s", line);
    EXPECT(is_part(line, parts.name, "A U Thor") && is_part(line, parts.email, "author@example.com"),
           "%s", line);
    EXPECT(is_part(line, parts.time, "1660874655 +0800") && parts.name.start == 0, "%s", line);
    gix_date_signature same = {{9, 9}, {9, 9}, {9, 9}};
    EXPECT(gix_date_cut_signature(TEXT("A <a>"), &same) == GIX_DATE_NO_SIGNATURE, "no time");
    EXPECT(gix_date_cut_signature(TEXT(""), &same) == GIX_DATE_NO_SIGNATURE, "no line");
    EXPECT(gix_date_cut_signature(BYTES("A <\xff> 1"), &same) == GIX_DATE_NOT_TEXT, "no text");
    EXPECT(same.name.start == 9 && same.email.len == 9 && same.time.len == 9,
           "a refusal stores nothing");

    size_t wanted = strlen(line);
    for (size_t room = 0; room <= wanted + 1; room++) {
        char *buffer = malloc(room + 1);
        memset(buffer, '#', room + 1);
        size_t len = 99;
        uint32_t status = gix_date_write_signature(TEXT("A U Thor"), TEXT("author@example.com"),
                                                   &time, buffer, room, &len);
        EXPECT(status == (room < wanted ? GIX_DATE_NO_ROOM : GIX_DATE_OK) && len == wanted,
               "%zu: %u", room, status);
        EXPECT(room < wanted ? is_untouched(buffer, room + 1) : holds(buffer, room + 1, line, len),
               "%zu", room);
        free(buffer);
    }
    char buffer[64];
    char *out = buffer;
    size_t len = 99;
    memset(buffer, '#', sizeof buffer);
    EXPECT(gix_date_write_signature(TEXT("A>"), TEXT("a"), &time, out, sizeof buffer, &len) ==
               GIX_DATE_BAD_PART,
           "A>");
    EXPECT(gix_date_write_signature(TEXT("A"), BYTES("a\0"), &time, out, sizeof buffer, &len) ==
               GIX_DATE_BAD_PART,
           "NUL");
    EXPECT(gix_date_write_signature(TEXT("A"), TEXT("a"), &wide, out, sizeof buffer, &len) ==
               GIX_DATE_OFFSET_TOO_WIDE,
           "wide");
    EXPECT(gix_date_write_signature(BYTES("\xff"), TEXT("a"), &time, out, sizeof buffer, &len) ==
               GIX_DATE_NOT_TEXT,
           "no text");
    EXPECT(len == 0 && is_untouched(buffer, sizeof buffer), "a refusal stores nothing");
    EXPECT(gix_date_write_signature(TEXT(""), TEXT(""), &time, out, sizeof buffer, &len) ==
               GIX_DATE_OK,
           "empty parts");
    EXPECT(holds(buffer, sizeof buffer, " <> 1660874655 +0800", len), "empty parts");
}

static void identities(void)
{
    const char *line = "J\xf6rg  <j@e> <b>  05 +0530 x\nA <a> 5 +0000";
    gix_date_ident_parts parts, same = {.name = {9, 9}, .offset = {9, 9}, .shown = {9, 9, true}};
    EXPECT(gix_date_ident(TEXT(line), &parts) == GIX_DATE_OK, "%s", line);
    EXPECT(is_part(line, parts.name, "J\xf6rg") && is_part(line, parts.email, "j@e"), "%s", line);
    EXPECT(is_part(line, parts.seconds, "05") && is_part(line, parts.offset, "+0530"), "%s", line);
    EXPECT(parts.shown.seconds == 5 && parts.shown.offset == 530, "%s", line);
    EXPECT(is_part(line, parts.rest, " <b>  05 +0530 x") && parts.has_date && !parts.comes_back, "%s",
           line);
    EXPECT(gix_date_ident(TEXT("A <a> 5"), &parts) == GIX_DATE_OK, "no date");
    EXPECT(parts.seconds.len == 0 && parts.offset.len == 0 && parts.shown.seconds == 0 &&
               parts.shown.offset == 0 && !parts.has_date && !parts.comes_back,
           "no date");
    EXPECT(parts.rest.start == 5 && parts.seconds.start == 6 && parts.offset.start == 7,
           "where a date would stand");
    EXPECT(gix_date_ident(TEXT("A <a> 9223372036854775808 -0130"), &parts) == GIX_DATE_OK &&
               parts.seconds.len == 19 && parts.offset.len == 5 && parts.shown.seconds == 0 &&
               parts.shown.offset == 0,
           "too many seconds");
    EXPECT(gix_date_ident(TEXT("A a> 5 +0000"), &same) == GIX_DATE_NO_IDENTITY, "no identity");
    EXPECT(same.name.start == 9 && same.offset.len == 9 && same.shown.minus_zero,
           "a refusal stores nothing");

    static const gix_date_git_time minutes = {5, 60, false}, widest = {5, -59652314, false},
                                   wide = {5, 59652315, false};
    gix_date_time time = untouched;
    EXPECT(gix_date_ident_time(&wide, &time) == GIX_DATE_OFFSET_TOO_WIDE &&
               is_time(time, untouched.seconds, untouched.offset),
           "wide");
    EXPECT(gix_date_ident_time(&minutes, &time) == GIX_DATE_OK && is_time(time, 5, 3600), "+0060");
    EXPECT(gix_date_ident_time(&widest, &time) == GIX_DATE_OK && is_time(time, 5, -2147483640),
           "%d", (int)time.offset);
}

/* What fsck says, and where. */
static void messages(void)
{
    static const struct {
        const char *line, *id;
        uint32_t message;
        size_t place;
    } rows[] = {
        {"<a> 5 +0000", "missingNameBeforeEmail", GIX_DATE_FSCK_MISSING_NAME_BEFORE_EMAIL, 0},
        {"A >a< 5 +0000", "badName", GIX_DATE_FSCK_BAD_NAME, 2},
        {"A a 5 +0000", "missingEmail", GIX_DATE_FSCK_MISSING_EMAIL, 11},
        {"A<a> 5 +0000", "missingSpaceBeforeEmail", GIX_DATE_FSCK_MISSING_SPACE_BEFORE_EMAIL, 1},
        {"A <a<b> 5 +0000", "badEmail", GIX_DATE_FSCK_BAD_EMAIL, 4},
        {"A <a>5 +0000", "missingSpaceBeforeDate", GIX_DATE_FSCK_MISSING_SPACE_BEFORE_DATE, 5},
        {"A <a> 05 +0000", "zeroPaddedDate", GIX_DATE_FSCK_ZERO_PADDED_DATE, 6},
        {"A <a> -5 +0000", "badDateOverflow", GIX_DATE_FSCK_BAD_DATE_OVERFLOW, 6},
        {"A <a> \n5 +0000", "badDate", GIX_DATE_FSCK_BAD_DATE, 6},
        {"A <a> 5 +00000", "badTimezone", GIX_DATE_FSCK_BAD_TIMEZONE, 8},
    };
    size_t place = 99;
    for (size_t i = 0; i < sizeof rows / sizeof *rows; i++) {
        uint32_t message = gix_date_fsck(TEXT(rows[i].line), &place);
        EXPECT(message == rows[i].message && place == rows[i].place, "%s: %u at %zu", rows[i].line,
               message, place);
        EXPECT(strcmp(gix_date_fsck_id(message), rows[i].id) == 0, "%s", rows[i].line);
    }
    EXPECT(gix_date_fsck(BYTES("A\0<a> 5 +0000"), &place) == GIX_DATE_FSCK_NUL_IN_HEADER &&
               place == 1 && strcmp(gix_date_fsck_id(1), "nulInHeader") == 0,
           "NUL");
    place = 99;
    EXPECT(gix_date_fsck(TEXT("\xff <\xff> +5 +0060\n<"), &place) == GIX_DATE_FSCK_PASSES && place == 99,
           "it passes");
    EXPECT(!*gix_date_fsck_id(0) && !*gix_date_fsck_id(12), "numbers of no message");
}

static void written_identities(void)
{
    static const gix_date_time time = {5, -5400}, wide = {0, 360000}, before = {-1, 360000};
    const char *line = "A \"B <a,b> 5 -0130";
    size_t wanted = strlen(line);
    for (size_t room = 0; room <= wanted + 1; room++) {
        char *buffer = malloc(room + 1);
        memset(buffer, '#', room + 1);
        size_t len = 99;
        uint32_t status = gix_date_write_ident(TEXT(". A \n\"<B>."), TEXT("<a,>b>"), &time, buffer,
                                               room, &len);
        EXPECT(status == (room < wanted ? GIX_DATE_NO_ROOM : GIX_DATE_OK) && len == wanted,
               "%zu: %u", room, status);
        EXPECT(room < wanted ? is_untouched(buffer, room + 1) : holds(buffer, room + 1, line, len),
               "%zu", room);
        free(buffer);
    }
    char out[64];
    size_t len = 99;
    memset(out, '#', sizeof out);
    EXPECT(gix_date_write_ident(TEXT(""), BYTES("\0"), &before, out, sizeof out, &len) ==
               GIX_DATE_NUL_IN_PART,
           "NUL");
    EXPECT(gix_date_write_ident(TEXT(""), TEXT("a"), &before, out, sizeof out, &len) ==
               GIX_DATE_EMPTY_NAME,
           "no name");
    EXPECT(gix_date_write_ident(TEXT(" ..."), TEXT("a"), &before, out, sizeof out, &len) ==
               GIX_DATE_ONLY_CRUD,
           "crud");
    EXPECT(gix_date_write_ident(TEXT("A"), TEXT("a"), &before, out, sizeof out, &len) ==
               GIX_DATE_BEFORE_EPOCH,
           "before 1970");
    EXPECT(gix_date_write_ident(TEXT("A"), TEXT("a"), &wide, out, sizeof out, &len) ==
               GIX_DATE_OFFSET_TOO_WIDE,
           "wide");
    EXPECT(len == 0 && is_untouched(out, sizeof out), "a refusal stores nothing");
    EXPECT(gix_date_write_ident(BYTES("J\xf6rg"), TEXT("..."), &time, out, sizeof out, &len) ==
               GIX_DATE_OK,
           "bytes that are no text");
    EXPECT(holds(out, sizeof out, "J\xf6rg <> 5 -0130", len), "bytes that are no text");
}

/* What was read is written as it was: the lines are as `git cat-file` prints them. */
static void lines_as_they_are(void)
{
    static const char *const kept[] = {
        "A <a@b> 5 -0000", " <> 0 +0060", "J\xf6rg.  <j e> 5 +51800", "A <a> 1660874655 -0130",
    };
    static const char *const other[] = {
        "A  <a@b> 5 +0000", "A <a@b> 05 +0000", "A <a@b> 5 --700", "A <a@b>5 +0000", "A <a@b> 5",
    };
    gix_date_ident_parts parts;
    char out[64];
    size_t len = 99;
    for (size_t i = 0; i < sizeof kept / sizeof *kept; i++) {
        const char *line = kept[i];
        EXPECT(gix_date_ident(TEXT(line), &parts) == GIX_DATE_OK && parts.has_date, "%s", line);
        const char *name = line + parts.name.start, *email = line + parts.email.start;
        memset(out, '#', sizeof out);
        uint32_t status = gix_date_write_ident_as_is(name, parts.name.len, email, parts.email.len,
                                                     &parts.shown, out, sizeof out, &len);
        bool is_same = status == GIX_DATE_OK && holds(out, sizeof out, line, len);
        EXPECT(is_same == parts.comes_back, "%s", line);
        EXPECT(is_same == (i != 2), "a blank ends the name of one: %s", line);
        size_t time = parts.seconds.start;
        EXPECT(gix_date_git_time_text(&parts.shown, out, sizeof out, &len) == GIX_DATE_OK &&
                   len == strlen(line + time) && !memcmp(out, line + time, len),
               "%s", line);
    }
    for (size_t i = 0; i < sizeof other / sizeof *other; i++)
        EXPECT(gix_date_ident(TEXT(other[i]), &parts) == GIX_DATE_OK && !parts.comes_back, "%s",
               other[i]);

    static const gix_date_git_time first = {0, 0, false}, unknown = {0, 0, true};
    memset(out, '#', sizeof out);
    EXPECT(gix_date_write_ident_as_is(TEXT("A"), TEXT("a>"), &first, out, sizeof out, &len) ==
                   GIX_DATE_BAD_PART &&
               len == 0 && is_untouched(out, sizeof out),
           "a bracket");
    EXPECT(gix_date_write_ident_as_is(TEXT(""), TEXT(""), &unknown, out, 10, &len) == GIX_DATE_NO_ROOM &&
               len == 11 && is_untouched(out, sizeof out),
           "no room");
    EXPECT(gix_date_git_time_text(&unknown, out, 6, &len) == GIX_DATE_NO_ROOM && len == 7 &&
               is_untouched(out, sizeof out),
           "no room");
}

static void *reads_and_formats(void *unused)
{
    (void)unused;
    for (int i = 0; i < 200; i++) {
        headers();
        dates();
        relative_dates();
        relative_dates_by_a_rule();
        char buffer[64];
        size_t len;
        static const gix_date_time time = {1660797906, 28800};
        EXPECT(gix_date_format(&time, GIX_DATE_ISO8601, buffer, sizeof buffer, &len) ==
                   GIX_DATE_OK,
               "a thread");
        EXPECT(len == 25 && memcmp(buffer, "2022-08-18 12:45:06 +0800", 25) == 0, "a thread");
    }
    return NULL;
}

/* A version in its three forms: the header's text and number, and the library's number. */
static void is_version(const char *text, unsigned number, unsigned linked)
{
    char told[16];
    snprintf(told, sizeof told, "%u.%u.%u", linked / 10000, linked / 100 % 100, linked % 100);
    EXPECT(number == linked && strcmp(told, text) == 0,
           "the header says %s or %u, and the library %s", text, number, told);
}

static void version(void)
{
    is_version(GIX_DATE_VERSION, GIX_DATE_VERSION_NUMBER, gix_date_version());
    is_version(GIX_DATE_PORTED_VERSION, GIX_DATE_PORTED_VERSION_NUMBER, gix_date_ported_version());
    EXPECT(gix_date_version_fits(), "the library does not fit its header");
}

/* Each status has words of its own, and a number that is no status has none. */
static void status_texts(void)
{
    static const char *const texts[] = {
        "done",
        "the bytes are not UTF-8",
        "there is no format or option of this number",
        "the buffer is too short for the text",
        "not a time: expected seconds since 1970, perhaps an offset such as +0100, and no colon",
        "no known date format",
        "the date is beyond the last instant that can be computed with",
        "the date needs a moment, and none was given",
        "the date leads to an instant that cannot be computed with",
        "the moment is no instant that can be computed with",
        "the zone of the moment cannot be read, or its offset is beyond 25:59:59",
        "the time is too far from 1970, or its offset from UTC is beyond 25:59:59",
        "an offset of 100 hours or more from UTC cannot be written",
        "the pattern cannot be printed",
        "out of memory",
        "not a signature line: expected a name, <, an email, > and a time",
        "a name or an email holds <, >, a newline or NUL",
        "the date is not clear: expected a date, or counts and whole units, then ago",
        "unknown status",
    };
    const uint32_t unknown = sizeof texts / sizeof *texts - 1;
    for (uint32_t status = 0; status <= unknown; status++)
        EXPECT(strcmp(gix_date_status_text(status), texts[status]) == 0, "%u", (unsigned)status);
    EXPECT(strcmp(gix_date_status_text(GIX_DATE_AFTER_YEAR_9999),
                  "seconds after the year 9999: perhaps milliseconds, or a date and a clock in digits alone") == 0,
           "after the statuses of git_date.h");
    static const char *const later[] = {
        "no identity: expected a name, <, an email and >",
        "a name or an email holds NUL",
        "the name is empty",
        "the name consists only of disallowed characters",
        "a time before 1970 cannot be written or shown",
        "the file of the zone counts leap seconds",
    };
    for (uint32_t i = 0; i < sizeof later / sizeof *later; i++)
        EXPECT(strcmp(gix_date_status_text(GIX_DATE_NO_IDENTITY + i), later[i]) == 0, "%u", (unsigned)i);
    EXPECT(strcmp(gix_date_status_text(GIX_DATE_ZONE_COUNTS_LEAP_SECONDS + 1), texts[unknown]) == 0,
           "the number after the last");
    EXPECT(strcmp(gix_date_status_text(UINT32_MAX), texts[unknown]) == 0, "the greatest number");
}

int main(void)
{
    version();
    status_texts();
    without_memory(headers, "headers");
    without_memory(null_pointers, "texts at NULL");
    without_memory(dates, "dates");
    without_memory(relative_dates, "relative dates");
    without_memory(careful_dates, "careful dates");
    without_memory(careful_dates_at_moments, "careful dates at moments");
    written_headers();
    rules_of_offsets();
    relative_dates_by_a_rule();
    careful_dates_by_a_rule();
    zones_are_read();
    offsets();
    rule_changes();
    refused_zones();
    zones_of_texts();
    paths_of_zones();
    zones_are_found();
    zones_without_memory();
    copied_zones();
    careful_dates_by_zone_files();
    formats(gix_date_format);
    formats(gix_date_format_or_unix);
    refused_formats();
    memory_of_prints();
    patterns_without_memory();
    signatures();
    without_memory(identities, "identity lines");
    without_memory(messages, "messages of fsck");
    written_identities();
    lines_as_they_are();
    in_threads(reads_and_formats);
    if (failures > 0)
        return 1;
    puts("each call of gix_date.h answers as its rows say");
    return 0;
}
