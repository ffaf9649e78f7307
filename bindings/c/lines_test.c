/* Calls the functions for many lines on blocks of all kinds, with arrays of unlike lengths, and by
 * sixteen threads at once. rows.c reads the texts of all rows as lines. Counts what the library asks
 * malloc and realloc for: link with -Wl,--wrap=malloc,--wrap=realloc. */
#include "git_date.h"
#include "test.h"

enum { ROOM = 8, NO_STATUS = 99 };

static const gix_date_careful_options usual = {0, 0, 0};
static const gix_date_instant sunday = {1251660000, 0};

/* Cells of each array, and how many bytes the lines have. */
typedef struct cells {
    int64_t seconds[ROOM];
    int32_t offsets[ROOM];
    uint32_t statuses[ROOM];
    size_t bytes;
} cells;

/* What no call stores. */
static cells no_cells(void)
{
    cells made = {{0}, {0}, {0}, 99};
    for (size_t i = 0; i < ROOM; i++) {
        made.seconds[i] = -77;
        made.offsets[i] = -7;
        made.statuses[i] = NO_STATUS;
    }
    return made;
}

/* What is due of a line: a time, or a refusal, which stores none. */
typedef struct due {
    uint32_t status;
    int64_t seconds;
    int32_t offset;
} due;

#define REFUSED(status) {(status), -77, -7}
static const due nothing = REFUSED(NO_STATUS);

static bool is_cell(const cells *seen, size_t i, due line)
{
    return seen->statuses[i] == line.status && seen->seconds[i] == line.seconds &&
           seen->offsets[i] == line.offset;
}

/* The cells of lines that are due, and no other, which have so many bytes. */
static void expect_cells(const cells *seen, size_t done, const due *lines, size_t count,
                         size_t bytes, const char *what)
{
    EXPECT(done == count && seen->bytes == bytes, "%s: %zu lines, %zu bytes", what, done,
           seen->bytes);
    for (size_t i = 0; i < ROOM; i++)
        EXPECT(is_cell(seen, i, i < count ? lines[i] : nothing), "%s: line %zu: %u, %lld %d", what,
               i, seen->statuses[i], (long long)seen->seconds[i], (int)seen->offsets[i]);
}

#define ARRAYS(cells, room)                                                                        \
    (cells).seconds, (room), (cells).offsets, (room), (cells).statuses, (room), &(cells).bytes

static size_t read_headers(const char *block, size_t len, cells *into)
{
    return gix_date_parse_lines(block, len, GIX_DATE_HEADER_LINES, &usual, ARRAYS(*into, ROOM));
}

/* A line ends at each newline and nowhere else, and the last may lack its newline. */
static void ends_of_lines(void)
{
    static const due five = {GIX_DATE_OK, 5, 0}, none_such = REFUSED(GIX_DATE_INVALID_TIME);
    static const due ten = {GIX_DATE_OK, 1660797906, 28800};
    const struct {
        const char *block;
        size_t len, count;
        due lines[3];
    } rows[] = {
        {"", 0, 0, {nothing}},
        {"\n", 1, 1, {none_such}},
        {"5 +0000", 7, 1, {five}},
        {"5 +0000\n", 8, 1, {five}},
        {"5 +0000\n\n", 9, 2, {five, none_such}},
        {"\n5 +0000", 8, 2, {none_such, five}},
        {"5 +0000\n6 +0100\nx", 17, 3, {five, {GIX_DATE_OK, 6, 3600}, none_such}},
        {"\xff\n5 +0000", 9, 2, {REFUSED(GIX_DATE_NOT_TEXT), five}},
        {"1660797906 +0800\n1660797906 +0800", 33, 2, {ten, ten}},
        {"1660797906 +0800\n\n1660797906 +0800\n", 35, 3, {ten, none_such, ten}},
        {"1660797906 +0800\n1660797906 -0130\n", 34, 2, {ten, {GIX_DATE_OK, 1660797906, -5400}}},
    };
    for (size_t i = 0; i < sizeof rows / sizeof *rows; i++) {
        cells seen = no_cells();
        size_t done = read_headers(rows[i].block, rows[i].len, &seen);
        expect_cells(&seen, done, rows[i].lines, rows[i].count, rows[i].len, rows[i].block);
    }
    /* '\r', NUL and other ends of a line are bytes of it. */
    static const char *const one_line[] = {"5 +0000\r", "5\v6", "5\xe2\x80\xa8\x36"};
    for (size_t i = 0; i < sizeof one_line / sizeof *one_line; i++) {
        cells seen = no_cells();
        gix_date_time time = {-77, -7};
        const uint32_t status = gix_date_parse_header(TEXT(one_line[i]), &time);
        const due same = {status, time.seconds, time.offset};
        expect_cells(&seen, read_headers(TEXT(one_line[i]), &seen), &same, 1, strlen(one_line[i]),
                     one_line[i]);
    }
}

/* As many lines are read as the shortest array has cells for, whichever it is. */
static void short_arrays(void)
{
    static const char block[] = "5 +0000\n6 +0100\n7";
    static const due lines[] = {{GIX_DATE_OK, 5, 0}, {GIX_DATE_OK, 6, 3600}, {GIX_DATE_OK, 7, 0}};
    static const size_t bytes[] = {0, 8, 16, 17};
    for (size_t room = 0; room <= 3; room++) {
        for (size_t which = 0; which < 3; which++) {
            cells seen = no_cells();
            size_t done = gix_date_parse_lines(
                BYTES(block), GIX_DATE_HEADER_LINES, &usual, seen.seconds, which == 0 ? room : ROOM,
                seen.offsets, which == 1 ? room : ROOM, seen.statuses, which == 2 ? room : ROOM,
                &seen.bytes);
            expect_cells(&seen, done, lines, room, bytes[room], "a short array");
        }
    }
}

/* Each reader of a number, and a number of none. */
static void readers(void)
{
    static const char block[] = "A <a> 5 +0100\n1 day ago\n@9 +0007\n9 +0007\n2024-01-05";
    static const due lines[][5] = {
        {REFUSED(GIX_DATE_UNKNOWN_FORMAT), REFUSED(GIX_DATE_MISSING_NOW),
         REFUSED(GIX_DATE_UNKNOWN_FORMAT), REFUSED(GIX_DATE_UNKNOWN_FORMAT),
         {GIX_DATE_OK, 1704412800, 0}},
        {REFUSED(GIX_DATE_UNKNOWN_FORMAT), REFUSED(GIX_DATE_MISSING_NOW),
         REFUSED(GIX_DATE_UNKNOWN_FORMAT), REFUSED(GIX_DATE_UNCLEAR),
         {GIX_DATE_OK, 1704412800, 0}},
        /* Headers are read leniently: a number and what follows it. */
        {REFUSED(GIX_DATE_INVALID_TIME), {GIX_DATE_OK, 1, 0},
         REFUSED(GIX_DATE_INVALID_TIME), {GIX_DATE_OK, 9, 420}, {GIX_DATE_OK, 2024, 0}},
        {{GIX_DATE_OK, 5, 3600}, REFUSED(GIX_DATE_NO_SIGNATURE), REFUSED(GIX_DATE_NO_SIGNATURE),
         REFUSED(GIX_DATE_NO_SIGNATURE), REFUSED(GIX_DATE_NO_SIGNATURE)},
        {REFUSED(GIX_DATE_NO_SUCH_OPTION), REFUSED(GIX_DATE_NO_SUCH_OPTION),
         REFUSED(GIX_DATE_NO_SUCH_OPTION), REFUSED(GIX_DATE_NO_SUCH_OPTION),
         REFUSED(GIX_DATE_NO_SUCH_OPTION)},
    };
    for (uint32_t reader = 0; reader < sizeof lines / sizeof *lines; reader++) {
        cells seen = no_cells();
        size_t done = gix_date_parse_lines(BYTES(block), reader, &usual, ARRAYS(seen, ROOM));
        expect_cells(&seen, done, lines[reader], 5, sizeof block - 1, "a reader");
    }
    /* The options are those of the calls for one text. */
    static const gix_date_careful_options minutes = {GIX_DATE_WHOLE_MINUTES, 0, 0}, odd = {2, 0, 0};
    static const due seven[] = {{GIX_DATE_OK, 9, 420}}, no_rule[] = {REFUSED(GIX_DATE_NO_SUCH_OPTION)};
    for (uint32_t reader = 0; reader < 2; reader++) {
        cells seen = no_cells();
        size_t done = gix_date_parse_lines(TEXT("@9 +0007"), reader, &minutes, ARRAYS(seen, ROOM));
        expect_cells(&seen, done, seven, 1, 8, "whole minutes");
        seen = no_cells();
        done = gix_date_parse_lines(TEXT("@9 +0007"), reader, &odd, ARRAYS(seen, ROOM));
        expect_cells(&seen, done, no_rule, 1, 8, "no rule");
    }
}

/* Lines at a moment in New York, by its rule and its file, each of which is read once. */
static void lines_at_moments(const gix_date_zone *zone)
{
    static const gix_date_instant in_fold = {1699165800, 0};
    static const due dates[] = {{GIX_DATE_OK, 1699158600, -14400}, REFUSED(GIX_DATE_UNKNOWN_FORMAT)},
                     careful[] = {{GIX_DATE_OK, 1699158600, -14400}, REFUSED(GIX_DATE_UNCLEAR)},
                     exact[] = {{GIX_DATE_OK, 1688227200, -14400}, REFUSED(GIT_DATE_UNREADABLE)},
                     guesses[] = {{GIX_DATE_OK, 1688486400, -14400}, REFUSED(GIT_DATE_YEAR_REFUSED)};
    cells seen = no_cells();
    size_t done = gix_date_parse_lines_at(TEXT("1 hour ago\nnoon"), GIX_DATE_DATE_LINES, &usual,
                                          &in_fold, zone, ARRAYS(seen, ROOM));
    expect_cells(&seen, done, dates, 2, 15, "dates");
    seen = no_cells();
    done = gix_date_parse_lines_at(TEXT("1 hour ago\n30 min ago"), GIX_DATE_CAREFUL_LINES, &usual,
                                   &in_fold, zone, ARRAYS(seen, ROOM));
    expect_cells(&seen, done, careful, 2, 21, "careful dates");
    seen = no_cells();
    done = git_date_parse_lines_at(TEXT("2023-07-01 12:00\n2008-02-14\n"), &in_fold, zone,
                                   ARRAYS(seen, ROOM));
    expect_cells(&seen, done, exact, 2, 28, "exact dates");
    seen = no_cells();
    done = git_date_approxidate_lines_at(TEXT("noon july 1\n10600130-0-2004"), &in_fold, zone,
                                         ARRAYS(seen, ROOM));
    expect_cells(&seen, done, guesses, 2, 27, "approximate dates");
}

static void lines_in_new_york(void)
{
    gix_date_zone zones[] = {zone_of(TEXT(new_york)), zone_of(BYTES(zone_file))};
    for (size_t i = 0; i < sizeof zones / sizeof *zones; i++) {
        const demand before = so_far();
        lines_at_moments(&zones[i]);
        expect_demand(before, none, "lines in a zone");
        gix_date_zone_free(&zones[i]);
    }
}

/* A moment that is none is told at each line, but not of headers and signature lines. */
static void no_moments(void)
{
    static const gix_date_instant odd = {0, 1000000000};
    static const due no_zone[] = {REFUSED(GIX_DATE_INVALID_ZONE), REFUSED(GIX_DATE_INVALID_ZONE)},
                     no_instant[] = {REFUSED(GIX_DATE_INVALID_INSTANT),
                                     REFUSED(GIX_DATE_INVALID_INSTANT)},
                     times[] = {{GIX_DATE_OK, 5, 0}, REFUSED(GIX_DATE_INVALID_TIME)};
    for (uint32_t reader = 0; reader < 5; reader++) {
        for (int has_zone = 0; has_zone < 2; has_zone++) {
            gix_date_zone zone = GIX_DATE_AT_OFFSET(has_zone ? 0 : 93600);
            const due *lines = has_zone ? no_instant : no_zone;
            cells seen = no_cells();
            size_t done =
                reader == 3 ? git_date_parse_lines_at(TEXT("5\nx"), &odd, &zone, ARRAYS(seen, ROOM))
                : reader == 4
                    ? git_date_approxidate_lines_at(TEXT("5\nx"), &odd, &zone, ARRAYS(seen, ROOM))
                    : gix_date_parse_lines_at(TEXT("5\nx"), reader, &usual, &odd, &zone,
                                              ARRAYS(seen, ROOM));
            expect_cells(&seen, done, reader == GIX_DATE_HEADER_LINES ? times : lines, 2, 3,
                         "no moment");
        }
    }
}

static void checked_lines(void)
{
    static const char block[] = "1660797906 +0800\n12abc\n\n-5 -0000\n5 +0000";
    static const uint8_t due_of[] = {1, 0, 0, 0, 1};
    static const size_t bytes[] = {0, 17, 23, 24, 33, 40};
    for (size_t room = 0; room <= ROOM; room++) {
        uint8_t canonical[ROOM];
        size_t seen = 99, count = room < 5 ? room : 5;
        memset(canonical, '#', sizeof canonical);
        EXPECT(gix_date_check_lines(BYTES(block), canonical, room, &seen) == count &&
                   seen == bytes[count],
               "%zu: %zu bytes", room, seen);
        for (size_t i = 0; i < ROOM; i++)
            EXPECT(canonical[i] == (i < count ? due_of[i] : '#'), "%zu: line %zu", room, i);
    }
}

/* The arrays of a call for identity lines. */
typedef struct told {
    gix_date_ident_parts parts[ROOM];
    int64_t seconds[ROOM];
    int32_t offsets[ROOM];
    uint32_t messages[ROOM], statuses[ROOM];
} told;

/* What no call stores. */
static told none_told(void)
{
    static const gix_date_ident_parts no_parts = {{9, 9}, {9, 9}, {9, 9}, {9, 9}, {9, 9}, {-77, -7, true}, true, true};
    told made;
    for (size_t i = 0; i < ROOM; i++) {
        made.parts[i] = no_parts;
        made.seconds[i] = -77;
        made.offsets[i] = -7;
        made.messages[i] = made.statuses[i] = NO_STATUS;
    }
    return made;
}

/* Stores what the calls for one line tell of the next line of a block, and answers where it ends. */
static size_t tell_line(const char *block, size_t start, size_t len, told *due, size_t i)
{
    const char *line = block + start, *end = memchr(line, '\n', len - start);
    const size_t line_len = end ? (size_t)(end - line) : len - start;
    gix_date_ident_parts *parts = &due->parts[i];
    size_t place;
    due->messages[i] = gix_date_fsck(line, line_len, &place);
    due->statuses[i] = gix_date_ident(line, line_len, parts);
    if (due->statuses[i] == GIX_DATE_OK) {
        parts->name.start += start;
        parts->email.start += start;
        parts->rest.start += start;
        parts->seconds.start += start;
        parts->offset.start += start;
        if (parts->has_date) {
            due->seconds[i] = parts->shown.seconds;
            due->offsets[i] = parts->shown.offset;
        }
    }
    return start + line_len + (end != NULL);
}

static bool is_span(gix_date_span a, gix_date_span b)
{
    return a.start == b.start && a.len == b.len;
}

static bool are_parts(const gix_date_ident_parts *a, const gix_date_ident_parts *b)
{
    return is_span(a->name, b->name) && is_span(a->email, b->email) && is_span(a->rest, b->rest) &&
           is_span(a->seconds, b->seconds) && is_span(a->offset, b->offset) &&
           a->shown.seconds == b->shown.seconds && a->shown.offset == b->shown.offset &&
           a->shown.minus_zero == b->shown.minus_zero && a->has_date == b->has_date &&
           a->comes_back == b->comes_back;
}

static bool is_told(const told *a, const told *b, size_t i)
{
    return are_parts(&a->parts[i], &b->parts[i]) && a->seconds[i] == b->seconds[i] &&
           a->offsets[i] == b->offsets[i] && a->messages[i] == b->messages[i] &&
           a->statuses[i] == b->statuses[i];
}

/* How many cells each array of a call has. */
typedef struct rooms {
    size_t parts, seconds, offsets, messages, statuses;
} rooms;

/* Reads a block into arrays of so many cells, and sees that so many lines are told as is due. */
static void expect_told(const char *block, size_t len, rooms room, const told *due, size_t count,
                        size_t bytes, const char *what)
{
    const told before = none_told();
    told seen = before, wanted = before;
    size_t taken = 99;
    size_t done = gix_date_ident_lines(
        block, len, room.parts ? seen.parts : NULL, room.parts, room.seconds ? seen.seconds : NULL,
        room.seconds, room.offsets ? seen.offsets : NULL, room.offsets,
        room.messages ? seen.messages : NULL, room.messages, room.statuses ? seen.statuses : NULL,
        room.statuses, &taken);
    EXPECT(done == count && taken == bytes, "%s: %zu lines, %zu bytes", what, done, taken);
    for (size_t i = 0; i < count; i++) {
        wanted.parts[i] = room.parts ? due->parts[i] : before.parts[i];
        wanted.seconds[i] = room.seconds ? due->seconds[i] : before.seconds[i];
        wanted.offsets[i] = room.offsets ? due->offsets[i] : before.offsets[i];
        wanted.messages[i] = room.messages ? due->messages[i] : before.messages[i];
        wanted.statuses[i] = room.statuses ? due->statuses[i] : before.statuses[i];
    }
    for (size_t i = 0; i < ROOM; i++)
        EXPECT(is_told(&seen, &wanted, i), "%s: line %zu: %u, %u", what, i, seen.statuses[i],
               seen.messages[i]);
}

/* Whether a part of a block is this text. */
static bool is_text(const char *block, gix_date_span part, const char *text)
{
    return part.len == strlen(text) && memcmp(block + part.start, text, part.len) == 0;
}

/* Identity lines are told of as the calls for one line tell, in each choice of arrays, and in as many lines as
 * the shortest has cells for, whichever it is. */
static void identity_lines(void)
{
    static const char block[] = "A U Thor <author@example.com> 1660797906 +0800\n"
                                "A <a>\n"
                                "nobody\n"
                                "A <a> 5 +0000\0x\n"
                                "J\xf6rg  <j@e> <b>  05 +0530 x\n"
                                "\n"
                                "B <> 7 -0000";
    enum { LINES = 7 };
    const size_t len = sizeof block - 1;
    const rooms full = {ROOM, ROOM, ROOM, ROOM, ROOM};
    told due = none_told();
    size_t ends[LINES + 1] = {0};
    for (size_t i = 0; i < LINES; i++)
        ends[i + 1] = tell_line(block, ends[i], len, &due, i);
    EXPECT(ends[LINES] == len, "%zu bytes", ends[LINES]);
    EXPECT(is_text(block, due.parts[0].email, "author@example.com") &&
               is_text(block, due.parts[4].name, "J\xf6rg") &&
               is_text(block, due.parts[6].offset, "-0000"),
           "parts of the block");
    EXPECT(due.seconds[0] == 1660797906 && due.offsets[0] == 800 && due.messages[0] == 0 &&
               due.seconds[1] == -77 && due.offsets[1] == -7 && due.statuses[2] == GIX_DATE_NO_IDENTITY &&
               due.messages[3] == GIX_DATE_FSCK_NUL_IN_HEADER && due.parts[6].shown.minus_zero,
           "what is due");
    for (size_t given = 0; given < 32; given++) {
        for (size_t cells = 1; cells <= ROOM; cells++) {
            const rooms room = {given & 1 ? cells : 0, given & 2 ? cells : 0, given & 4 ? cells : 0,
                                given & 8 ? cells : 0, given & 16 ? cells : 0};
            const size_t count = given == 0 ? 0 : cells < LINES ? cells : LINES;
            expect_told(block, len, room, &due, count, ends[count], "a choice of arrays");
        }
    }
    for (size_t cells = 1; cells <= LINES; cells++) {
        const rooms shortest[] = {
            {cells, ROOM, ROOM, ROOM, ROOM}, {ROOM, cells, ROOM, ROOM, ROOM},
            {ROOM, ROOM, cells, ROOM, ROOM}, {ROOM, ROOM, ROOM, cells, ROOM},
            {ROOM, ROOM, ROOM, ROOM, cells},
        };
        for (size_t i = 0; i < 5; i++)
            expect_told(block, len, shortest[i], &due, cells, ends[cells], "a short array");
    }
    /* No line, and none after the last newline. */
    expect_told(NULL, 0, full, &due, 0, 0, "no block");
    expect_told(block, ends[2], full, &due, 2, ends[2], "two lines");
}

/* Blocks and arrays of no bytes, at NULL. */
static void null_pointers(void)
{
    size_t bytes = 99;
    const gix_date_zone *zone = AT(0);
    cells seen = no_cells();
    EXPECT(read_headers(NULL, 0, &seen) == 0 && seen.bytes == 0, "no block");
    EXPECT(gix_date_parse_lines(TEXT("5"), 0, &usual, NULL, 0, NULL, 0, NULL, 0, &bytes) == 0 &&
               bytes == 0,
           "no cells");
    EXPECT(gix_date_parse_lines_at(TEXT("5"), 0, &usual, &sunday, zone, NULL, 0, NULL, 0, NULL, 0,
                                   &bytes) == 0,
           "no cells");
    EXPECT(gix_date_check_lines(NULL, 0, NULL, 0, &bytes) == 0 && bytes == 0, "no block");
    EXPECT(git_date_parse_lines_at(TEXT("5"), &sunday, zone, NULL, 0, NULL, 0, NULL, 0, &bytes) == 0,
           "no cells");
    EXPECT(git_date_approxidate_lines_at(TEXT("5"), &sunday, zone, NULL, 0, NULL, 0, NULL, 0,
                                         &bytes) == 0,
           "no cells");
}

/* A million lines, in pieces of all sizes up to a thousand. */
static void many_lines(void)
{
    enum { LINES = 1000000, LEN = 17, MOST = 1000 };
    static char block[LINES * LEN];
    static int64_t seconds[MOST];
    static int32_t offsets[MOST];
    static uint32_t statuses[MOST];
    size_t line = 0, at = 0, bytes;
    for (size_t i = 0; i < LINES; i++) {
        char text[LEN + 1];
        snprintf(text, sizeof text, "%010zu +0130\n", i + 1000000000);
        memcpy(block + i * LEN, text, LEN - 1);
        block[i * LEN + LEN - 1] = '\n';
    }
    while (line < LINES) {
        size_t room = line % MOST + 1;
        size_t done = gix_date_parse_lines(block + at, sizeof block - at, GIX_DATE_HEADER_LINES,
                                           &usual, seconds, room, offsets, room, statuses, room,
                                           &bytes);
        EXPECT(bytes == done * LEN && done > 0, "%zu", line);
        for (size_t i = 0; i < done; i++)
            if (statuses[i] != GIX_DATE_OK || seconds[i] != (int64_t)(line + i) + 1000000000 ||
                offsets[i] != 5400)
                EXPECT(false, "line %zu", line + i);
        line += done;
        at += bytes;
    }
    EXPECT(line == LINES && at == sizeof block, "%zu", line);
}

static void *reads_lines(void *unused)
{
    (void)unused;
    for (int i = 0; i < 200; i++) {
        ends_of_lines();
        readers();
        checked_lines();
        identity_lines();
        gix_date_zone zone = zone_of(BYTES(zone_file));
        lines_at_moments(&zone);
        gix_date_zone_free(&zone);
    }
    return NULL;
}

int main(void)
{
    without_memory(ends_of_lines, "ends of lines");
    without_memory(short_arrays, "short arrays");
    without_memory(readers, "readers");
    without_memory(no_moments, "no moments");
    without_memory(checked_lines, "checked lines");
    without_memory(identity_lines, "identity lines");
    without_memory(null_pointers, "blocks at NULL");
    without_memory(many_lines, "many lines");
    lines_in_new_york();
    in_threads(reads_lines);
    if (failures > 0)
        return 1;
    puts("each call for many lines answers as its rows say");
    return 0;
}
