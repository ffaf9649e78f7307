/* Prints what each call of gix_date.h and git_date.h takes of stack and memory: bytes of a thread's
 * stack beyond what a thread that does nothing takes, requests for memory, and the most bytes that
 * one of these asks for. It is linked with --wrap=malloc,--wrap=realloc. */
#include "git_date.h"

#include <limits.h>
#include <pthread.h>
#include <stdio.h>
#include <stdlib.h>
#include <string.h>

enum { STACK = 1 << 18 };

static size_t requests, largest;
static char zone_bytes[1 << 16];
static size_t zone_len;

void *__real_malloc(size_t size);
void *__real_realloc(void *block, size_t size);

static void count(size_t size)
{
    requests++;
    largest = size > largest ? size : largest;
}

void *__wrap_malloc(size_t size)
{
    count(size);
    return __real_malloc(size);
}

void *__wrap_realloc(void *block, size_t size)
{
    count(size);
    return __real_realloc(block, size);
}

#define TEXT(text) (text), sizeof(text) - 1
#define CALL(name, ...)                                                                            \
    static void *call_##name(void *status)                                                         \
    {                                                                                              \
        *(uint32_t *)status = name(__VA_ARGS__);                                                   \
        return NULL;                                                                               \
    }

/* A call for many lines, which has to read one line well. */
#define LINE(name, ...)                                                                            \
    static void *call_##name(void *status)                                                         \
    {                                                                                              \
        *(uint32_t *)status = name(__VA_ARGS__) == 1 ? read_so : 1;                                \
        return NULL;                                                                               \
    }
#define CELL &seconds, 1, &offset, 1, &read_so, 1, &len

/* The same in UTC, by a rule, and by a file. */
#define LINES_AT(name, ...)                                                                        \
    LINE_IN(name, utc, __VA_ARGS__)                                                                \
    LINE_IN(name, rule, __VA_ARGS__)                                                               \
    LINE_IN(name, file, __VA_ARGS__)
#define LINE_IN(name, place, ...)                                                                  \
    static void *call_##name##_##place(void *status)                                               \
    {                                                                                              \
        const gix_date_zone *zone = &place;                                                        \
        *(uint32_t *)status = name(__VA_ARGS__) == 1 ? read_so : 1;                                \
        return NULL;                                                                               \
    }

/* The same call in UTC, by a rule, and by a file. */
#define CALLS_AT(name, ...)                                                                        \
    CALL_IN(name, utc, __VA_ARGS__)                                                                \
    CALL_IN(name, rule, __VA_ARGS__)                                                               \
    CALL_IN(name, file, __VA_ARGS__)
#define CALL_IN(name, place, ...)                                                                  \
    static void *call_##name##_##place(void *status)                                               \
    {                                                                                              \
        const gix_date_zone *zone = &place;                                                        \
        *(uint32_t *)status = name(__VA_ARGS__);                                                   \
        return NULL;                                                                               \
    }

static const gix_date_instant now = {1699165800, 0};
static gix_date_zone utc, rule, file, read, copy;
static const gix_date_time at = {1660797906, 28800};
static const gix_date_careful_options usual = {0, 0, 0};
static const char iso[] = "%Y-%m-%d %H:%M:%S %z";
static gix_date_time parsed;
static gix_date_signature parts;
static gix_date_ident_parts ident;
static const gix_date_git_time decimal = {1660797906, 800, false};
static const git_date_mode shown = {GIT_DATE_HUMAN, true};
static git_date_exact exact;
static git_date_approximate guess;
static git_date_expiry expiry;
static git_date_mode named;
static git_date_age age;
static char long_text[60000];
static char out[256];
static size_t len, place;
static int64_t seconds;
static int32_t offset;
static uint32_t read_so, message;
static uint8_t canonical;

CALL(gix_date_parse_header, TEXT("1660797906 +0800"), &parsed)
CALL(gix_date_write_header, &at, out, sizeof out, &len)
CALL(gix_date_parse, TEXT("2024-01-05 10:00"), GIX_DATE_QUARTERS, &parsed)
CALL(gix_date_zone_read, zone_bytes, zone_len, &read)
CALL(gix_date_zone_copy, &read, &copy)
CALLS_AT(gix_date_offset_at, &now, zone, &offset)
CALLS_AT(gix_date_parse_at, TEXT("1 month 2 days ago"), GIX_DATE_QUARTERS, &now, zone, &parsed)
CALL(gix_date_parse_carefully, TEXT("Thu, 18 Aug 2022 12:45:06 +0800"), &usual, &parsed, &place)
CALLS_AT(gix_date_parse_carefully_at, TEXT("1 month 2 days ago"), &usual, &now, zone, &parsed,
         &place)
LINE(gix_date_parse_lines, TEXT("Thu, 18 Aug 2022 12:45:06 +0800"), GIX_DATE_CAREFUL_LINES, &usual, CELL)
LINES_AT(gix_date_parse_lines_at, TEXT("1 month 2 days ago"), GIX_DATE_CAREFUL_LINES, &usual, &now,
         zone, CELL)
LINE(gix_date_check_lines, TEXT("1660797906 +0800"), &canonical, 1, &len)
LINE(gix_date_ident_lines, TEXT("A U Thor <author@example.com> 1660797906 +0800"), &ident, 1, &seconds, 1,
     &offset, 1, &message, 1, &read_so, 1, &len)
CALL(gix_date_format, &at, GIX_DATE_ISO8601, out, sizeof out, &len)
CALL(gix_date_format_or_unix, &at, GIX_DATE_DEFAULT, out, sizeof out, &len)
CALL(gix_date_format_by_pattern, &at, TEXT("%A %-d %B %Y, %H:%M"), out, sizeof out, &len)
CALL(gix_date_format_by_pattern_or_unix, &at, TEXT("%A %-d %B %Y, %H:%M"), out, sizeof out, &len)
CALL(gix_date_cut_signature, TEXT("A U Thor <author@example.com> 1660797906 +0800"), &parts)
CALL(gix_date_write_signature, TEXT("A U Thor"), TEXT("author@example.com"), &at, out, sizeof out,
     &len)
CALL(gix_date_ident, TEXT("A U Thor <author@example.com> 1660797906 +0800"), &ident)
CALL(gix_date_ident_time, &decimal, &parsed)
CALL(gix_date_fsck, TEXT("A U Thor <author@example.com> 1660797906 +0800"), &place)
CALL(gix_date_write_ident, TEXT(". A U Thor"), TEXT("<author@example.com>"), &at, out, sizeof out,
     &len)
CALL(gix_date_write_ident_as_is, TEXT("A U Thor"), TEXT("author@example.com"), &decimal, out, sizeof out,
     &len)
CALL(gix_date_git_time_text, &decimal, out, sizeof out, &len)
CALLS_AT(git_date_parse_at, long_text, sizeof long_text, &now, zone, &exact, &place)
CALLS_AT(git_date_approxidate_at, long_text, sizeof long_text, &now, zone, &guess, &place)
CALLS_AT(git_date_expiry_at, long_text, sizeof long_text, &now, zone, &expiry, &place)
LINES_AT(git_date_parse_lines_at, long_text, sizeof long_text, &now, zone, CELL)
LINES_AT(git_date_approxidate_lines_at, long_text, sizeof long_text, &now, zone, CELL)
CALL(git_date_mode_named, TEXT("iso8601-strict-local"), &named)
CALLS_AT(git_date_show_at, &at, &shown, &now, zone, out, sizeof out, &len)
CALLS_AT(git_date_show_git_time_at, &decimal, &shown, &now, zone, out, sizeof out, &len)
CALLS_AT(git_date_show_by_format, &at, TEXT(iso), true, zone, out, sizeof out, &len, &place)

CALL(git_date_age_at, &at, &now, &age)

static void *call_gix_date_zone_read_rule(void *status)
{
    *(uint32_t *)status = gix_date_zone_read(TEXT("EST5EDT,M3.2.0,M11.1.0"), &rule);
    return NULL;
}

static void *call_gix_date_zone_free(void *status)
{
    gix_date_zone_free(&copy);
    *(uint32_t *)status = 0;
    return NULL;
}

CALL(git_date_parse_offset, TEXT("-03:30"), &offset)
CALL(git_date_offset_text, 19800, out, sizeof out, &len)

static void *call_git_date_offset_from_decimal(void *status)
{
    *(uint32_t *)status = git_date_offset_from_decimal(530) == 19800 ? 0 : 1;
    return NULL;
}

static void *call_git_date_offset_to_decimal(void *status)
{
    *(uint32_t *)status = git_date_offset_to_decimal(19800) == 530 ? 0 : 1;
    return NULL;
}

static void *call_gix_date_is_canonical_header(void *status)
{
    *(uint32_t *)status = gix_date_is_canonical_header(TEXT("1660797906 +0800")) ? 0 : 1;
    return NULL;
}

static void *nothing(void *status)
{
    *(uint32_t *)status = 0;
    return NULL;
}

static void fail(const char *what)
{
    perror(what);
    exit(2);
}

/* The bytes of a stack of this size that a thread changes. */
static size_t changed(void *(*call)(void *), size_t size, uint32_t *status)
{
    static char stack[STACK] __attribute__((aligned(4096)));
    pthread_attr_t attributes;
    pthread_t thread;
    size_t unchanged = 0;
    memset(stack, 0x5a, size);
    if (pthread_attr_init(&attributes) || pthread_attr_setstack(&attributes, stack, size) ||
        pthread_create(&thread, &attributes, call, status) || pthread_join(thread, NULL))
        fail("a thread");
    while (unchanged < size && stack[unchanged] == 0x5a)
        unchanged++;
    return size - unchanged;
}

static const struct {
    const char *name;
    void *(*call)(void *);
} calls[] = {
#define ROW(name) {#name, call_##name}
#define ROWS_AT(name) ROW(name##_utc), ROW(name##_rule), ROW(name##_file)
    ROW(gix_date_parse_header),
    ROW(gix_date_is_canonical_header),
    ROW(gix_date_write_header),
    ROW(gix_date_parse),
    ROW(gix_date_zone_read),
    ROW(gix_date_zone_read_rule),
    ROW(gix_date_zone_copy),
    ROW(gix_date_zone_free),
    ROWS_AT(gix_date_offset_at),
    ROWS_AT(gix_date_parse_at),
    ROW(gix_date_parse_carefully),
    ROWS_AT(gix_date_parse_carefully_at),
    ROW(gix_date_parse_lines),
    ROWS_AT(gix_date_parse_lines_at),
    ROW(gix_date_check_lines),
    ROW(gix_date_ident_lines),
    ROW(gix_date_format),
    ROW(gix_date_format_or_unix),
    ROW(gix_date_format_by_pattern),
    ROW(gix_date_format_by_pattern_or_unix),
    ROW(gix_date_cut_signature),
    ROW(gix_date_write_signature),
    ROW(gix_date_ident),
    ROW(gix_date_ident_time),
    ROW(gix_date_fsck),
    ROW(gix_date_write_ident),
    ROW(gix_date_write_ident_as_is),
    ROW(gix_date_git_time_text),
    ROWS_AT(git_date_parse_at),
    ROWS_AT(git_date_approxidate_at),
    ROWS_AT(git_date_expiry_at),
    ROWS_AT(git_date_parse_lines_at),
    ROWS_AT(git_date_approxidate_lines_at),
    ROW(git_date_mode_named),
    ROWS_AT(git_date_show_at),
    ROWS_AT(git_date_show_git_time_at),
    ROWS_AT(git_date_show_by_format),
    ROW(git_date_age_at),
    ROW(git_date_parse_offset),
    ROW(git_date_offset_text),
    ROW(git_date_offset_from_decimal),
    ROW(git_date_offset_to_decimal),
};

/* A text of 60000 bytes: words that Git passes over, and this date at its end. */
static void fill_long_text(const char *date)
{
    static const char piece[] = "xyz1 ";
    const size_t end = sizeof long_text - strlen(date);
    for (size_t i = 0; i < end; i++)
        long_text[i] = piece[i % (sizeof piece - 1)];
    memcpy(long_text + end, date, strlen(date));
}

/* The bytes of a stack of this size that a call changes when it is not the first; it has to end
 * well. Counts its requests for memory. */
static size_t taken(const char *name, void *(*call)(void *), size_t size)
{
    uint32_t status = 0;
    changed(call, STACK, &status);
    requests = largest = 0;
    size_t used = changed(call, size, &status);
    if (status != GIX_DATE_OK) {
        fprintf(stderr, "%s: %s\n", name, git_date_status_text(status));
        exit(1);
    }
    return used;
}

/* With a file of a zone: the table. With a second word each call is made on a stack of so many
 * bytes. */
int main(int count, char **words)
{
    FILE *stream = count > 1 ? fopen(words[1], "rb") : NULL;
    uint32_t status = 0;
    if (!stream)
        fail("the file of a zone");
    zone_len = fread(zone_bytes, 1, sizeof zone_bytes, stream);
    fclose(stream);
    if (gix_date_zone_read(zone_bytes, zone_len, &file) != GIX_DATE_OK)
        fail("the zone of the file");
    changed(nothing, STACK, &status);
    size_t idle = changed(nothing, STACK, &status);
    size_t room = count > 2 ? strtoul(words[2], NULL, 10) : STACK;
    for (size_t i = 0; i < sizeof calls / sizeof *calls; i++) {
        if (room < STACK && !strcmp(calls[i].name, "gix_date_zone_read"))
            continue;
        fill_long_text(strstr(calls[i].name, "git_date_parse") ? " 10:00 7.4.2005"
                                                               : " last friday at noon");
        size_t used = taken(calls[i].name, calls[i].call, room);
        fill_long_text(" 2005-04-07 10:00");
        size_t used_too = taken(calls[i].name, calls[i].call, room);
        used = (used_too > used ? used_too : used) - idle;
        printf("%-36s %6zu %3zu %6zu\n", calls[i].name, used, requests, largest);
    }
    return 0;
}
