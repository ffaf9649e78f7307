/* Makes one call of the C library's or of GLib's so many times, as calls.c does of gix_date.h: c-peers KIND TEXT COUNT. Of a date with an
 * offset the seconds are those of UTC, so that each answers what gix_date answers. GLib is there if HAS_GLIB is defined. */
#define _GNU_SOURCE
#ifdef HAS_GLIB
#include <glib.h>
#endif
#include <stdio.h>
#include <stdlib.h>
#include <string.h>
#include <time.h>

/* Each answer goes here, so that the compiler drops no call. */
static volatile long answer;

/* The seconds of a text by a pattern that ends in %z. */
static long by_strptime(const char *text, const char *pattern)
{
    struct tm clock = {0};
    const char *end = strptime(text, pattern, &clock);
    long offset = clock.tm_gmtoff;
    if (end == NULL || *end != '\0') {
        fputs("refused\n", stderr);
        exit(1);
    }
    return timegm(&clock) - offset;
}

/* The bytes that a pattern prints of a clock at +0800. */
static long by_strftime(const char *pattern)
{
    char text[64];
    time_t seconds = 1660797906 + 28800;
    struct tm clock;
    gmtime_r(&seconds, &clock);
    clock.tm_gmtoff = 28800;
    return (long)strftime(text, sizeof text, pattern, &clock);
}

/* The seconds and the offset of a header. */
static long header_by_strtoll(const char *text)
{
    char *end;
    long long seconds = strtoll(text, &end, 10);
    long zone = strtol(end, &end, 10);
    return *end == '\0' ? (long)seconds - (zone / 100 * 60 + zone % 100) * 60 : -1;
}

/* The bytes of a line, or of what stands last in it. */
static long by_snprintf(char kind)
{
    char text[96];
    if (kind == 'S')
        return snprintf(text, sizeof text, "%s <%s> %lld %+05d", "A U Thor", "author@example.com", 1660797906LL, 800);
    if (kind == 'H')
        return snprintf(text, sizeof text, "%lld %+05d", 1660797906LL, 800);
    return snprintf(text, sizeof text, "%+05d", 800);
}

/* The offset of the process's zone at an instant. */
static long by_localtime(void)
{
    time_t seconds = 1698400800;
    struct tm clock;
    localtime_r(&seconds, &clock);
    return clock.tm_gmtoff;
}

/* Reads a zone, after another one, of which nothing is read. */
static long by_tzset(const char *name)
{
    setenv("TZ", "UTC0", 1);
    tzset();
    setenv("TZ", name, 1);
    tzset();
    return timezone;
}

#ifdef HAS_GLIB
static long by_glib(const char *text)
{
    GDateTime *date = g_date_time_new_from_iso8601(text, NULL);
    long seconds;
    if (date == NULL) {
        fputs("refused\n", stderr);
        exit(1);
    }
    seconds = (long)g_date_time_to_unix(date);
    g_date_time_unref(date);
    return seconds;
}

static long printed_by_glib(const char *pattern)
{
    static GTimeZone *zone;
    GDateTime *utc = g_date_time_new_from_unix_utc(1660797906), *date;
    char *text;
    long len;
    if (zone == NULL)
        zone = g_time_zone_new_offset(28800);
    date = g_date_time_to_timezone(utc, zone);
    text = g_date_time_format(date, pattern);
    len = (long)strlen(text);
    g_free(text);
    g_date_time_unref(date);
    g_date_time_unref(utc);
    return len;
}
#endif

/* One call, by the letter of its kind: a reader of the C library or of GLib, or a printer. */
static long call(char kind, const char *text)
{
    switch (kind) {
    case 'i':
        return by_strptime(text, "%Y-%m-%d %H:%M:%S %z");
    case 't':
        return by_strptime(text, "%Y-%m-%dT%H:%M:%S%z");
    case 'm':
        return by_strptime(text, "%a, %d %b %Y %H:%M:%S %z");
    case 'd':
        return by_strptime(text, "%a %b %d %H:%M:%S %Y %z");
    case 'f':
        return by_strftime(text);
    case 'h':
        return header_by_strtoll(text);
    case 'S':
    case 'H':
    case 'N':
        return by_snprintf(kind);
    case 'l':
        return by_localtime();
    case 'z':
        return by_tzset(text);
#ifdef HAS_GLIB
    case 'g':
        return by_glib(text);
    case 'p':
        return printed_by_glib(text);
#endif
    default:
        fputs("no such call\n", stderr);
        exit(2);
    }
}

int main(int argc, char **argv)
{
    long count;
    if (argc != 4)
        return 2;
    /* Once: `localtime_r` need not look at it again. */
    if (argv[1][0] == 'l')
        setenv("TZ", argv[2], 1);
    tzset();
    for (count = atol(argv[3]); count > 0; count--)
        answer = call(argv[1][0], argv[2]);
    printf("%ld\n", answer);
    return 0;
}
