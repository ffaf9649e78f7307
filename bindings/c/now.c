/* Prints the time that a date names now, in the machine's zone. A date without an offset is one of that
 * zone, and a relative one that leaves a guess is refused. */
#include "gix_date.h"

#include <stdio.h>
#include <stdlib.h>
#include <string.h>
#include <time.h>

/* Reads a date at this moment. */
static uint32_t parse_now(const char *date, const gix_date_zone *zone, gix_date_time *parsed,
                          size_t *place)
{
    static const gix_date_careful_options options = {
        GIX_DATE_QUARTERS, GIX_DATE_MOMENTS_ZONE, GIX_DATE_CAREFUL};
    const gix_date_instant now = {time(NULL), 0};
    return gix_date_parse_carefully_at(date, strlen(date), &options, &now, zone, parsed, place);
}

int main(int count, char **words)
{
    gix_date_zone zone = GIX_DATE_AT_OFFSET(0);
    gix_date_time parsed;
    size_t place = 0;
    if (count != 2) {
        fputs("usage: now DATE\n", stderr);
        return 2;
    }
    uint32_t status = gix_date_zone_find(getenv("TZ"), getenv("TZDIR"), &zone);
    if (status == GIX_DATE_OK)
        status = parse_now(words[1], &zone, &parsed, &place);
    gix_date_zone_free(&zone);
    if (status == GIX_DATE_UNCLEAR)
        fprintf(stderr, "%s, from byte %zu on\n", gix_date_status_text(status), place);
    else if (status != GIX_DATE_OK)
        fprintf(stderr, "%s\n", gix_date_status_text(status));
    if (status != GIX_DATE_OK)
        return 1;
    printf("%lld %d\n", (long long)parsed.seconds, (int)parsed.offset);
    return 0;
}
