/* Shows the time that a date names as `git log --since` reads it now, in the machine's zone. Warns of
 * what Git ignores, and refuses what it does not understand. */
#include "git_date.h"

#include <stdio.h>
#include <stdlib.h>
#include <string.h>
#include <time.h>

int main(int count, char **words)
{
    static const git_date_mode mode = {GIT_DATE_ISO8601, true};
    gix_date_zone zone = GIX_DATE_AT_OFFSET(0);
    const gix_date_instant now = {time(NULL), 0};
    git_date_approximate date;
    char out[GIT_DATE_MAX_SHOWN];
    size_t place, len;
    if (count != 2) {
        fputs("usage: since DATE\n", stderr);
        return 2;
    }
    uint32_t status = gix_date_zone_find(getenv("TZ"), getenv("TZDIR"), &zone);
    if (status == GIX_DATE_OK)
        status = git_date_approxidate_at(words[1], strlen(words[1]), &now, &zone, &date, &place);
    if (status == GIX_DATE_OK && !date.understood)
        status = GIT_DATE_UNREADABLE;
    if (status == GIX_DATE_OK)
        status = git_date_show_at(&date.time, &mode, &now, &zone, out, sizeof out, &len);
    gix_date_zone_free(&zone);
    if (status != GIX_DATE_OK) {
        fprintf(stderr, "%s\n", git_date_status_text(status));
        return 1;
    }
    if (date.ignored != GIT_DATE_NOTHING)
        fprintf(stderr, "warning: ignored from byte %zu on: %s\n", date.ignored,
                words[1] + date.ignored);
    printf("%.*s\n", (int)len, out);
    return 0;
}
