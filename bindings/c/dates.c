#include "git_date.h"
#include <stdio.h>
#include <string.h>

int main(void)
{
    const char *text = "5 mins ago";
    const gix_date_instant now = {1251660000, 0};
    const git_date_mode mode = {GIT_DATE_ISO8601, false};
    const gix_date_zone utc = GIX_DATE_AT_OFFSET(0);
    git_date_approximate date;
    char out[GIT_DATE_MAX_SHOWN];
    size_t place, len;
    if (git_date_approxidate_at(text, strlen(text), &now, &utc, &date, &place) != GIX_DATE_OK)
        return 1;
    if (date.ignored != GIT_DATE_NOTHING)
        printf("Git ignores '%s'\n", text + date.ignored);
    if (git_date_show_at(&date.time, &mode, &now, &utc, out, sizeof out, &len) != GIX_DATE_OK)
        return 1;
    printf("%.*s\n", (int)len, out);
    return 0;
}
