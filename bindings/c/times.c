#include "gix_date.h"
#include <stdio.h>
#include <string.h>

int main(void)
{
    const char *header = "1660797906 +0800", *date = "2 weeks ago";
    const gix_date_instant now = {1698400800, 0};
    const gix_date_zone zone = GIX_DATE_AT_OFFSET(7200);
    gix_date_time time;
    if (gix_date_parse_header(header, strlen(header), &time) != GIX_DATE_OK)
        return 1;
    printf("%lld %d\n", (long long)time.seconds, (int)time.offset);
    if (gix_date_parse_at(date, strlen(date), GIX_DATE_QUARTERS, &now, &zone, &time) !=
        GIX_DATE_OK)
        return 1;
    printf("%lld %d\n", (long long)time.seconds, (int)time.offset);
    return 0;
}
