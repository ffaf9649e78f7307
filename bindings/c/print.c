/* Prints each time of its input, a line of seconds and minutes east of UTC, as Git does by %ad,
 * %aD, %ai, %aI and %as. */
#include "gix_date.h"

#include <inttypes.h>
#include <stdio.h>

int main(void)
{
    static const uint32_t formats[] = {GIX_DATE_DEFAULT, GIX_DATE_GIT_RFC2822, GIX_DATE_ISO8601,
                                       GIX_DATE_ISO8601_STRICT, GIX_DATE_SHORT};
    const size_t last = sizeof formats / sizeof *formats - 1;
    gix_date_time time;
    while (scanf("%" SCNd64 " %" SCNd32, &time.seconds, &time.offset) == 2) {
        time.offset *= 60;
        for (size_t i = 0; i <= last; i++) {
            char text[64];
            size_t len;
            if (gix_date_format(&time, formats[i], text, sizeof text, &len) != GIX_DATE_OK)
                return 1;
            printf("%.*s%c", (int)len, text, i < last ? '|' : '\n');
        }
    }
    return 0;
}
