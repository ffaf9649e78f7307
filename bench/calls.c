/* Makes one call of gix_date.h or git_date.h so many times: calls KIND ZONE TEXT COUNT. The zone is that of a
 * file by its path, or of a POSIX rule, or UTC where it is `-`. A kind of many lines reads so many thousands in
 * calls for a thousand each, so that COUNT is a number of lines. */
#include "git_date.h"

#include <stdio.h>
#include <stdlib.h>
#include <string.h>

static const gix_date_instant now = {1698400800, 0};
static const gix_date_time day = {1660797906, 28800};
static const gix_date_git_time of_line = {1660797906, 800, false};
static const gix_date_careful_options usual = {0, 0, 0};
static const gix_date_careful_options local = {GIX_DATE_QUARTERS, GIX_DATE_MOMENTS_ZONE, 0};
static gix_date_zone zone, copy;
static char bytes[1 << 16];
static size_t bytes_len;

/* One call, by the letter of its kind, and the number of a format or a kind of shown dates. */
static uint32_t call(char kind, uint32_t format, const char *text, size_t len)
{
    gix_date_time time;
    git_date_exact exact;
    git_date_approximate guess;
    gix_date_ident_parts ident;
    gix_date_signature parts;
    git_date_expiry expiry;
    git_date_age age;
    char out[96];
    size_t out_len, place;
    int32_t offset;
    uint32_t status;
    switch (kind) {
    case 'h':
        return gix_date_parse_header(text, len, &time);
    case 'c':
        return gix_date_is_canonical_header(text, len);
    case 'w':
        return gix_date_write_header(&day, out, sizeof out, &out_len);
    case 'p':
        return gix_date_parse(text, len, GIX_DATE_QUARTERS, &time);
    case 'r':
        return gix_date_parse_at(text, len, GIX_DATE_QUARTERS, &now, &zone, &time);
    case 'k':
        return gix_date_parse_carefully_at(text, len, &usual, &now, &zone, &time, &place);
    case 'l':
        return gix_date_parse_carefully_at(text, len, &local, &now, &zone, &time, &place);
    case 'd':
        return git_date_parse_at(text, len, &now, &zone, &exact, &place);
    case 'a':
        return git_date_approxidate_at(text, len, &now, &zone, &guess, &place);
    case 's':
        return git_date_show_at(&day, &(git_date_mode){format, false}, &now, &zone, out, sizeof out,
                                &out_len);
    case 'S':
        return git_date_show_at(&day, &(git_date_mode){format, true}, &now, &zone, out, sizeof out,
                                &out_len);
    case 'g':
        return git_date_show_git_time_at(&of_line, &(git_date_mode){format, false}, &now, &zone, out,
                                         sizeof out, &out_len);
    case 'F':
        return git_date_show_by_format(&day, text, len, false, &zone, out, sizeof out, &out_len,
                                       &place);
    case 'P':
        return gix_date_format_by_pattern(&day, text, len, out, sizeof out, &out_len);
    case 'i':
        return gix_date_ident(text, len, &ident);
    case 'q':
        return gix_date_fsck(text, len, &place);
    case 'u':
        return gix_date_cut_signature(text, len, &parts);
    case 'o':
        return gix_date_offset_at(&now, &zone, &offset);
    case 'Z':
        return gix_date_zone_read(bytes, bytes_len, &zone);
    case 'z':
        return gix_date_zone_named(text, len, bytes, bytes_len, &zone);
    case 'Y':
        return gix_date_zone_find(text, NULL, &zone);
    case 'y':
        status = gix_date_zone_copy(&zone, &copy);
        gix_date_zone_free(&copy);
        return status;
    case 'K':
        return gix_date_parse_carefully(text, len, &usual, &time, &place);
    case 'U':
        return gix_date_format_by_pattern_or_unix(&day, text, len, out, sizeof out, &out_len);
    case 'W':
        return gix_date_write_signature("A U Thor", 8, "author@example.com", 18, &day, out, sizeof out,
                                        &out_len);
    case 'V':
        return gix_date_write_ident("A U Thor", 8, "author@example.com", 18, &day, out, sizeof out,
                                    &out_len);
    case 'v':
        return gix_date_write_ident_as_is("A U Thor", 8, "author@example.com", 18, &of_line, out,
                                          sizeof out, &out_len);
    case 'T':
        return gix_date_git_time_text(&of_line, out, sizeof out, &out_len);
    case 'n':
        return gix_date_ident_time(&of_line, &time);
    case 'x':
        return git_date_expiry_at(text, len, &now, &zone, &expiry, &place);
    case 'G':
        return git_date_age_at(&day, &now, &age);
    case 'O':
        return git_date_parse_offset(text, len, &offset);
    case 'N':
        return git_date_offset_text(day.offset, out, sizeof out, &out_len);
    default:
        return gix_date_format(&day, format, out, sizeof out, &out_len);
    }
}

enum { LINES = 1000 };

/* Reads a thousand lines of one text, by the letter of the kind and the number of a reader. */
static uint32_t call_lines(char kind, uint32_t reader, const char *block, size_t len)
{
    static int64_t seconds[LINES];
    static int32_t offsets[LINES];
    static uint32_t statuses[LINES], messages[LINES];
    static uint8_t canonical[LINES];
    static gix_date_ident_parts idents[LINES];
    size_t done, taken;
    switch (kind) {
    case 'I':
        done = gix_date_ident_lines(block, len, idents, LINES, seconds, LINES, offsets, LINES, messages, LINES,
                                    statuses, LINES, &taken);
        break;
    case 'J':
        done = gix_date_ident_lines(block, len, NULL, 0, seconds, LINES, offsets, LINES, messages, LINES,
                                    statuses, LINES, &taken);
        break;
    case 'C':
        done = gix_date_check_lines(block, len, canonical, LINES, &taken);
        break;
    case 'D':
        done = git_date_parse_lines_at(block, len, &now, &zone, seconds, LINES, offsets, LINES,
                                       statuses, LINES, &taken);
        break;
    case 'A':
        done = git_date_approxidate_lines_at(block, len, &now, &zone, seconds, LINES, offsets, LINES,
                                             statuses, LINES, &taken);
        break;
    default:
        done = gix_date_parse_lines_at(block, len, reader, &usual, &now, &zone, seconds, LINES, offsets,
                                       LINES, statuses, LINES, &taken);
    }
    return done == LINES && taken == len ? statuses[LINES - 1] : 1;
}

/* Reads so many lines of one text. */
static uint32_t read_lines(char kind, uint32_t reader, const char *text, long count)
{
    const size_t len = strlen(text) + 1;
    char *block = malloc(LINES * len + 1);
    uint32_t status = 0;
    for (size_t i = 0; i < LINES; i++)
        snprintf(block + i * len, len + 1, "%s\n", text);
    for (; count > 0; count -= LINES)
        status |= call_lines(kind, reader, block, LINES * len);
    free(block);
    return status;
}

/* Reads the zone of a file, or of a rule. */
static uint32_t read_zone(const char *name)
{
    FILE *file = fopen(name, "rb");
    bytes_len = file ? fread(bytes, 1, sizeof bytes, file) : strlen(name);
    if (file)
        fclose(file);
    else
        memcpy(bytes, name, bytes_len);
    return gix_date_zone_read(bytes, bytes_len, &zone);
}

int main(int count, char **words)
{
    if (count != 5)
        return 2;
    /* A number may follow the letter. */
    char kind = words[1][0];
    uint32_t format = (uint32_t)strtoul(words[1] + 1, NULL, 10);
    size_t len = strlen(words[3]);
    uint32_t status = strcmp(words[2], "-") ? read_zone(words[2]) : 0;
    long times = strtol(words[4], NULL, 10);
    if (strchr("LCDAIJ", kind)) {
        status |= read_lines(kind, format, words[3], times);
        times = 0;
    }
    for (; times > 0; times--)
        status |= call(kind, format, words[3], len);
    gix_date_zone_free(&zone);
    printf("%u\n", (unsigned)status);
    return 0;
}
