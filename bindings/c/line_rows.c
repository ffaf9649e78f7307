/* Reads the texts of rows as lines, for rows.c: those that one reader reads at one moment are the
 * lines of one block. The calls for many lines have to leave of each what the call for one text left
 * of it, in one call and in pieces. */
#include "rows.h"

#include "git_date.h"

#include <stdio.h>
#include <stdlib.h>
#include <string.h>

/* What a call left of a line: a status, and a time where that is GIX_DATE_OK; of a check 0 or 1. */
typedef struct left {
    uint32_t status;
    gix_date_time time;
} left;

/* The texts of a reader at a moment, and what was left of each. */
typedef struct block {
    line_reader reader;
    char *moment;
    char *bytes;
    size_t len;
    left *due;
    size_t count;
    struct block *next;
} block;

/* Three arrays, the one of a check, and two more of identity lines. */
typedef struct cells {
    int64_t *seconds;
    int32_t *offsets;
    uint32_t *statuses;
    uint8_t *canonical;
    uint32_t *messages;
    gix_date_ident_parts *parts;
} cells;

static const gix_date_time no_time = {-77, -7};
static const gix_date_ident_parts no_parts = {{9, 9}, {9, 9}, {9, 9},        {9, 9},
                                              {9, 9}, {9, 9, true}, true, true};
enum { NO_STATUS = 99 };

static block *blocks;

static void *more(void *old, size_t size)
{
    void *room = realloc(old, size);
    if (!room)
        abort();
    return room;
}

static bool is_for(const block *one, const line_reader *reader)
{
    return one->reader.kind == reader->kind &&
           !memcmp(&one->reader.options, &reader->options, sizeof reader->options) &&
           !strcmp(one->moment, reader->moment);
}

/* The block of a reader at a moment. */
static block *block_of(const line_reader *reader)
{
    for (block *one = blocks; one; one = one->next)
        if (is_for(one, reader))
            return one;
    block *made = more(NULL, sizeof *made);
    *made = (block){*reader, more(NULL, strlen(reader->moment) + 1), NULL, 0, NULL, 0, blocks};
    strcpy(made->moment, reader->moment);
    blocks = made;
    return made;
}

void keep_line(const line_reader *reader, field text, uint32_t status, gix_date_time time)
{
    if (memchr(text.bytes, '\n', text.len))
        return;
    block *of = block_of(reader);
    of->bytes = more(of->bytes, of->len + text.len + 1);
    memcpy(of->bytes + of->len, text.bytes, text.len);
    of->len += text.len + 1;
    of->bytes[of->len - 1] = '\n';
    of->due = more(of->due, (of->count + 1) * sizeof *of->due);
    of->due[of->count++] = (left){status, status == GIX_DATE_OK ? time : no_time};
}

void keep_identity(field text)
{
    keep_line(&(line_reader){IDENTITIES, {0, 0, 0}, ""}, text, NO_STATUS, no_time);
}

/* Reads lines from a byte of the block on into the cells from a line on, of which there are so many. */
static size_t read_from(const block *of, const gix_date_instant *now, const gix_date_zone *zone,
                        cells *into, size_t at, size_t line, size_t room, size_t *bytes)
{
    const char *start = of->bytes + at;
    size_t len = of->len - at;
    const gix_date_careful_options *options = &of->reader.options;
    int64_t *seconds = into->seconds + line;
    int32_t *offsets = into->offsets + line;
    uint32_t *statuses = into->statuses + line;
    switch (of->reader.kind) {
    case CHECKED:
        return gix_date_check_lines(start, len, into->canonical + line, room, bytes);
    case IDENTITIES:
        return gix_date_ident_lines(start, len, into->parts + line, room, seconds, room, offsets, room,
                                    into->messages + line, room, statuses, room, bytes);
    case EXACT_LINES:
        return git_date_parse_lines_at(start, len, now, zone, seconds, room, offsets, room,
                                       statuses, room, bytes);
    case APPROXIMATE_LINES:
        return git_date_approxidate_lines_at(start, len, now, zone, seconds, room, offsets, room,
                                             statuses, room, bytes);
    default: break;
    }
    if (!zone)
        return gix_date_parse_lines(start, len, of->reader.kind, options, seconds, room, offsets,
                                    room, statuses, room, bytes);
    return gix_date_parse_lines_at(start, len, of->reader.kind, options, now, zone, seconds, room,
                                   offsets, room, statuses, room, bytes);
}

static cells make_cells(size_t count)
{
    cells made = {more(NULL, count * sizeof(int64_t)), more(NULL, count * sizeof(int32_t)),
                  more(NULL, count * sizeof(uint32_t)), more(NULL, count),
                  more(NULL, count * sizeof(uint32_t)),
                  more(NULL, count * sizeof(gix_date_ident_parts))};
    for (size_t i = 0; i < count; i++) {
        made.seconds[i] = no_time.seconds;
        made.offsets[i] = no_time.offset;
        made.statuses[i] = NO_STATUS;
        made.canonical[i] = NO_STATUS;
        made.messages[i] = NO_STATUS;
        made.parts[i] = no_parts;
    }
    return made;
}

static void free_cells(cells *made)
{
    free(made->seconds);
    free(made->offsets);
    free(made->statuses);
    free(made->canonical);
    free(made->messages);
    free(made->parts);
}

static bool is_left(const cells *seen, size_t line, const left *due)
{
    return seen->seconds[line] == due->time.seconds && seen->offsets[line] == due->time.offset &&
           seen->statuses[line] == due->status;
}

static bool is_span(gix_date_span part, gix_date_span due, size_t start)
{
    return part.start == start + due.start && part.len == due.len;
}

/* Whether the parts of a line that begins at a byte are those that are due of the line alone. */
static bool are_parts(const gix_date_ident_parts *seen, const gix_date_ident_parts *due, size_t start)
{
    return is_span(seen->name, due->name, start) && is_span(seen->email, due->email, start) &&
           is_span(seen->rest, due->rest, start) && is_span(seen->seconds, due->seconds, start) &&
           is_span(seen->offset, due->offset, start) && seen->shown.seconds == due->shown.seconds &&
           seen->shown.offset == due->shown.offset &&
           seen->shown.minus_zero == due->shown.minus_zero && seen->has_date == due->has_date &&
           seen->comes_back == due->comes_back;
}

/* Whether the cells of an identity line hold what the calls for one line tell of it. */
static bool is_told(const char *text, size_t len, size_t start, const cells *seen, size_t line)
{
    gix_date_ident_parts due = no_parts;
    size_t place;
    left told = {gix_date_ident(text + start, len, &due), no_time};
    if (told.status == GIX_DATE_OK && due.has_date)
        told.time = (gix_date_time){due.shown.seconds, due.shown.offset};
    return is_left(seen, line, &told) &&
           seen->messages[line] == gix_date_fsck(text + start, len, &place) &&
           are_parts(&seen->parts[line], &due, told.status == GIX_DATE_OK ? start : 0);
}

/* Whether the cells of identity lines, which begin at a byte of the block, hold what is told of each. */
static bool are_told(const block *of, const cells *seen, size_t at, size_t line, size_t count)
{
    const char *text = of->bytes + at;
    for (size_t start = 0; count > 0; count--, line++) {
        const char *end = memchr(text + start, '\n', of->len - at - start);
        size_t len = end ? (size_t)(end - text) - start : of->len - at - start;
        if (!is_told(text, len, start, seen, line))
            return false;
        start += len + 1;
    }
    return true;
}

/* Whether a cell holds what is due of a line. */
static bool is_due(const block *of, const cells *seen, size_t line)
{
    const left nothing = {NO_STATUS, no_time}, *due = &of->due[line];
    if (of->reader.kind == IDENTITIES)
        return seen->canonical[line] == NO_STATUS;
    if (of->reader.kind == CHECKED)
        return seen->canonical[line] == due->status && is_left(seen, line, &nothing);
    return is_left(seen, line, due) && seen->canonical[line] == NO_STATUS;
}

/* Whether a call, or calls for at most so many lines each, read a block as is due: with no cell changed
 * after the last line's. */
static bool reads(const block *of, const gix_date_instant *now, const gix_date_zone *zone, size_t most)
{
    cells seen = make_cells(of->count + 1);
    const left nothing = {NO_STATUS, no_time};
    size_t line = 0, at = 0, bytes = 0;
    bool is_right = true;
    while (is_right && line < of->count) {
        size_t rest = of->count - line, room = most < rest + 1 ? most : rest + 1;
        size_t done = read_from(of, now, zone, &seen, at, line, room, &bytes);
        is_right = done == (room < rest ? room : rest) && bytes <= of->len - at;
        if (is_right && of->reader.kind == IDENTITIES)
            is_right = are_told(of, &seen, at, line, done);
        line += done;
        at += bytes;
    }
    is_right = is_right && at == of->len && is_left(&seen, of->count, &nothing) &&
               seen.canonical[of->count] == NO_STATUS && seen.messages[of->count] == NO_STATUS &&
               are_parts(&seen.parts[of->count], &no_parts, 0);
    for (size_t i = 0; is_right && i < of->count; i++)
        is_right = is_due(of, &seen, i);
    free_cells(&seen);
    return is_right;
}

/* Whether one call, and calls for fewer lines, read a block as is due. */
static bool reads_in_pieces(const block *of, const gix_date_instant *now, const gix_date_zone *zone)
{
    const size_t most[] = {of->count + 1, of->count, 3, 1};
    for (size_t i = 0; i < LENGTH(most); i++)
        if (!reads(of, now, zone, most[i]))
            return false;
    return true;
}

/* Whether all calls read a block as is due, also where its last line has no newline. */
static bool is_read(block *of)
{
    gix_date_instant now = {0, 0};
    gix_date_zone zone = GIX_DATE_AT_OFFSET(0);
    field name;
    bool has_moment = *of->moment != 0;
    if (has_moment && (!to_moment((field){of->moment, strlen(of->moment)}, &now, &name) ||
                       read_zone(name, &zone) != GIX_DATE_OK))
        return false;
    bool is_right = reads_in_pieces(of, &now, has_moment ? &zone : NULL);
    if (of->len > 1 && of->bytes[of->len - 2] != '\n') {
        of->len--;
        is_right &= reads_in_pieces(of, &now, has_moment ? &zone : NULL);
    }
    gix_date_zone_free(&zone);
    return is_right;
}

size_t run_lines(const char *name)
{
    size_t lines = 0, differing = 0;
    while (blocks) {
        block *one = blocks;
        lines += one->count;
        if (!is_read(one)) {
            differing++;
            printf("%s: reader %u at \"%s\": a block is not read as its lines\n", name,
                   (unsigned)one->reader.kind, one->moment);
        }
        blocks = one->next;
        free(one->moment);
        free(one->bytes);
        free(one->due);
        free(one);
    }
    if (lines)
        printf("%s: %zu lines of blocks\n", name, lines);
    return differing;
}
