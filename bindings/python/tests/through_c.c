/* Reads lines, and prints of each what the library for C answers: a status of each call, and its numbers after status 0. */
#define _POSIX_C_SOURCE 200809L
#include "git_date.h"

#include <inttypes.h>
#include <stdio.h>
#include <stdlib.h>

static const gix_date_instant now = {1698400800, 0};

static void print_time(uint32_t status, gix_date_time time)
{
    if (status == GIX_DATE_OK)
        printf("0 %" PRId64 " %" PRId32 "|", time.seconds, time.offset);
    else
        printf("%" PRIu32 "|", status);
}

/* A refusal has a place if its status is one of four, and what is read may have ignored something at one. */
static void print_place(uint32_t status, size_t place, size_t ignored)
{
    const bool has_place = status == GIX_DATE_UNCLEAR || (status >= GIT_DATE_NUMBER_TOO_LARGE && status <= GIT_DATE_YEAR_REFUSED);
    const size_t told = status == GIX_DATE_OK ? ignored : has_place ? place : GIT_DATE_NOTHING;
    if (told == GIT_DATE_NOTHING)
        printf("-1|");
    else
        printf("%zu|", told);
}

/* The places of an identity line's parts, the time that is shown, and whether there is one and the line comes back. */
static void print_ident(const char *text, size_t len)
{
    gix_date_ident_parts ident;
    const uint32_t status = gix_date_ident(text, len, &ident);
    printf(" %" PRIu32, status);
    if (status == GIX_DATE_OK)
        printf(" %zu %zu %zu %zu %zu %" PRId64 " %" PRId32 " %d %d %d", ident.email.start, ident.rest.start, ident.seconds.start,
               ident.offset.start, ident.rest.start + ident.rest.len, ident.shown.seconds, ident.shown.offset, ident.shown.minus_zero,
               ident.has_date, ident.comes_back);
    printf("\n");
}

static void answer(const char *text, size_t len)
{
    static const gix_date_careful_options options = {GIX_DATE_WHOLE_MINUTES, GIX_DATE_MOMENTS_ZONE, GIX_DATE_CAREFUL};
    static const gix_date_zone zone = GIX_DATE_AT_OFFSET(7200);
    gix_date_time time;
    git_date_exact exact;
    git_date_approximate date;
    gix_date_signature parts;
    size_t place = GIT_DATE_NOTHING;
    uint32_t status = gix_date_parse_header(text, len, &time);
    print_time(status, time);
    status = gix_date_parse_at(text, len, GIX_DATE_QUARTERS, &now, &zone, &time);
    print_time(status, time);
    status = gix_date_parse_carefully_at(text, len, &options, &now, &zone, &time, &place);
    print_time(status, time);
    print_place(status, place, GIT_DATE_NOTHING);
    status = git_date_parse_at(text, len, &now, &zone, &exact, &place);
    print_time(status, exact.time);
    print_place(status, place, exact.ignored);
    status = git_date_approxidate_at(text, len, &now, &zone, &date, &place);
    print_time(status, date.time);
    print_place(status, place, date.ignored);
    status = gix_date_cut_signature(text, len, &parts);
    printf("%" PRIu32 " %zu", status, status ? 0 : parts.name.len + parts.email.len + parts.time.len);
    print_ident(text, len);
}

int main(void)
{
    char *line = NULL;
    size_t room = 0;
    ssize_t len;
    while ((len = getline(&line, &room, stdin)) >= 0)
        answer(line, (size_t)len - (len > 0 && line[len - 1] == '\n'));
    free(line);
    return 0;
}
