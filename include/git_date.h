/* Dates as Git itself reads and shows them, for C and C++: in the library of gix_date.h.
 *
 * Each call is proved to do what docs/C.md says of it, for every input with valid pointers and
 * lengths. What Git reads, and each refusal, is in docs/GIT_DATES.md. Each answer is Git's, as
 * it reads the first date of a process, or a refusal; but a zone that is a rule changes before 1970
 * too. All that gix_date.h says of texts, buffers, threads and memory holds here too.
 *
 * A call has a moment: the instant now in a zone, which gix_date.h tells how to make. A text without
 * an offset has that of the zone. No call takes memory but git_date_show_by_format.
 *
 * The text of a date is any bytes, as in Git, and need not be UTF-8: a byte that is not ASCII is a
 * mark, which is passed over. But a NUL ends the text, where its length goes on: `ignored` is then the
 * place of the NUL, or an earlier one. So the length does not count the NUL that ends a string of C.
 * A place counts bytes from the text's start. It is one where a character of the text begins. */
#ifndef GIT_DATE_H
#define GIT_DATE_H

#include "gix_date.h"

#ifdef __cplusplus
extern "C" {
#endif

/* The place in a text of which nothing was ignored. */
#define GIT_DATE_NOTHING SIZE_MAX

/* The most bytes of a shown date, and of the shown date of an identity line. */
#define GIT_DATE_MAX_SHOWN 31
#define GIT_DATE_MAX_SHOWN_GIT_TIME 35

/* How a call ended: a status of gix_date.h, or one of these. After any but GIX_DATE_OK only *len
 * changes, and *place after the six that say so. */
enum git_date_status {
    /* Git reads no date either: the text says no year, month or time of day, or none that Git
     * knows. */
    GIT_DATE_UNREADABLE = 18,
    /* The digits at *place say more than 2147483647, and are neither an epoch nor a fraction. */
    GIT_DATE_NUMBER_TOO_LARGE = 19,
    /* The date leads back beyond what Git can say, by the word or number at *place. */
    GIT_DATE_BACK_TOO_FAR = 20,
    /* The date at *place begins with a year that Git refuses. */
    GIT_DATE_YEAR_REFUSED = 21,
    /* The date is before 1970, or leads to an instant that cannot be computed with. When shown: Git
     * cannot show it, or it is beyond what is shown here: an age at a moment before 1970, an offset
     * of 100 hours, or after 9999. By a format: seconds of a clock outside 1970 to 2099 also. */
    GIT_DATE_RANGE = 22,
    /* The directive at *place of a format has flags or a width, which s, z, Z and % do not take. */
    GIT_DATE_FLAG_REFUSED = 24,
    /* The directive at *place of a format is none that all C libraries show alike, or is cut off. */
    GIT_DATE_UNKNOWN_DIRECTIVE = 25,
    /* The width of the directive at *place of a format is above 255. */
    GIT_DATE_WIDTH_TOO_LARGE = 26
};

/* What a status of either header means, in English; "unknown status" for another number. */
static inline const char *git_date_status_text(uint32_t status)
{
    switch (status) {
    case GIT_DATE_UNREADABLE:
        return "not a date that Git reads";
    case GIT_DATE_NUMBER_TOO_LARGE:
        return "a number of the date is too large";
    case GIT_DATE_BACK_TOO_FAR:
        return "the date leads back too far";
    case GIT_DATE_YEAR_REFUSED:
        return "the year of the date is refused: expected 1970 to 2099";
    case GIT_DATE_RANGE:
        return "the date is before 1970 or leads to an instant that cannot be computed with";
    case GIT_DATE_FLAG_REFUSED:
        return "a directive of the format takes no flags and no width";
    case GIT_DATE_UNKNOWN_DIRECTIVE:
        return "a directive of the format is unknown";
    case GIT_DATE_WIDTH_TOO_LARGE:
        return "a width of the format is above 255";
    default:
        return gix_date_status_text(status);
    }
}

/* A date that is read exactly. */
typedef struct git_date_exact {
    gix_date_time time;
    size_t ignored;  /* the place of the first unused word, number, sign or NUL, or GIT_DATE_NOTHING */
    bool has_offset; /* the text names its offset, as "+0200" or "EST": each zone gives this date */
} git_date_exact;

/* A date that is read as people write it. */
typedef struct git_date_approximate {
    gix_date_time time;
    size_t ignored;  /* as in git_date_exact */
    bool understood; /* else the time is the moment, if the zone's clock finds it again */
} git_date_approximate;

/* What expires. */
enum git_date_expiry_kind {
    GIT_DATE_NEVER = 0, /* nothing */
    GIT_DATE_ALL = 1,   /* all, however new it is */
    GIT_DATE_BEFORE = 2 /* what is older than a date */
};

typedef struct git_date_expiry {
    uint32_t kind;               /* of enum git_date_expiry_kind */
    git_date_approximate before; /* changes only with GIT_DATE_BEFORE */
} git_date_expiry;

/* What of a date is shown. Examples of fixed forms show 1251660000 +0000. */
enum git_date_kind {
    GIT_DATE_RELATIVE = 0,       /* 2 hours ago */
    GIT_DATE_ISO8601_STRICT = 1, /* 2009-08-30T19:20:00+00:00 */
    GIT_DATE_ISO8601 = 2,        /* 2009-08-30 19:20:00 +0000 */
    GIT_DATE_RFC2822 = 3,        /* Sun, 30 Aug 2009 19:20:00 +0000 */
    GIT_DATE_SHORT = 4,          /* 2009-08-30 */
    GIT_DATE_DEFAULT = 5,        /* Sun Aug 30 19:20:00 2009 +0000 */
    GIT_DATE_HUMAN = 6,          /* as much as tells the date from now: Tue Aug 25 19:20 */
    GIT_DATE_RAW = 7,            /* 1251660000 +0000 */
    GIT_DATE_UNIX = 8            /* 1251660000 */
};

/* How a date is shown, as Git's option --date says it. */
typedef struct git_date_mode {
    uint32_t kind; /* of enum git_date_kind */
    bool local;    /* whether the clock is that of the moment's zone; else it is the time's own */
} git_date_mode;

/* The units of ages. */
enum git_date_unit {
    GIT_DATE_SECONDS = 0,
    GIT_DATE_MINUTES = 1,
    GIT_DATE_HOURS = 2,
    GIT_DATE_DAYS = 3,
    GIT_DATE_WEEKS = 4,
    GIT_DATE_MONTHS = 5,
    GIT_DATE_YEARS = 6,
    GIT_DATE_FUTURE = 7 /* no age: the time is after the moment */
};

/* How long ago a time was, in the unit that Git chooses: "1 year, 2 months ago". */
typedef struct git_date_age {
    uint32_t unit;   /* of enum git_date_unit */
    uint32_t count;  /* of the unit; 0 with GIT_DATE_FUTURE */
    uint32_t months; /* beyond years; 0 with other units */
} git_date_age;

/* Reads a date as Git's exact reader does: GIT_COMMITTER_DATE, the date of a mail.
 * GIX_DATE_INVALID_ZONE, GIX_DATE_INVALID_INSTANT; GIT_DATE_UNREADABLE, GIT_DATE_NUMBER_TOO_LARGE,
 * GIT_DATE_YEAR_REFUSED, GIT_DATE_RANGE. */
GIX_DATE_MUST_USE
uint32_t git_date_parse_at(const char *text, size_t text_len, const gix_date_instant *now,
                           const gix_date_zone *zone, git_date_exact *date, size_t *place)
    GIX_DATE_NONNULL(3, 4, 5, 6);

/* Reads a date as people write it, as Git reads --since and REF@{..}: "yesterday noon". A word that
 * Git does not know is ignored: "5 mins ago" is the fifth. GIX_DATE_INVALID_ZONE,
 * GIX_DATE_INVALID_INSTANT; GIT_DATE_NUMBER_TOO_LARGE, GIT_DATE_BACK_TOO_FAR, GIT_DATE_YEAR_REFUSED,
 * GIT_DATE_RANGE. */
GIX_DATE_MUST_USE
uint32_t git_date_approxidate_at(const char *text, size_t text_len, const gix_date_instant *now,
                                 const gix_date_zone *zone, git_date_approximate *date,
                                 size_t *place) GIX_DATE_NONNULL(3, 4, 5, 6);

/* Reads what expires, as Git reads gc.pruneExpire: "never" and "false" are GIT_DATE_NEVER, "all"
 * and "now" GIT_DATE_ALL, also before a NUL, which is not told then. Any other text is a date of
 * git_date_approxidate_at. Its statuses, and GIT_DATE_UNREADABLE if nothing of the date was
 * understood. */
GIX_DATE_MUST_USE
uint32_t git_date_expiry_at(const char *text, size_t text_len, const gix_date_instant *now,
                            const gix_date_zone *zone, git_date_expiry *expiry, size_t *place)
    GIX_DATE_NONNULL(3, 4, 5, 6);

/* Reads each line of a block by git_date_parse_at, as gix_date_parse_lines of gix_date.h does by other
 * readers. The zone is found once for all lines. It is not told what was ignored. */
GIX_DATE_MUST_USE
size_t git_date_parse_lines_at(const char *block, size_t block_len, const gix_date_instant *now,
                               const gix_date_zone *zone, int64_t *seconds, size_t seconds_len,
                               int32_t *offsets, size_t offsets_len, uint32_t *statuses,
                               size_t statuses_len, size_t *bytes) GIX_DATE_NONNULL(3, 4, 11);

/* The same by git_date_approxidate_at. A line of which nothing is understood is the moment. */
GIX_DATE_MUST_USE
size_t git_date_approxidate_lines_at(const char *block, size_t block_len,
                                     const gix_date_instant *now, const gix_date_zone *zone,
                                     int64_t *seconds, size_t seconds_len, int32_t *offsets,
                                     size_t offsets_len, uint32_t *statuses, size_t statuses_len,
                                     size_t *bytes) GIX_DATE_NONNULL(3, 4, 11);

/* The mode of one of Git's names, in its letter case: "iso8601-strict-local", "local". Git's modes
 * "auto:" and "format:" have none: git_date_show_by_format shows by a format. GIX_DATE_NOT_TEXT, GIX_DATE_NO_SUCH_OPTION. */
GIX_DATE_MUST_USE
uint32_t git_date_mode_named(const char *name, size_t name_len, git_date_mode *mode)
    GIX_DATE_NONNULL(3);

/* Writes a time as git log --date=MODE shows it at the moment now, of at most GIT_DATE_MAX_SHOWN
 * bytes. GIX_DATE_INVALID_ZONE, GIX_DATE_INVALID_INSTANT; GIX_DATE_NO_SUCH_OPTION, GIT_DATE_RANGE,
 * GIX_DATE_NO_ROOM. */
GIX_DATE_MUST_USE
uint32_t git_date_show_at(const gix_date_time *time, const git_date_mode *mode,
                          const gix_date_instant *now, const gix_date_zone *zone, char *out,
                          size_t out_len, size_t *len) GIX_DATE_NONNULL(1, 2, 3, 4, 7);

/* Writes the time of an identity line as git log --date=MODE shows it at the moment now: by the
 * line's own clock, and with the offset as it is written, of at most GIT_DATE_MAX_SHOWN_GIT_TIME
 * bytes. "+0060" stays "+0060", where git_date_show_at writes "+0100". GIX_DATE_INVALID_ZONE,
 * GIX_DATE_INVALID_INSTANT; GIX_DATE_NO_SUCH_OPTION, GIT_DATE_RANGE, GIX_DATE_BEFORE_EPOCH,
 * GIX_DATE_OFFSET_TOO_WIDE, GIX_DATE_NO_ROOM. */
GIX_DATE_MUST_USE
uint32_t git_date_show_git_time_at(const gix_date_git_time *time, const git_date_mode *mode,
                                   const gix_date_instant *now, const gix_date_zone *zone,
                                   char *out, size_t out_len, size_t *len)
    GIX_DATE_NONNULL(1, 2, 3, 4, 7);

/* Writes a time as git log --date=format:FORMAT shows it, or format-local:FORMAT by the zone's clock.
 * What may be between percent signs and letters is in docs/GIT_DATES.md. A place is that of a percent
 * sign, in bytes from the format's start. GIX_DATE_INVALID_ZONE, GIX_DATE_NOT_TEXT,
 * GIT_DATE_FLAG_REFUSED, GIT_DATE_UNKNOWN_DIRECTIVE, GIT_DATE_WIDTH_TOO_LARGE, GIT_DATE_RANGE,
 * GIX_DATE_OUT_OF_MEMORY, GIX_DATE_NO_ROOM. */
GIX_DATE_MUST_USE
uint32_t git_date_show_by_format(const gix_date_time *time, const char *format, size_t format_len,
                                 bool local, const gix_date_zone *zone, char *out, size_t out_len,
                                 size_t *len, size_t *place) GIX_DATE_NONNULL(1, 5, 8, 9);

/* The age that GIT_DATE_RELATIVE shows in English, for a program that says it in other words.
 * GIX_DATE_INVALID_INSTANT; GIT_DATE_RANGE if the time or the moment is before 1970. */
GIX_DATE_MUST_USE
uint32_t git_date_age_at(const gix_date_time *time, const gix_date_instant *now, git_date_age *age)
    GIX_DATE_NONNULL(1, 2, 3);

/* Reads the text of an offset alone, as +0200, -03:30 and +02, up to 25 hours: seconds east of UTC.
 * GIX_DATE_INVALID_ZONE for any other text. */
GIX_DATE_MUST_USE
uint32_t git_date_parse_offset(const char *text, size_t text_len, int32_t *offset) GIX_DATE_NONNULL(3);

/* Writes an offset in seconds east of UTC as Git does: a sign, hours in two digits or more, and two
 * digits of minutes, as in +0530 and +51800. Seconds beyond whole minutes are dropped.
 * GIX_DATE_NO_ROOM; 11 bytes are enough. */
GIX_DATE_MUST_USE
uint32_t git_date_offset_text(int32_t offset, char *out, size_t out_len, size_t *len) GIX_DATE_NONNULL(4);

/* The offset that a number says as in Git's own code, where -130 is -0130: of hours, and two digits
 * of minutes. One of more seconds than 2147483647 is that many, with which no date is shown. */
int32_t git_date_offset_from_decimal(int32_t decimal);

/* The number that says an offset so, without the seconds beyond whole minutes. */
int32_t git_date_offset_to_decimal(int32_t offset);

#ifdef __cplusplus
}
#endif

#endif
