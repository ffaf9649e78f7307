/* Git's times for C and C++: commit headers, dates, signature lines and printed times.
 *
 * Each call is proved to do what docs/C.md says of it, for every input with valid pointers and
 * lengths. docs/C.md tells how to build and link the library, for Linux with glibc on x86-64. The
 * pages are installed in share/doc/gix_date, with an example that finds the machine's zone, now.c.
 *
 * A text is UTF-8, given by a pointer and a length, and needs no NUL. Other bytes are refused by
 * GIX_DATE_NOT_TEXT or false, but for TZif files, identity lines and the dates of git_date.h. With
 * length 0 any pointer is valid; no other pointer is NULL. Outputs overlap no other argument.
 *
 * A call that writes a text puts it at the front of a buffer, without a NUL, and its length into
 * *len. If the buffer is too short (GIX_DATE_NO_ROOM), *len is the length that is needed. After any
 * other refusal it is 0.
 *
 * Seconds count from 1970-01-01 00:00:00 UTC, and an offset is seconds east of UTC.
 *
 * Only calls that say so take memory, by malloc: do not call these in a signal handler. All free it
 * before they return, but gix_date_zone_read and gix_date_zone_copy, whose zone is freed by
 * gix_date_zone_free. No call keeps a pointer to what it is given, has a state, or reads the clock,
 * the environment or a file, so any number of threads may call at once, also with one const
 * gix_date_zone. */
#ifndef GIX_DATE_H
#define GIX_DATE_H

#include <stdbool.h>
#include <stddef.h>
#include <stdint.h>

#ifdef __cplusplus
extern "C" {
#endif

/* A call that may refuse answers a status, and a compiler warns of a program that drops it. */
#if defined(__cplusplus) && __cplusplus >= 201703L
#define GIX_DATE_MUST_USE [[nodiscard]]
#elif defined(__STDC_VERSION__) && __STDC_VERSION__ >= 202311L
#define GIX_DATE_MUST_USE [[nodiscard]]
#elif defined(__GNUC__)
#define GIX_DATE_MUST_USE __attribute__((warn_unused_result))
#else
#define GIX_DATE_MUST_USE
#endif

/* The arguments that are pointers and never NULL, counted from 1. A compiler warns of a NULL. */
#if defined(__GNUC__)
#define GIX_DATE_NONNULL(...) __attribute__((nonnull(__VA_ARGS__)))
#else
#define GIX_DATE_NONNULL(...)
#endif

/* The version of this library, and the number that gix_date_version answers for it: ten thousands
 * for the first number, hundreds for the second. The first number rises if programs have to be
 * changed or linked again, the second if there are new calls. */
#define GIX_DATE_VERSION "2.0.0"
#define GIX_DATE_VERSION_NUMBER 20000

/* The version of the Rust crate gix-date that this library ports, and its number. */
#define GIX_DATE_PORTED_VERSION "0.18.1"
#define GIX_DATE_PORTED_VERSION_NUMBER 1801

/* The most bytes of a header text. */
#define GIX_DATE_MAX_HEADER 26

/* What TZ means where it is not set: the file of the machine's zone. */
#define GIX_DATE_MACHINE_ZONE "/etc/localtime"

/* The most bytes of a file that is read as a zone, and the room to read one. */
#define GIX_DATE_MAX_ZONE_FILE 1048576
#define GIX_DATE_ZONE_FILE_ROOM (GIX_DATE_MAX_ZONE_FILE + 1)

/* How a call ended. Each call lists the statuses that it answers beside GIX_DATE_OK. After these
 * only *len changes, and after GIX_DATE_UNCLEAR *place. git_date.h has the numbers between. */
enum gix_date_status {
    GIX_DATE_OK = 0,
    /* Bytes that have to be UTF-8 are not. */
    GIX_DATE_NOT_TEXT = 1,
    /* No format, or no option, has this number. */
    GIX_DATE_NO_SUCH_OPTION = 2,
    /* The buffer is too short for the text. */
    GIX_DATE_NO_ROOM = 3,
    /* The text is no time of a header. */
    GIX_DATE_INVALID_TIME = 4,
    /* The text has no known form of a date, or its offset is above 23:59. */
    GIX_DATE_UNKNOWN_FORMAT = 5,
    /* The day's midnight in UTC is after the last instant, 253402207200. */
    GIX_DATE_DATE_CONVERSION = 6,
    /* The text is relative to a moment or a date in its zone, and none was given. */
    GIX_DATE_MISSING_NOW = 7,
    /* The relative text names an instant that cannot be computed, or a date in the moment's zone
     * has none. */
    GIX_DATE_RANGE = 8,
    /* The seconds of the moment are outside -377705023201 to 253402207200, its nanoseconds are
     * outside -999999999 to 999999999, or their sum is before the first instant. So 253402207201,
     * -1 is refused, though 253402207200, 999999999 is the same instant and is not. */
    GIX_DATE_INVALID_INSTANT = 9,
    /* The offset is beyond 25:59:59, or the rule or the file of the zone cannot be read. */
    GIX_DATE_INVALID_ZONE = 10,
    /* The seconds are outside -377705023201 to 253402207200, or the offset is beyond 25:59:59. */
    GIX_DATE_CONVERSION = 11,
    /* The offset is 100 hours or more, or of a gix_date_git_time more than 35791394 minutes. */
    GIX_DATE_OFFSET_TOO_WIDE = 12,
    /* The pattern cannot be printed. */
    GIX_DATE_PATTERN = 13,
    /* Memory was asked for and refused. */
    GIX_DATE_OUT_OF_MEMORY = 14,
    /* The line is no signature line. */
    GIX_DATE_NO_SIGNATURE = 15,
    /* The name or the email holds '<', '>', a newline or NUL. */
    GIX_DATE_BAD_PART = 16,
    /* The text is not careful. *place is the first byte that does not fit, or the text's length if
     * its end is missing. No other status here has a place. */
    GIX_DATE_UNCLEAR = 17,
    /* The text is a number of seconds above 253402300799, the end of the year 9999, alone or before
     * an offset, and without '@'. It may be milliseconds, or a date and a clock in digits alone. */
    GIX_DATE_AFTER_YEAR_9999 = 23,
    /* Git finds no identity in the line: no '<', or no '>' after the first. */
    GIX_DATE_NO_IDENTITY = 27,
    /* The name or the email holds NUL, at which a text ends for Git. */
    GIX_DATE_NUL_IN_PART = 28,
    /* The name has no bytes. */
    GIX_DATE_EMPTY_NAME = 29,
    /* The name holds only bytes that Git cuts off its ends. */
    GIX_DATE_ONLY_CRUD = 30,
    /* The time is before 1970, so Git cannot write it. When shown: that of an identity line is, or is
     * by its own clock. */
    GIX_DATE_BEFORE_EPOCH = 31,
    /* The file of the zone counts leap seconds, as those in /usr/share/zoneinfo/right. No time of Git
     * does. */
    GIX_DATE_ZONE_COUNTS_LEAP_SECONDS = 32
};

/* What a status means, in English; "unknown status" for another number. */
static inline const char *gix_date_status_text(uint32_t status)
{
    switch (status) {
    case GIX_DATE_OK:
        return "done";
    case GIX_DATE_NOT_TEXT:
        return "the bytes are not UTF-8";
    case GIX_DATE_NO_SUCH_OPTION:
        return "there is no format or option of this number";
    case GIX_DATE_NO_ROOM:
        return "the buffer is too short for the text";
    case GIX_DATE_INVALID_TIME:
        return "not a time: expected seconds since 1970, perhaps an offset such as +0100, and no colon";
    case GIX_DATE_UNKNOWN_FORMAT:
        return "no known date format";
    case GIX_DATE_DATE_CONVERSION:
        return "the date is beyond the last instant that can be computed with";
    case GIX_DATE_MISSING_NOW:
        return "the date needs a moment, and none was given";
    case GIX_DATE_RANGE:
        return "the date leads to an instant that cannot be computed with";
    case GIX_DATE_INVALID_INSTANT:
        return "the moment is no instant that can be computed with";
    case GIX_DATE_INVALID_ZONE:
        return "the zone of the moment cannot be read, or its offset is beyond 25:59:59";
    case GIX_DATE_CONVERSION:
        return "the time is too far from 1970, or its offset from UTC is beyond 25:59:59";
    case GIX_DATE_OFFSET_TOO_WIDE:
        return "an offset of 100 hours or more from UTC cannot be written";
    case GIX_DATE_PATTERN:
        return "the pattern cannot be printed";
    case GIX_DATE_OUT_OF_MEMORY:
        return "out of memory";
    case GIX_DATE_NO_SIGNATURE:
        return "not a signature line: expected a name, <, an email, > and a time";
    case GIX_DATE_BAD_PART:
        return "a name or an email holds <, >, a newline or NUL";
    case GIX_DATE_UNCLEAR:
        return "the date is not clear: expected a date, or counts and whole units, then ago";
    case GIX_DATE_AFTER_YEAR_9999:
        return "seconds after the year 9999: perhaps milliseconds, or a date and a clock in digits alone";
    case GIX_DATE_NO_IDENTITY:
        return "no identity: expected a name, <, an email and >";
    case GIX_DATE_NUL_IN_PART:
        return "a name or an email holds NUL";
    case GIX_DATE_EMPTY_NAME:
        return "the name is empty";
    case GIX_DATE_ONLY_CRUD:
        return "the name consists only of disallowed characters";
    case GIX_DATE_BEFORE_EPOCH:
        return "a time before 1970 cannot be written or shown";
    case GIX_DATE_ZONE_COUNTS_LEAP_SECONDS:
        return "the file of the zone counts leap seconds";
    default:
        return "unknown status";
    }
}

/* What git fsck says of an identity line: its first message that applies. */
enum gix_date_fsck_message {
    GIX_DATE_FSCK_PASSES = 0,
    GIX_DATE_FSCK_NUL_IN_HEADER = 1,             /* the line holds NUL */
    GIX_DATE_FSCK_MISSING_NAME_BEFORE_EMAIL = 2, /* it begins with '<' */
    GIX_DATE_FSCK_BAD_NAME = 3,                  /* its first bracket is '>' */
    GIX_DATE_FSCK_MISSING_EMAIL = 4,             /* it has no bracket */
    GIX_DATE_FSCK_MISSING_SPACE_BEFORE_EMAIL = 5, /* no space stands directly before the first '<' */
    GIX_DATE_FSCK_BAD_EMAIL = 6,                 /* the bracket after it is not '>', or there is none */
    GIX_DATE_FSCK_MISSING_SPACE_BEFORE_DATE = 7, /* no space stands directly after that '>' */
    GIX_DATE_FSCK_ZERO_PADDED_DATE = 8,          /* then '0' stands, and no space after it */
    GIX_DATE_FSCK_BAD_DATE_OVERFLOW = 9,         /* the number there is 2^63 or more, or negative */
    GIX_DATE_FSCK_BAD_DATE = 10,                 /* no number stands there, or no space after it */
    GIX_DATE_FSCK_BAD_TIMEZONE = 11 /* what follows is not a sign and four digits to the line's end */
};

/* The ID of a message in Git, "badDate"; "" for another number. */
static inline const char *gix_date_fsck_id(uint32_t message)
{
    switch (message) {
    case GIX_DATE_FSCK_NUL_IN_HEADER:
        return "nulInHeader";
    case GIX_DATE_FSCK_MISSING_NAME_BEFORE_EMAIL:
        return "missingNameBeforeEmail";
    case GIX_DATE_FSCK_BAD_NAME:
        return "badName";
    case GIX_DATE_FSCK_MISSING_EMAIL:
        return "missingEmail";
    case GIX_DATE_FSCK_MISSING_SPACE_BEFORE_EMAIL:
        return "missingSpaceBeforeEmail";
    case GIX_DATE_FSCK_BAD_EMAIL:
        return "badEmail";
    case GIX_DATE_FSCK_MISSING_SPACE_BEFORE_DATE:
        return "missingSpaceBeforeDate";
    case GIX_DATE_FSCK_ZERO_PADDED_DATE:
        return "zeroPaddedDate";
    case GIX_DATE_FSCK_BAD_DATE_OVERFLOW:
        return "badDateOverflow";
    case GIX_DATE_FSCK_BAD_DATE:
        return "badDate";
    case GIX_DATE_FSCK_BAD_TIMEZONE:
        return "badTimezone";
    default:
        return "";
    }
}

/* Which offsets a raw text ("1660797906 +0800") may have. */
enum gix_date_raw_offsets {
    GIX_DATE_QUARTERS = 0,     /* quarters of an hour up to 14:45 */
    GIX_DATE_WHOLE_MINUTES = 1 /* whole minutes up to 23:59 */
};

/* What a date means in which no offset is written, such as "2024-01-05 10:00". In the moment's zone
 * a time that its clock shows twice is the earlier one, and one that it skips is moved later. */
enum gix_date_without_offset {
    GIX_DATE_UTC = 0,         /* a time in UTC, as for gix_date_parse */
    GIX_DATE_MOMENTS_ZONE = 1 /* a time in the moment's zone */
};

/* Which texts are read. */
enum gix_date_texts {
    GIX_DATE_CAREFUL = 0,  /* those of which each character says something that is used */
    GIX_DATE_ALL_TEXTS = 1 /* all that gix_date_parse reads */
};

/* How each line of a block is read: as the calls that are named read one text. */
enum gix_date_line_reader {
    GIX_DATE_DATE_LINES = 0,     /* gix_date_parse, by the rule for raw offsets of the options */
    GIX_DATE_CAREFUL_LINES = 1,  /* gix_date_parse_carefully, by the options */
    GIX_DATE_HEADER_LINES = 2,   /* gix_date_parse_header */
    GIX_DATE_SIGNATURE_LINES = 3 /* gix_date_cut_signature, and gix_date_parse_header of its time */
};

/* What a time is printed as. */
enum gix_date_named_format {
    /* Made by scripts/formats. */
    GIX_DATE_UNIX = 0,           /* 123456789 */
    GIX_DATE_RAW = 1,            /* 1660874655 +0800 */
    GIX_DATE_SHORT = 2,          /* 2018-12-24 */
    GIX_DATE_RFC2822 = 3,        /* Mon, 08 Aug 2022 12:45:06 +0800 */
    GIX_DATE_GIT_RFC2822 = 4,    /* Mon, 8 Aug 2022 12:45:06 +0800 */
    GIX_DATE_ISO8601 = 5,        /* 2022-08-17 22:04:58 +0200 */
    GIX_DATE_ISO8601_STRICT = 6, /* 2022-08-17T21:43:13+08:00 */
    GIX_DATE_GITOXIDE = 7,       /* Sun Sep 04 2022 10:45:06 -0400 */
    GIX_DATE_DEFAULT = 8         /* Sun Sep 4 10:45:06 2022 -0400 */
    /* Made until here. */
};

/* A time: seconds since 1970, and an offset in seconds east of UTC. Any two numbers are a time. */
typedef struct gix_date_time {
    int64_t seconds;
    int32_t offset;
} gix_date_time;

/* An instant: seconds since 1970, and nanoseconds from -999999999 to 999999999 that are added to
 * them. */
typedef struct gix_date_instant {
    int64_t seconds;
    int32_t nanoseconds;
} gix_date_instant;

/* How a date is parsed carefully. All zero is the usual: quarters of an hour, UTC, and careful
 * texts. */
typedef struct gix_date_careful_options {
    uint32_t raw_offsets;    /* of enum gix_date_raw_offsets */
    uint32_t without_offset; /* of enum gix_date_without_offset */
    uint32_t texts;          /* of enum gix_date_texts */
} gix_date_careful_options;

/* A part of a text: the bytes text[start] to text[start + len - 1]. */
typedef struct gix_date_span {
    size_t start;
    size_t len;
} gix_date_span;

/* The parts of a signature line: "name <email> time". */
typedef struct gix_date_signature {
    gix_date_span name;
    gix_date_span email;
    gix_date_span time;
} gix_date_signature;

/* A time as Git keeps it of an identity line: seconds from 1970 on, and the offset as one decimal
 * number, hours before the last two digits, minutes in them. "+0530" is 530, and "+0060" is 60. */
typedef struct gix_date_git_time {
    int64_t seconds;
    int32_t offset;
    bool minus_zero; /* a minus stands before an offset of 0, as in "-0000" */
} gix_date_git_time;

/* What Git shows of an identity line. Where it shows no date, has_date and comes_back are false, the
 * time is 0, 0, and the seconds and the offset have no bytes: they start where they would stand. */
typedef struct gix_date_ident_parts {
    gix_date_span name;      /* may be empty */
    gix_date_span email;     /* may be empty */
    gix_date_span rest;      /* what follows the email and its '>', to the line's end */
    gix_date_span seconds;   /* digits, as they are written */
    gix_date_span offset;    /* a sign and digits, as they are written */
    gix_date_git_time shown; /* the time of these */
    bool has_date;
    bool comes_back; /* gix_date_write_ident_as_is of name, email and shown writes this line again */
} gix_date_ident_parts;

/* A zone. All zero it is UTC, and GIX_DATE_AT_OFFSET(7200) is the zone that is always two hours east
 * of it. These need no call, and may be copied or be constants. gix_date_zone_read makes any other.
 *
 * A zone that was read may hold memory until gix_date_zone_free. Do not assign it to another, which
 * would hold the same memory: gix_date_zone_copy makes another, which shares the table of a file.
 *
 * Any number of threads may pass one zone as const at once. Meanwhile no thread reads it anew, frees
 * it or makes it a copy. */
typedef struct gix_date_zone {
    uint32_t kind;  /* the library's own */
    int32_t offset; /* seconds east of UTC, if nothing is held */
    void *held;     /* the library's own */
} gix_date_zone;

#define GIX_DATE_AT_OFFSET(seconds) {0, (seconds), NULL}

/* The version of the library that is linked: GIX_DATE_VERSION_NUMBER of its own header. */
uint32_t gix_date_version(void);

/* The version of gix-date that the linked library ports. */
uint32_t gix_date_ported_version(void);

/* Whether the linked library has all that this header declares: its first number is the header's,
 * and it is not older. */
static inline bool gix_date_version_fits(void)
{
    const uint32_t linked = gix_date_version();
    return linked / 10000 == GIX_DATE_VERSION_NUMBER / 10000 && linked >= GIX_DATE_VERSION_NUMBER;
}

/* Reads the time of a commit header, "1660797906 +0800", leniently as gix-date does: "12abc" is 12,
 * 0. GIX_DATE_NOT_TEXT, GIX_DATE_INVALID_TIME. */
GIX_DATE_MUST_USE
uint32_t gix_date_parse_header(const char *text, size_t text_len, gix_date_time *time)
    GIX_DATE_NONNULL(3);

/* Whether a text is as Git writes it: read as a header and written, it comes back byte for byte. */
bool gix_date_is_canonical_header(const char *text, size_t text_len);

/* Writes the text of a time in a commit header, of at most GIX_DATE_MAX_HEADER bytes. Seconds of an
 * offset beyond whole minutes are dropped. GIX_DATE_NO_ROOM, GIX_DATE_OFFSET_TOO_WIDE. */
GIX_DATE_MUST_USE
uint32_t gix_date_write_header(const gix_date_time *time, char *out, size_t out_len, size_t *len)
    GIX_DATE_NONNULL(1, 4);

/* Parses a date in one of the forms that docs/SPECIFICATION.md lists, by a rule of enum
 * gix_date_raw_offsets. A relative date ("2 days ago") is refused, since no moment is given.
 * GIX_DATE_NO_SUCH_OPTION, GIX_DATE_NOT_TEXT, GIX_DATE_UNKNOWN_FORMAT, GIX_DATE_DATE_CONVERSION,
 * GIX_DATE_MISSING_NOW. */
GIX_DATE_MUST_USE
uint32_t gix_date_parse(const char *text, size_t text_len, uint32_t raw_offsets,
                        gix_date_time *time) GIX_DATE_NONNULL(4);

/* Reads a zone for any number of calls. A text that begins with TZif is a file, as those in
 * /usr/share/zoneinfo; "+0200", "-03:30" and "+02" are offsets; "UTC" and "GMT" are UTC; any other is
 * a POSIX rule, "EST5EDT,M3.2.0,M11.1.0". One without dates, "CET-1CEST", has those of the United
 * States, as in the C library. What the zone held before is freed. Takes memory for a file and a
 * rule. After a refusal the zone is as it was.
 * GIX_DATE_NOT_TEXT, GIX_DATE_INVALID_ZONE, GIX_DATE_ZONE_COUNTS_LEAP_SECONDS,
 * GIX_DATE_OUT_OF_MEMORY. */
GIX_DATE_MUST_USE
uint32_t gix_date_zone_read(const void *text, size_t text_len, gix_date_zone *zone)
    GIX_DATE_NONNULL(3);

/* Finds the zone that values of TZ and TZDIR mean, which end at NUL, as the C library does. NULL is
 * one that is not set: gix_date_zone_find(getenv("TZ"), getenv("TZDIR"), &zone) finds the machine's.
 *
 * A TZ that is a rule with its dates is that rule. Any other names a file: below TZDIR, or below
 * /usr/share/zoneinfo without it, or from the root if it begins with '/'. Where there is no such
 * file, it is read as gix_date_zone_read reads a text, but for offsets. A colon in front says nothing.
 * An empty TZ is UTC. Without TZ the file is /etc/localtime, and without that file it is UTC.
 *
 * A file that is there has to be a regular one, of 1 to 1048576 bytes; nothing waits for any other.
 * What the zone held before is freed. Takes memory. After a refusal the zone is as it was.
 * GIX_DATE_NOT_TEXT if TZ or a TZDIR that is needed is not UTF-8, GIX_DATE_INVALID_ZONE where `date`
 * takes UTC in silence, GIX_DATE_ZONE_COUNTS_LEAP_SECONDS, GIX_DATE_OUT_OF_MEMORY. */
GIX_DATE_MUST_USE
uint32_t gix_date_zone_find(const char *tz, const char *tzdir, gix_date_zone *zone)
    GIX_DATE_NONNULL(3);

/* The steps of gix_date_zone_find, for a program that reads the file by itself. First the path of the
 * file: it has no bytes where there is no file to read. GIX_DATE_NOT_TEXT, GIX_DATE_NO_ROOM. */
GIX_DATE_MUST_USE
uint32_t gix_date_zone_path(const char *tz, size_t tz_len, const char *tzdir, size_t tzdir_len,
                            char *out, size_t out_len, size_t *len) GIX_DATE_NONNULL(7);

/* Then its bytes, for which there has to be room for GIX_DATE_ZONE_FILE_ROOM: none where there is no
 * such file. GIX_DATE_INVALID_ZONE where it may not be read as a zone. */
GIX_DATE_MUST_USE
uint32_t gix_date_zone_file(const char *path, void *bytes, size_t bytes_len, size_t *len)
    GIX_DATE_NONNULL(1, 4);

/* At last the zone, by the bytes of its file or by none. The statuses are those of
 * gix_date_zone_find. */
GIX_DATE_MUST_USE
uint32_t gix_date_zone_named(const char *tz, size_t tz_len, const void *file, size_t file_len,
                             gix_date_zone *zone) GIX_DATE_NONNULL(5);

/* Makes a zone mean what another means. What it held before is freed. Takes memory where the other
 * holds some. GIX_DATE_OUT_OF_MEMORY. */
GIX_DATE_MUST_USE
uint32_t gix_date_zone_copy(const gix_date_zone *from, gix_date_zone *zone) GIX_DATE_NONNULL(1, 2);

/* Frees what a zone holds. It is UTC then, and may be freed again. */
void gix_date_zone_free(gix_date_zone *zone) GIX_DATE_NONNULL(1);

/* The offset of a zone at an instant, in seconds east of UTC. At the instant now it is that of a new
 * commit. GIX_DATE_INVALID_ZONE, GIX_DATE_INVALID_INSTANT. */
GIX_DATE_MUST_USE
uint32_t gix_date_offset_at(const gix_date_instant *instant, const gix_date_zone *zone,
                            int32_t *offset) GIX_DATE_NONNULL(1, 2, 3);

/* Parses as gix_date_parse does a text that may be relative to the moment now in a zone.
 * GIX_DATE_INVALID_ZONE, GIX_DATE_INVALID_INSTANT; GIX_DATE_NO_SUCH_OPTION, GIX_DATE_NOT_TEXT,
 * GIX_DATE_UNKNOWN_FORMAT, GIX_DATE_DATE_CONVERSION, GIX_DATE_RANGE. */
GIX_DATE_MUST_USE
uint32_t gix_date_parse_at(const char *text, size_t text_len, uint32_t raw_offsets,
                           const gix_date_instant *now, const gix_date_zone *zone,
                           gix_date_time *time) GIX_DATE_NONNULL(4, 5, 6);

/* Parses a date as gix_date_parse does, but refuses it unless each character says something that is
 * used. With GIX_DATE_UNCLEAR *place says where the text stops being careful; no other status
 * changes it. The statuses are those of gix_date_parse, GIX_DATE_UNCLEAR and
 * GIX_DATE_AFTER_YEAR_9999. */
GIX_DATE_MUST_USE
uint32_t gix_date_parse_carefully(const char *text, size_t text_len,
                                  const gix_date_careful_options *options, gix_date_time *time,
                                  size_t *place) GIX_DATE_NONNULL(3, 4, 5);

/* gix_date_parse_carefully at the moment now in a zone. The statuses are those of gix_date_parse_at,
 * GIX_DATE_UNCLEAR and GIX_DATE_AFTER_YEAR_9999. */
GIX_DATE_MUST_USE
uint32_t gix_date_parse_carefully_at(const char *text, size_t text_len,
                                     const gix_date_careful_options *options,
                                     const gix_date_instant *now, const gix_date_zone *zone,
                                     gix_date_time *time, size_t *place)
    GIX_DATE_NONNULL(3, 4, 5, 6, 7);

/* Reads many lines in one call. A block is lines that end at '\n', which the last may lack if it has a
 * byte; '\r' belongs to its line. A call reads the first lines, all or as many as the shortest array
 * has cells for, and answers how many. *bytes is how many bytes these have with their newlines: a
 * caller goes on from there.
 *
 * Line i leaves what the calls for one text, named at enum gix_date_line_reader, leave of it:
 * statuses[i], and with GIX_DATE_OK seconds[i] and offsets[i], which are else as they were. No place
 * is told: call for the line again if you need one. No other cell changes. A number that is no reader
 * makes each status GIX_DATE_NO_SUCH_OPTION. */
GIX_DATE_MUST_USE
size_t gix_date_parse_lines(const char *block, size_t block_len, uint32_t reader,
                            const gix_date_careful_options *options, int64_t *seconds,
                            size_t seconds_len, int32_t *offsets, size_t offsets_len,
                            uint32_t *statuses, size_t statuses_len, size_t *bytes)
    GIX_DATE_NONNULL(4, 11);

/* gix_date_parse_lines at the moment now in a zone, which is found once for all lines. Dates are read
 * as by gix_date_parse_at and gix_date_parse_carefully_at, which tell of a moment that is none at each
 * line. Headers and signature lines need no moment. */
GIX_DATE_MUST_USE
size_t gix_date_parse_lines_at(const char *block, size_t block_len, uint32_t reader,
                               const gix_date_careful_options *options,
                               const gix_date_instant *now, const gix_date_zone *zone,
                               int64_t *seconds, size_t seconds_len, int32_t *offsets,
                               size_t offsets_len, uint32_t *statuses, size_t statuses_len,
                               size_t *bytes) GIX_DATE_NONNULL(4, 5, 6, 13);

/* Tells of each line of a block, in the words of gix_date_parse_lines, whether it is as Git writes it:
 * canonical[i] is 1 if gix_date_is_canonical_header holds of line i, and else 0. */
GIX_DATE_MUST_USE
size_t gix_date_check_lines(const char *block, size_t block_len, uint8_t *canonical,
                            size_t canonical_len, size_t *bytes) GIX_DATE_NONNULL(5);

/* Writes a time in a format of enum gix_date_named_format. Takes memory for the text only in years
 * before 1000 or at offsets with seconds.
 * GIX_DATE_NO_ROOM, GIX_DATE_NO_SUCH_OPTION, GIX_DATE_CONVERSION, GIX_DATE_OFFSET_TOO_WIDE,
 * GIX_DATE_OUT_OF_MEMORY. */
GIX_DATE_MUST_USE
uint32_t gix_date_format(const gix_date_time *time, uint32_t format, char *out, size_t out_len,
                         size_t *len) GIX_DATE_NONNULL(1, 5);

/* gix_date_format, with the seconds in decimal for a time that has no text in that format. Takes
 * memory for these too.
 * GIX_DATE_NO_ROOM, GIX_DATE_NO_SUCH_OPTION, GIX_DATE_OUT_OF_MEMORY. */
GIX_DATE_MUST_USE
uint32_t gix_date_format_or_unix(const gix_date_time *time, uint32_t format, char *out,
                                 size_t out_len, size_t *len) GIX_DATE_NONNULL(1, 5);

/* Writes a time by a pattern of strftime, with the directives of jiff. Takes memory for the text,
 * but for the patterns of named formats where gix_date_format takes none, and then also for usual
 * ones: ASCII, %Y, %m, %d, %e, %H, %M, %S, %F, %T, %a, %b and %z, of a text of 120 bytes at most.
 * GIX_DATE_NO_ROOM, GIX_DATE_NOT_TEXT, GIX_DATE_CONVERSION, GIX_DATE_PATTERN,
 * GIX_DATE_OUT_OF_MEMORY. */
GIX_DATE_MUST_USE
uint32_t gix_date_format_by_pattern(const gix_date_time *time, const char *pattern,
                                    size_t pattern_len, char *out, size_t out_len, size_t *len)
    GIX_DATE_NONNULL(1, 6);

/* gix_date_format_by_pattern, with the seconds in decimal for a time that has no text by it.
 * GIX_DATE_NO_ROOM, GIX_DATE_NOT_TEXT, GIX_DATE_OUT_OF_MEMORY. */
GIX_DATE_MUST_USE
uint32_t gix_date_format_by_pattern_or_unix(const gix_date_time *time, const char *pattern,
                                            size_t pattern_len, char *out, size_t out_len,
                                            size_t *len) GIX_DATE_NONNULL(1, 6);

/* Cuts a signature line, without its newline, into its parts: "A U Thor <author@example.com>
 * 1660797906 +0800". The time is read by gix_date_parse_header. GIX_DATE_NOT_TEXT,
 * GIX_DATE_NO_SIGNATURE. */
GIX_DATE_MUST_USE
uint32_t gix_date_cut_signature(const char *line, size_t line_len, gix_date_signature *parts)
    GIX_DATE_NONNULL(3);

/* Writes the signature line of a name, an email and a time, without a newline. GIX_DATE_NO_ROOM,
 * GIX_DATE_NOT_TEXT, GIX_DATE_BAD_PART, GIX_DATE_OFFSET_TOO_WIDE. */
GIX_DATE_MUST_USE
uint32_t gix_date_write_signature(const char *name, size_t name_len, const char *email,
                                  size_t email_len, const gix_date_time *time, char *out,
                                  size_t out_len, size_t *len) GIX_DATE_NONNULL(5, 8);

/* Reads an identity line as Git shows it: what stands after "author ", "committer " or "tagger ", to the
 * first newline or NUL. The bytes need not be UTF-8. GIX_DATE_NO_IDENTITY. */
GIX_DATE_MUST_USE
uint32_t gix_date_ident(const char *text, size_t text_len, gix_date_ident_parts *ident)
    GIX_DATE_NONNULL(3);

/* The time of what Git shows of an identity line. GIX_DATE_OFFSET_TOO_WIDE. */
GIX_DATE_MUST_USE
uint32_t gix_date_ident_time(const gix_date_git_time *shown, gix_date_time *time)
    GIX_DATE_NONNULL(1, 2);

/* What git fsck says of an identity line, which ends before the first newline: a number of enum
 * gix_date_fsck_message. If it says something, *place is how many bytes stand before what is wrong: the
 * NUL, the bracket, the line's end, the date or the offset. Else *place does not change. */
GIX_DATE_MUST_USE
uint32_t gix_date_fsck(const char *text, size_t text_len, size_t *place) GIX_DATE_NONNULL(3);

/* Reads the identity lines of a block in one call: block, lines and *bytes are those of gix_date_parse_lines.
 * An array of no cells is left out. A call reads as many lines as the shortest of the others has cells
 * for, and none where all are left out.
 *
 * Line i leaves what gix_date_ident and gix_date_fsck tell of it. statuses[i] is GIX_DATE_OK or
 * GIX_DATE_NO_IDENTITY, and messages[i] is the number that gix_date_fsck answers. With GIX_DATE_OK
 * parts[i] is what gix_date_ident stores, but the parts are those of the block: the email begins at
 * block[parts[i].email.start]. With a date seconds[i] and offsets[i] are those of parts[i].shown. What is
 * not told stays as it was, and no other cell changes. */
GIX_DATE_MUST_USE
size_t gix_date_ident_lines(const char *block, size_t block_len, gix_date_ident_parts *parts,
                            size_t parts_len, int64_t *seconds, size_t seconds_len,
                            int32_t *offsets, size_t offsets_len, uint32_t *messages,
                            size_t messages_len, uint32_t *statuses, size_t statuses_len,
                            size_t *bytes) GIX_DATE_NONNULL(13);

/* Writes the identity line of a name, an email and a time as Git does, without a newline: name and email
 * without crud at both ends, and then without '<', '>' and newlines. Crud is a byte from 1 to 32, and
 * each of . , : ; < > " \ and '. They need not be UTF-8. GIX_DATE_NO_ROOM, GIX_DATE_NUL_IN_PART,
 * GIX_DATE_EMPTY_NAME, GIX_DATE_ONLY_CRUD, GIX_DATE_BEFORE_EPOCH, GIX_DATE_OFFSET_TOO_WIDE. */
GIX_DATE_MUST_USE
uint32_t gix_date_write_ident(const char *name, size_t name_len, const char *email, size_t email_len,
                              const gix_date_time *time, char *out, size_t out_len, size_t *len)
    GIX_DATE_NONNULL(5, 8);

/* Writes the identity line of a name, an email and a time as they are, without a newline. They need not
 * be UTF-8, and may be empty. GIX_DATE_NO_ROOM, GIX_DATE_BAD_PART. */
GIX_DATE_MUST_USE
uint32_t gix_date_write_ident_as_is(const char *name, size_t name_len, const char *email,
                                    size_t email_len, const gix_date_git_time *time, char *out,
                                    size_t out_len, size_t *len) GIX_DATE_NONNULL(5, 8);

/* Writes a time as an identity line has it: the seconds, a space, and a sign with at least four digits.
 * GIX_DATE_NO_ROOM; 32 bytes are enough. */
GIX_DATE_MUST_USE
uint32_t gix_date_git_time_text(const gix_date_git_time *time, char *out, size_t out_len, size_t *len)
    GIX_DATE_NONNULL(1, 4);

#ifdef __cplusplus
}
#endif

#endif
