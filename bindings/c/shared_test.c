/* Tests that threads may share a zone of each kind: eight make all calls that take one as const, while
 * a ninth copies it. The zones lie where nobody may write. The word is how often each thread calls.
 * Link it with -Wl,--wrap=malloc,--wrap=realloc. */
#define _DEFAULT_SOURCE
#include "git_date.h"
#include "test.h"

#include <sys/mman.h>
#include <unistd.h>

/* A moment when New York is five hours west of UTC: 2023-11-14 22:13:20 +0000. */
static const gix_date_instant now = {1700000000, 0};
enum { HOUR_BEFORE = 1699996400, TEN = 1699974000, NOON = 1699981200, OFFSET = -18000 };

/* A constant lies where nobody may write. */
static const gix_date_zone constant = GIX_DATE_AT_OFFSET(OFFSET);

static int rounds;

static bool is(gix_date_time time, int64_t seconds)
{
    return is_time(time, seconds, OFFSET);
}

/* Whether gix-date's calls have the answers that are due. */
static bool reads(const gix_date_zone *zone)
{
    static const gix_date_careful_options options = {GIX_DATE_QUARTERS, GIX_DATE_MOMENTS_ZONE,
                                                     GIX_DATE_CAREFUL};
    gix_date_time time = untouched, careful = untouched;
    int32_t offset = 0;
    size_t place;
    return gix_date_offset_at(&now, zone, &offset) == GIX_DATE_OK && offset == OFFSET &&
           gix_date_parse_at(TEXT("1 hour ago"), GIX_DATE_QUARTERS, &now, zone, &time) ==
               GIX_DATE_OK &&
           is(time, HOUR_BEFORE) &&
           gix_date_parse_carefully_at(TEXT("2023-11-14 10:00"), &options, &now, zone, &careful,
                                       &place) == GIX_DATE_OK &&
           is(careful, TEN);
}

/* Whether the calls that read Git's dates have them. */
static bool reads_as_git(const gix_date_zone *zone)
{
    git_date_exact exact;
    git_date_approximate noon;
    git_date_expiry expiry;
    size_t place;
    return git_date_parse_at(TEXT("2023-11-14 10:00:00"), &now, zone, &exact, &place) ==
               GIX_DATE_OK &&
           is(exact.time, TEN) &&
           git_date_approxidate_at(TEXT("noon"), &now, zone, &noon, &place) == GIX_DATE_OK &&
           is(noon.time, NOON) &&
           git_date_expiry_at(TEXT("1 hour ago"), &now, zone, &expiry, &place) == GIX_DATE_OK &&
           expiry.kind == GIT_DATE_BEFORE && is(expiry.before.time, HOUR_BEFORE);
}

/* Whether the calls that show a time have them. */
static bool shows(const gix_date_zone *zone)
{
    static const gix_date_time ten = {TEN, 0};
    static const gix_date_git_time of_line = {TEN, 100, false};
    static const git_date_mode mode = {GIT_DATE_ISO8601, true};
    static const char due[] = "2023-11-14 10:00:00 -0500";
    char out[GIT_DATE_MAX_SHOWN_GIT_TIME];
    size_t len, place;
    return git_date_show_at(&ten, &mode, &now, zone, out, sizeof out, &len) == GIX_DATE_OK &&
           len == strlen(due) && memcmp(out, due, len) == 0 &&
           git_date_show_git_time_at(&of_line, &mode, &now, zone, out, sizeof out, &len) ==
               GIX_DATE_OK &&
           len == strlen(due) && memcmp(out, due, len) == 0 &&
           git_date_show_by_format(&ten, TEXT("%H:%M %z"), true, zone, out, sizeof out, &len,
                                   &place) == GIX_DATE_OK &&
           len == 11 && memcmp(out, "10:00 -0500", len) == 0;
}

/* Whether the calls for many lines have them. */
static bool reads_lines(const gix_date_zone *zone)
{
    static const gix_date_careful_options options = {0, 0, 0};
    static const char dates[] = "1 hour ago\n", exact[] = "2023-11-14 10:00:00\n",
                      noon[] = "noon\n";
    int64_t seconds[3];
    int32_t offsets[3];
    uint32_t statuses[3];
    size_t bytes;
    const size_t lines =
        gix_date_parse_lines_at(TEXT(dates), GIX_DATE_DATE_LINES, &options, &now, zone, seconds, 1,
                                offsets, 1, statuses, 1, &bytes) +
        git_date_parse_lines_at(TEXT(exact), &now, zone, seconds + 1, 1, offsets + 1, 1,
                                statuses + 1, 1, &bytes) +
        git_date_approxidate_lines_at(TEXT(noon), &now, zone, seconds + 2, 1, offsets + 2, 1,
                                      statuses + 2, 1, &bytes);
    return lines == 3 && statuses[0] == GIX_DATE_OK && statuses[1] == GIX_DATE_OK &&
           statuses[2] == GIX_DATE_OK && seconds[0] == HOUR_BEFORE && seconds[1] == TEN &&
           seconds[2] == NOON && offsets[0] == OFFSET && offsets[1] == OFFSET &&
           offsets[2] == OFFSET;
}

static void *calls(void *zone)
{
    for (int i = 0; i < rounds; i++) {
        EXPECT(reads(zone), "gix-date's calls with a shared zone");
        EXPECT(reads_as_git(zone), "Git's dates with a shared zone");
        EXPECT(shows(zone), "times shown with a shared zone");
        EXPECT(reads_lines(zone), "lines with a shared zone");
    }
    return NULL;
}

static void *copies(void *zone)
{
    for (int i = 0; i < rounds; i++) {
        gix_date_zone copy = GIX_DATE_AT_OFFSET(0);
        EXPECT(gix_date_zone_copy(zone, &copy) == GIX_DATE_OK && reads(&copy), "a copy");
        gix_date_zone_free(&copy);
    }
    return NULL;
}

/* Eight threads call with the zone, and a ninth copies it. */
static void share(const gix_date_zone *zone)
{
    pthread_t all[9];
    for (int i = 0; i < 9; i++)
        if (pthread_create(&all[i], NULL, i < 8 ? calls : copies, (void *)zone) != 0)
            abort();
    for (int i = 0; i < 9; i++)
        pthread_join(all[i], NULL);
}

int main(int count, char **words)
{
    const size_t size = (size_t)sysconf(_SC_PAGESIZE);
    gix_date_zone *page =
        mmap(NULL, size, PROT_READ | PROT_WRITE, MAP_PRIVATE | MAP_ANONYMOUS, -1, 0);
    rounds = count == 2 ? atoi(words[1]) : 0;
    if (page == MAP_FAILED || rounds <= 0)
        return 2;
    page[0] = zone_of(TEXT(new_york));
    page[1] = zone_of(BYTES(zone_file));
    if (mprotect(page, size, PROT_READ) != 0)
        return 2;
    share(&constant);
    share(&page[0]);
    share(&page[1]);
    if (mprotect(page, size, PROT_READ | PROT_WRITE) != 0)
        return 2;
    gix_date_zone_free(&page[0]);
    gix_date_zone_free(&page[1]);
    if (failures == 0)
        printf("shared_test: nine threads share a zone of each kind, %d times each\n", rounds);
    return failures != 0;
}
