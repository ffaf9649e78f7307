/* What the programs share that test the library: expectations, counted memory, buffers and threads.
 * Link them with -Wl,--wrap=malloc,--wrap=realloc. */
#ifndef TEST_H
#define TEST_H

#include "gix_date.h"

#include <pthread.h>
#include <stdatomic.h>
#include <stdio.h>
#include <stdlib.h>
#include <string.h>

static atomic_size_t requests, bytes;

/* How many requests more are granted. */
static atomic_size_t granted = SIZE_MAX;

void *__real_malloc(size_t size);
void *__real_realloc(void *block, size_t size);
void *__wrap_malloc(size_t size);
void *__wrap_realloc(void *block, size_t size);

static inline void refuse_after(size_t requests_more)
{
    granted = requests_more;
}

/* Whether a request of so many bytes, which is counted, is granted. */
static inline bool is_granted(size_t size)
{
    requests++;
    bytes += size;
    if (granted == SIZE_MAX)
        return true;
    if (granted == 0)
        return false;
    granted--;
    return true;
}

void *__wrap_malloc(size_t size)
{
    return is_granted(size) ? __real_malloc(size) : NULL;
}

void *__wrap_realloc(void *block, size_t size)
{
    return is_granted(size) ? __real_realloc(block, size) : NULL;
}

/* Requests for memory, and how many bytes they ask for together. */
typedef struct demand {
    size_t requests, bytes;
} demand;

static inline demand so_far(void)
{
    return (demand){requests, bytes};
}

static atomic_int failures;

#define EXPECT(holds, ...)                                                                         \
    do {                                                                                           \
        if (!(holds)) {                                                                            \
            failures++;                                                                            \
            fprintf(stderr, "%s:%d: %s: ", __FILE__, __LINE__, #holds);                            \
            fprintf(stderr, __VA_ARGS__);                                                          \
            fputc('\n', stderr);                                                                   \
        }                                                                                          \
    } while (0)

/* A text and its length. */
#define TEXT(text) (text), strlen(text)
#define BYTES(bytes) (bytes), sizeof(bytes) - 1

/* What a call asked for since then has to be this. */
static inline void expect_demand(demand since, demand wanted, const char *call)
{
    const demand seen = {requests - since.requests, bytes - since.bytes};
    EXPECT(seen.requests == wanted.requests && seen.bytes == wanted.bytes,
           "%s makes %zu requests for %zu bytes", call, seen.requests, seen.bytes);
}

static const demand none = {0, 0};

/* What no call stores. */
static const gix_date_time untouched = {-77, -7};

static inline bool is_time(gix_date_time time, int64_t seconds, int32_t offset)
{
    return time.seconds == seconds && time.offset == offset;
}

/* Whether a call put this text at the front of a buffer full of '#', and touched no other byte. */
static inline bool holds(const char *buffer, size_t room, const char *text, size_t len)
{
    if (len != strlen(text) || len > room || memcmp(buffer, text, len) != 0)
        return false;
    for (size_t i = len; i < room; i++)
        if (buffer[i] != '#')
            return false;
    return true;
}

static inline bool is_untouched(const char *buffer, size_t room)
{
    return holds(buffer, room, "", 0);
}

/* Runs what has to ask for no memory, and sees that it did not. */
static inline void without_memory(void (*rows)(void), const char *name)
{
    size_t before = requests;
    rows();
    EXPECT(requests == before, "%s asked for memory %zu times", name, (size_t)requests - before);
}

/* Runs what sixteen threads do at once. */
static inline void in_threads(void *(*work)(void *))
{
    pthread_t all[16];
    for (int i = 0; i < 16; i++)
        if (pthread_create(&all[i], NULL, work, NULL) != 0)
            abort();
    for (int i = 0; i < 16; i++)
        pthread_join(all[i], NULL);
}

/* The zone that always has an offset. */
#define AT(offset) (&(const gix_date_zone)GIX_DATE_AT_OFFSET(offset))

/* The zone of a text, which has to name one. */
static inline gix_date_zone zone_of(const void *text, size_t len)
{
    gix_date_zone zone = GIX_DATE_AT_OFFSET(0);
    if (gix_date_zone_read(text, len, &zone) != GIX_DATE_OK)
        abort();
    return zone;
}

/* New York's zone as a rule. */
static const char new_york[] = "EST5EDT,M3.2.0,M11.1.0";

/* New York's zone as a file: version 2, the change of March 2023, and the rule. */
static const char zone_file[] = "TZif2\0\0\0\0\0\0\0\0\0\0\0\0\0\0\0\0\0\0\0\0\0\0\0\0\0\0\0\0\0\0"
                                "\0\0\0\0\1\0\0\0\4\0\0\0\0\0\0EST\0"
                                "TZif2\0\0\0\0\0\0\0\0\0\0\0\0\0\0\0\0\0\0\0\0\0\0\0\0\0\0\0\0"
                                "\0\0\1\0\0\0\2\0\0\0\x8"
                                "\0\0\0\0\x64\x0d\x78\x70\1"
                                "\xff\xff\xb9\xb0\0\0\xff\xff\xc7\xc0\1\4"
                                "EST\0EDT\0"
                                "\nEST5EDT,M3.2.0,M11.1.0\n";

#endif
