/* Finds zones by the texts of TZ and TZDIR: reads their files, which the proved calls ask no system for. */
#include "gix_date.h"

#include <errno.h>
#include <fcntl.h>
#include <limits.h>
#include <stdlib.h>
#include <string.h>
#include <sys/stat.h>
#include <unistd.h>

/* Whether a file may be read as a zone. A pipe or a device might never end, and neither might a file of the kernel, which says
 * that it has no byte. */
static bool may_be_zone(const struct stat *file)
{
    return S_ISREG(file->st_mode) && file->st_size > 0 && file->st_size <= GIX_DATE_MAX_ZONE_FILE;
}

/* Opens a file that may be read as a zone, or answers -1. To open a device may already change it. By the second look the path
 * may mean another file; where that is a pipe, nothing waits. */
static int open_zone_file(const char *path)
{
    struct stat found;
    if (stat(path, &found) || !may_be_zone(&found))
        return -1;
    const int file = open(path, O_RDONLY | O_NONBLOCK | O_NOCTTY | O_CLOEXEC);
    if (file >= 0 && (fstat(file, &found) || !may_be_zone(&found))) {
        close(file);
        return -1;
    }
    return file;
}

/* Whether there is no file of a path. */
static bool is_missing(const char *path)
{
    struct stat found;
    return stat(path, &found) && (errno == ENOENT || errno == ENOTDIR || errno == ELOOP || errno == ENAMETOOLONG);
}

/* Reads to the end of a file, at most so many bytes: none where that fails. */
static size_t read_bytes(int file, char *bytes, size_t room)
{
    size_t len = 0;
    ssize_t more = 1;
    while (len < room && more > 0) {
        more = read(file, bytes + len, room - len);
        len += more > 0 ? (size_t)more : 0;
    }
    return more < 0 ? 0 : len;
}

uint32_t gix_date_zone_file(const char *path, void *bytes, size_t bytes_len, size_t *len)
{
    const int file = open_zone_file(path);
    *len = 0;
    if (file < 0)
        return is_missing(path) ? GIX_DATE_OK : GIX_DATE_INVALID_ZONE;
    const size_t found = read_bytes(file, (char *)bytes, bytes_len);
    close(file);
    if (found == 0 || found > GIX_DATE_MAX_ZONE_FILE)
        return GIX_DATE_INVALID_ZONE;
    *len = found;
    return GIX_DATE_OK;
}

/* The zone of a value of TZ and of the file of a path. */
static uint32_t named_by_file(const char *tz, const char *path, gix_date_zone *zone)
{
    size_t len;
    void *file = malloc(GIX_DATE_ZONE_FILE_ROOM);
    if (!file)
        return GIX_DATE_OUT_OF_MEMORY;
    uint32_t status = gix_date_zone_file(path, file, GIX_DATE_ZONE_FILE_ROOM, &len);
    if (status == GIX_DATE_OK)
        status = gix_date_zone_named(tz, strlen(tz), file, len, zone);
    free(file);
    return status;
}

uint32_t gix_date_zone_find(const char *tz, const char *tzdir, gix_date_zone *zone)
{
    char path[PATH_MAX];
    size_t len;
    const char *text = tz ? tz : GIX_DATE_MACHINE_ZONE, *folder = tzdir ? tzdir : "";
    const uint32_t status = gix_date_zone_path(text, strlen(text), folder, strlen(folder), path, sizeof path - 1, &len);
    if (status == GIX_DATE_OK && len > 0) {
        path[len] = '\0';
        return named_by_file(text, path, zone);
    }
    /* No system has a file of a path that has no room. */
    if (status == GIX_DATE_OK || status == GIX_DATE_NO_ROOM)
        return gix_date_zone_named(text, strlen(text), NULL, 0, zone);
    return status;
}
