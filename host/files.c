#define _DEFAULT_SOURCE
#include "files.h"

#include <errno.h>
#include <fcntl.h>
#include <stdio.h>
#include <stdlib.h>
#include <string.h>
#include <sys/stat.h>
#include <unistd.h>

/* A device may have no end: reading gives up here, far past any core. */
enum { READ_MOST = 64 << 20 };

static const char *read_all(int file, uint8_t *bytes, size_t room, size_t *length)
{
    uint8_t spare[4096];

    for (*length = 0; *length <= READ_MOST;) {
        int kept = *length < room;
        ssize_t got = kept ? read(file, bytes + *length, room - *length)
                           : read(file, spare, sizeof spare);
        if (got == 0)
            return NULL;
        if (got < 0)
            return strerror(errno);
        *length += (size_t)got;
    }
    return "over 64 MiB, and not read to its end";
}

const char *file_read(const char *name, uint8_t *bytes, size_t room, size_t *length)
{
    int file = open(name, O_RDONLY | O_NOCTTY);
    const char *why;

    if (file < 0)
        return strerror(errno);
    why = read_all(file, bytes, room, length);
    close(file);
    return why;
}

static int write_all(int file, const uint8_t *bytes, size_t length)
{
    while (length > 0) {
        ssize_t put = write(file, bytes, length);
        if (put < 0 && errno == EINTR)
            continue;
        if (put < 0)
            return -1;
        bytes += put;
        length -= (size_t)put;
    }
    return fsync(file);
}

/* The rights of the file that is replaced, or those of any new file. */
static mode_t rights_for(const char *name)
{
    struct stat at;
    mode_t mask;

    if (stat(name, &at) == 0)
        return at.st_mode & 0777;
    mask = umask(0);
    umask(mask);
    return 0666 & ~mask;
}

static const char *write_beside(const char *name, char *beside, const uint8_t *bytes, size_t length)
{
    int file = mkstemp(beside);
    int bad = 0;

    if (file < 0)
        return strerror(errno);
    if (write_all(file, bytes, length) || fchmod(file, rights_for(name)))
        bad = errno;
    if (close(file) && !bad)
        bad = errno;
    if (!bad && rename(beside, name))
        bad = errno;
    if (!bad)
        return NULL;
    unlink(beside);
    return strerror(bad);
}

const char *file_write(const char *name, const uint8_t *bytes, size_t length)
{
    struct stat at;
    size_t room = strlen(name) + sizeof ".XXXXXX";
    char *beside;
    const char *why;

    if (stat(name, &at) == 0 && !S_ISREG(at.st_mode))
        return "not a plain file";
    beside = malloc(room);
    if (!beside)
        return strerror(ENOMEM);
    snprintf(beside, room, "%s.XXXXXX", name);
    why = write_beside(name, beside, bytes, length);
    free(beside);
    return why;
}

int file_is_there(const char *name)
{
    struct stat at;

    return lstat(name, &at) == 0;
}
