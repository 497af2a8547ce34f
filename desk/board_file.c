#define _XOPEN_SOURCE 700

#include "board_file.h"

#include <errno.h>
#include <fcntl.h>
#include <libgen.h>
#include <limits.h>
#include <stdio.h>
#include <stdlib.h>
#include <string.h>
#include <sys/stat.h>
#include <unistd.h>

/* Closes a file without losing the errno of what went wrong before. */
static void close_quietly(int fd)
{
    int error = errno;
    close(fd);
    errno = error;
}

/* Waits for the lock. The file may have been replaced meanwhile: then *same is false, the lock an old table's. */
static bool lock(int fd, const char *name, bool *same)
{
    struct flock whole = {.l_type = F_WRLCK, .l_whence = SEEK_SET};
    struct stat open_file, named_file;
    while (fcntl(fd, F_SETLKW, &whole) != 0)
        if (errno != EINTR)
            return false;
    if (fstat(fd, &open_file) != 0 || stat(name, &named_file) != 0)
        return false;
    *same = open_file.st_dev == named_file.st_dev && open_file.st_ino == named_file.st_ino;
    return true;
}

static int open_locked(const char *name)
{
    for (;;) {
        bool same = false;
        int fd = open(name, O_RDWR);
        if (fd < 0)
            return -1;
        if (!lock(fd, name, &same)) {
            close_quietly(fd);
            return -1;
        }
        if (same)
            return fd;
        close(fd);
    }
}

static bool read_all(int fd, struct board_file *f)
{
    f->length = 0;
    while (f->length < sizeof f->table) {
        ssize_t n = read(fd, f->table + f->length, sizeof f->table - f->length);
        if (n < 0 && errno != EINTR)
            return false;
        if (n == 0)
            break;
        if (n > 0)
            f->length += (size_t)n;
    }
    return true;
}

bool file_read(struct board_file *f, bool for_change)
{
    int fd = for_change ? open_locked(f->name) : open(f->name, O_RDONLY);
    if (fd < 0)
        return false;
    bool done = read_all(fd, f);
    if (for_change)
        f->locked = fd;
    else
        close_quietly(fd);
    return done;
}

/* Writes the table and waits until it is on the disk. */
static bool write_all(int fd, const struct board_file *f)
{
    size_t written = 0;
    while (written < f->length) {
        ssize_t n = write(fd, f->table + written, f->length - written);
        if (n < 0 && errno != EINTR)
            return false;
        if (n > 0)
            written += (size_t)n;
    }
    return fsync(fd) == 0;
}

/* Waits until the folder is on the disk too: a new name is safe only then. */
static bool sync_folder(const char *name)
{
    char *copy = strdup(name);
    int fd = copy == NULL ? -1 : open(dirname(copy), O_RDONLY);
    free(copy);
    if (fd < 0)
        return false;
    bool done = fsync(fd) == 0;
    close_quietly(fd);
    return done;
}

/* Removes a file without losing the errno of what went wrong before. */
static void remove_quietly(const char *name)
{
    int error = errno;
    unlink(name);
    errno = error;
}

/* Writes the table to a file of its own beside the board's file, with the same permissions. */
static bool write_beside(const struct board_file *f, char *beside)
{
    struct stat old;
    int fd = mkstemp(beside);
    if (fd < 0)
        return false;
    bool done = fstat(f->locked, &old) == 0 && fchmod(fd, old.st_mode & 0777) == 0 && write_all(fd, f);
    close_quietly(fd);
    if (!done)
        remove_quietly(beside);
    return done;
}

static bool replace(const struct board_file *f, const char *name)
{
    char beside[PATH_MAX + 8];
    snprintf(beside, sizeof beside, "%s.XXXXXX", name);
    if (!write_beside(f, beside))
        return false;
    if (rename(beside, name) != 0) {
        remove_quietly(beside);
        return false;
    }
    return sync_folder(name);
}

bool file_replace(struct board_file *f)
{
    /* A name that is a link stays one: the file that it leads to is replaced. */
    char *name = realpath(f->name, NULL);
    bool done = name != NULL && replace(f, name);
    free(name);
    return done;
}

bool file_create(struct board_file *f)
{
    int fd = open(f->name, O_WRONLY | O_CREAT | O_EXCL, 0666);
    if (fd < 0)
        return false;
    bool done = write_all(fd, f);
    close_quietly(fd);
    if (!done)
        remove_quietly(f->name);
    return done && sync_folder(f->name);
}

void file_done(struct board_file *f)
{
    if (f->locked >= 0)
        close(f->locked);
    f->locked = -1;
}
