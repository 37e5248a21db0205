#include <errno.h>
#include <fcntl.h>
#include <libgen.h>
#include <limits.h>
#include <stdbool.h>
#include <stdint.h>
#include <stdio.h>
#include <string.h>
#include <sys/stat.h>
#include <unistd.h>

#include "fail.h"
#include "file.h"

/* ---- The lock: a record lock on the whole file. It goes when any descriptor of this process to the file is closed, so
 * the file is read and held by one. */

static bool lock(int file)
{
    struct flock whole = {.l_type = F_WRLCK, .l_whence = SEEK_SET};
    return fcntl(file, F_SETLK, &whole) == 0;
}

/* Ends the program: somebody holds the lock. */
static _Noreturn void fail_in_use(const char *path, int file)
{
    struct flock whole = {.l_type = F_WRLCK, .l_whence = SEEK_SET};
    if (fcntl(file, F_GETLK, &whole) == 0 && whole.l_type != F_UNLCK && whole.l_pid > 0) {
        fail("%s: in use by process %d", path, (int)whole.l_pid);
    }
    fail("%s: in use by another process", path);
}

/* Whether the file is still the one that the path names: another process may have renamed one over it. */
static bool still_at(const char *path, int file)
{
    struct stat held, named;
    return fstat(file, &held) == 0 && stat(path, &named) == 0 && held.st_dev == named.st_dev &&
           held.st_ino == named.st_ino;
}

/* Opens and locks the file. -1: there is none. */
static int open_locked(const char *path, int flags)
{
    for (;;) {
        int file = open(path, O_RDWR | O_CLOEXEC | flags);
        if (file < 0 && errno == ENOENT) {
            return -1;
        }
        if (file < 0) {
            fail("%s cannot be read: %s", path, strerror(errno));
        }
        if (!lock(file)) {
            fail_in_use(path, file);
        }
        if (still_at(path, file)) {
            return file;
        }
        close(file);
    }
}

void file_open(struct file *f, const char *path, int flags)
{
    *f = (struct file){.path = path, .flags = flags, .descriptor = open_locked(path, flags)};
}

bool file_is_there(const struct file *f)
{
    return still_at(f->path, f->descriptor);
}

/* ---- Reading */

size_t file_read(const struct file *f, void *bytes, size_t room)
{
    size_t done = 0;
    while (done < room) {
        ssize_t many = read(f->descriptor, (uint8_t *)bytes + done, room - done);
        if (many < 0 && errno != EINTR) {
            fail("%s cannot be read: %s", f->path, strerror(errno));
        }
        if (many == 0) {
            break;
        }
        done += many > 0 ? (size_t)many : 0;
    }
    return done;
}

/* ---- Writing */

static bool write_all(int file, const void *bytes, size_t length)
{
    for (size_t done = 0; done < length;) {
        ssize_t many = write(file, (const uint8_t *)bytes + done, length - done);
        if (many < 0 && errno != EINTR) {
            return false;
        }
        done += many > 0 ? (size_t)many : 0;
    }
    return true;
}

/* Makes a new name in the folder of `path` last. */
static bool sync_folder(const char *path)
{
    char copy[PATH_MAX];
    snprintf(copy, sizeof copy, "%s", path);
    int folder = open(dirname(copy), O_RDONLY | O_DIRECTORY | O_CLOEXEC);
    bool synced = folder >= 0 && fsync(folder) == 0;
    return folder >= 0 && close(folder) == 0 && synced;
}

/* A file of this name was left by a program that died while it stored. Where this program has no lock yet, another may
 * be making the file at this moment. */
static void remove_stale(const struct file *f, const char *next)
{
    struct stat found;
    if (lstat(next, &found) != 0 || found.st_uid != geteuid()) {
        /* It is somebody else's. */
        return;
    }
    if (f->descriptor < 0) {
        int file = open(next, O_RDWR | O_NOFOLLOW | O_CLOEXEC);
        if (file >= 0 && !lock(file)) {
            fail_in_use(f->path, file);
        }
        if (file >= 0) {
            close(file);
        }
    }
    unlink(next);
}

static int create(const struct file *f, const char *next)
{
    enum {
        FLAGS = O_RDWR | O_CREAT | O_EXCL | O_NOFOLLOW | O_CLOEXEC
    };
    int file = open(next, FLAGS | f->flags, 0600);
    if (file < 0 && errno == EEXIST) {
        remove_stale(f, next);
        file = open(next, FLAGS | f->flags, 0600);
    }
    return file;
}

/* The new file takes the path: over the old one, or where there was none, only if there is still none. Where there is no
 * lock yet another process may have put its own file instead of the new one. */
static bool put_in_place(const struct file *f, const char *next, int file)
{
    if (renameat2(AT_FDCWD, next, AT_FDCWD, f->path, f->descriptor < 0 ? RENAME_NOREPLACE : 0) != 0) {
        return false;
    }
    bool ours = f->descriptor >= 0 || still_at(f->path, file);
    errno = ours ? 0 : EBUSY;
    return ours;
}

/* Gives the new file, locked. -1: the old one is there as before, or the new one, whole. */
static int replace(const struct file *f, const void *bytes, size_t length)
{
    char next[PATH_MAX];
    if ((size_t)snprintf(next, sizeof next, "%s.new", f->path) >= sizeof next) {
        errno = ENAMETOOLONG;
        return -1;
    }
    int file = create(f, next);
    if (file < 0) {
        return -1;
    }
    if (lock(file) && write_all(file, bytes, length) && fsync(file) == 0 && put_in_place(f, next, file)) {
        return sync_folder(f->path) ? file : -1;
    }
    int error = errno;
    if (still_at(next, file)) {
        unlink(next);
    }
    errno = error;
    return -1;
}

bool file_put(struct file *f, const void *bytes, size_t length)
{
    int file = replace(f, bytes, length);
    if (file < 0) {
        return false;
    }
    /* Only now the old file, and with it the old lock, is let go. */
    if (f->descriptor >= 0) {
        close(f->descriptor);
    }
    f->descriptor = file;
    return true;
}

void file_replace(struct file *f, const void *bytes, size_t length)
{
    if (!file_put(f, bytes, length)) {
        fail("%s cannot be written: %s", f->path, strerror(errno));
    }
}

bool file_append(const struct file *f, const void *bytes, size_t length)
{
    return write_all(f->descriptor, bytes, length);
}
