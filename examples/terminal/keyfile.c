#include <errno.h>
#include <fcntl.h>
#include <stdio.h>
#include <string.h>
#include <sys/mman.h>
#include <sys/sendfile.h>
#include <sys/stat.h>
#include <unistd.h>

#include "keyfile.h"

/* What is wrong with a file that is open, or NULL. */
static const char *fault_of(const struct stat *status)
{
    if (!S_ISREG(status->st_mode)) {
        return "is no file";
    }
    if (status->st_uid != geteuid() && status->st_uid != 0) {
        return "belongs to another user";
    }
    if (status->st_mode & (S_IRWXG | S_IRWXO)) {
        return "can be read by others: chmod 600 it";
    }
    return status->st_size > KEYS_FILE ? "is too long" : NULL;
}

/* Copies a file from kernel to kernel. -1 with errno: it cannot be copied. */
static int copy_of(int file, size_t length)
{
    enum {
        SEALS = F_SEAL_SEAL | F_SEAL_SHRINK | F_SEAL_GROW | F_SEAL_WRITE
    };
    int copy = memfd_create("keys", MFD_CLOEXEC | MFD_ALLOW_SEALING);
    ssize_t many = 1;
    for (size_t done = 0; copy >= 0 && done < length && many > 0; done += many > 0 ? (size_t)many : 0) {
        many = sendfile(copy, file, NULL, length - done);
    }
    if (copy >= 0 && (many < 0 || lseek(copy, 0, SEEK_SET) != 0 || fcntl(copy, F_ADD_SEALS, SEALS) != 0)) {
        int error = errno;
        close(copy);
        errno = error;
        return -1;
    }
    return copy;
}

int keyfile_copy(const char *path, char error[KEYS_ERROR])
{
    struct stat status;
    int copy = -1;
    const char *fault = NULL;
    /* A FIFO without a writer would be waited for. */
    int file = open(path, O_RDONLY | O_CLOEXEC | O_NONBLOCK | O_NOCTTY);
    if (file >= 0 && fstat(file, &status) == 0) {
        fault = fault_of(&status);
        copy = fault == NULL ? copy_of(file, (size_t)status.st_size) : -1;
    }
    if (fault != NULL) {
        snprintf(error, KEYS_ERROR, "%s %s", path, fault);
    } else if (copy < 0) {
        snprintf(error, KEYS_ERROR, "%s cannot be read: %s", path, strerror(errno));
    }
    if (file >= 0) {
        close(file);
    }
    return copy;
}
