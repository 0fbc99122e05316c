#include "files.h"

#include <errno.h>
#include <fcntl.h>
#include <limits.h>
#include <stdio.h>
#include <string.h>
#include <unistd.h>

static int name_with(const char *name, const char *ending, char longer[PATH_MAX]) {
    int length = snprintf(longer, PATH_MAX, "%s%s", name, ending);
    errno = ENAMETOOLONG;
    return length < PATH_MAX;
}

/* The lock is on a file of its own, because replacing a file takes the locks on it away. It stays open: closing it
 * would unlock it. */
int lock_file(const char *name) {
    char lock_name[PATH_MAX];
    struct flock whole = {.l_type = F_WRLCK, .l_whence = SEEK_SET};
    if (!name_with(name, ".lock", lock_name))
        return 0;
    int file = open(lock_name, O_WRONLY | O_CREAT | O_NOFOLLOW | O_CLOEXEC, 0600);
    if (file < 0)
        return 0;
    int locked = fcntl(file, F_SETLK, &whole) == 0;
    if (!locked && errno == EACCES) /* POSIX allows either number for a lock that another program holds */
        errno = EAGAIN;
    return locked;
}

int read_file(const char *name, char *octets, size_t room, size_t *length) {
    FILE *file = fopen(name, "rb");
    if (file == NULL)
        return 0;
    *length = fread(octets, 1, room - 1, file);
    octets[*length] = '\0';
    int error = ferror(file) ? errno : 0;
    fclose(file);
    errno = error;
    return error == 0;
}

static int write_file(const char *name, const char *octets, size_t length) {
    int file = open(name, O_WRONLY | O_CREAT | O_TRUNC | O_NOFOLLOW | O_CLOEXEC, 0600);
    if (file < 0)
        return 0;
    errno = ENOSPC; /* what a write that is too short means */
    int whole = write(file, octets, length) == (ssize_t)length && fsync(file) == 0;
    int error = errno;
    close(file);
    errno = error;
    return whole;
}

/* So that the new name is kept where the machine loses power, and not the octets alone. */
static int sync_folder_of(const char *name) {
    char folder[PATH_MAX] = ".";
    const char *slash = strrchr(name, '/');
    if (slash != NULL)
        snprintf(folder, sizeof folder, "%.*s", (int)(slash - name) + 1, name);
    int opened = open(folder, O_RDONLY | O_DIRECTORY | O_CLOEXEC);
    if (opened < 0)
        return 0;
    int synced = fsync(opened) == 0;
    int error = errno;
    close(opened);
    errno = error;
    return synced;
}

int replace_file(const char *name, const char *octets, size_t length) {
    char new_name[PATH_MAX];
    return name_with(name, ".new", new_name) && write_file(new_name, octets, length) && rename(new_name, name) == 0 &&
           sync_folder_of(name);
}
