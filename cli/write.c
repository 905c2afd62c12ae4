/* cli/write.c: what the command `gvrs` writes: bytes, names that are on the disk, and new files. */
#define _DEFAULT_SOURCE
#define _XOPEN_SOURCE 700
#include <errno.h>
#include <fcntl.h>
#include <signal.h>
#include <stdlib.h>
#include <string.h>
#include <sys/stat.h>
#include <unistd.h>
#include "cli.h"

int write_bytes(int stream, const uint8_t *bytes, uint64_t n) {
    for (uint64_t at = 0; at < n;) {
        ssize_t put = write(stream, bytes + at, n - at);
        if (put < 0 && errno != EINTR)
            return -1;
        at += put < 0 ? 0 : (uint64_t)put;
    }
    return 0;
}

int settle(const char *folder) {
    int stream = open(folder, O_RDONLY | O_DIRECTORY | O_CLOEXEC);
    int settled = stream >= 0 && fsync(stream) == 0;
    int reason = errno;
    if (stream >= 0)
        close(stream);
    errno = reason;
    return settled ? 0 : -1;
}

char *beside(const char *path) {
    static const char COPY[] = ".gvrs-XXXXXX";
    const char *slash = strrchr(path, '/');
    size_t n = slash == NULL ? 0 : (size_t)(slash - path) + 1;
    char *name = malloc(n + sizeof COPY);
    if (name != NULL) {
        memcpy(name, path, n);
        memcpy(name + n, COPY, sizeof COPY);
    }
    return name;
}

char *folder_of(char *beside) {
    char *slash = strrchr(beside, '/');
    if (slash == NULL)
        return strcpy(beside, ".");
    slash[slash == beside ? 1 : 0] = '\0';
    return beside;
}

/* A file that has no name of its own yet gets the name, unless another has it. */
static int name_copy(const char *copy, const char *name) {
    if (link(copy, name) == 0)
        return DONE;
    return errno == EEXIST ? failed("%s: there is such a file already, and it stays as it is", name) : failed("%s: %s", name, strerror(errno));
}

static int write_copy(char *copy, const char *name, const uint8_t *bytes, uint64_t n) {
    mode_t mask = umask(0);
    umask(mask);
    int stream = mkstemp(copy);
    if (stream < 0)
        return failed("%s: it cannot be written: %s", name, strerror(errno));
    int status = DONE;
    if (fchmod(stream, 0666 & ~mask) != 0 || write_bytes(stream, bytes, n) != 0 || fsync(stream) != 0)
        status = failed("%s: it cannot be written: %s", name, strerror(errno));
    close(stream);
    if (status == DONE)
        status = name_copy(copy, name);
    unlink(copy);
    return status;
}

int write_new(const char *name, const uint8_t *bytes, uint64_t n) {
    sigset_t signals, before;
    char *copy = beside(name);
    if (copy == NULL)
        return failed("%s: %s", name, strerror(errno));
    sigfillset(&signals);
    sigprocmask(SIG_BLOCK, &signals, &before);
    signal(SIGXFSZ, SIG_IGN);
    int status = write_copy(copy, name, bytes, n);
    if (status == DONE && settle(folder_of(copy)) != 0)
        status = failed("%s: written, but perhaps not on the disk yet: %s", name, strerror(errno));
    free(copy);
    sigprocmask(SIG_SETMASK, &before, NULL);
    return status;
}
