/* tests/command/locks.c: a flock that is put before the system's by LD_PRELOAD. As on NFS, it fails with EBADF where a file is not open
   for writing. LOCK_ERROR is the number of an error, with which every lock then fails; LOCK_AFTER a command, which is run between the
   opening of the file and its first lock. */
#define _GNU_SOURCE
#include <errno.h>
#include <fcntl.h>
#include <stdlib.h>
#include <sys/file.h>
#include <sys/syscall.h>
#include <unistd.h>

static void run_command(void) {
    char *command = getenv("LOCK_AFTER");
    if (command == NULL)
        return;
    unsetenv("LD_PRELOAD");
    if (system(command) != 0)
        abort();
    unsetenv("LOCK_AFTER");
}

int flock(int stream, int operation) {
    const char *error = getenv("LOCK_ERROR");
    run_command();
    errno = error != NULL ? atoi(error) : (fcntl(stream, F_GETFL) & O_ACCMODE) == O_RDONLY ? EBADF : 0;
    return errno != 0 ? -1 : (int)syscall(SYS_flock, stream, operation);
}
