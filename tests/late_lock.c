/* Loaded before the C library. With LATE_LOCK the program has its file open for some time before it asks for the lock: it makes the file LATE_OPENED once it would
   ask, and waits until there is a file LATE_LOCK. With LATE_SYNC it has the lock for some time: it waits before each sync until there is a file LATE_SYNC. */
#define _GNU_SOURCE
#include <dlfcn.h>
#include <fcntl.h>
#include <stdlib.h>
#include <unistd.h>

static void wait_for(const char *name) {
    const char *path = getenv(name);
    while (path && access(path, F_OK))
        usleep(1000);
}

int flock(int file, int what) {
    int (*lock)(int, int) = dlsym(RTLD_NEXT, "flock");
    if (getenv("LATE_OPENED"))
        close(open(getenv("LATE_OPENED"), O_CREAT | O_WRONLY, 0600));
    wait_for("LATE_LOCK");
    return lock(file, what);
}

int fsync(int file) {
    int (*sync)(int) = dlsym(RTLD_NEXT, "fsync");
    wait_for("LATE_SYNC");
    return sync(file);
}

int fdatasync(int file) {
    int (*sync)(int) = dlsym(RTLD_NEXT, "fdatasync");
    wait_for("LATE_SYNC");
    return sync(file);
}
