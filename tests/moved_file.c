/* Loaded before the C library: when a program syncs a file or sets the length of one for the MOVE_AT-th time, another file, MOVED, has just been moved to the
   path MOVE_TO. From the MOVE_FAILS-th of these calls on, each fails. */
#define _GNU_SOURCE
#include <dlfcn.h>
#include <errno.h>
#include <stdio.h>
#include <stdlib.h>
#include <unistd.h>

static int calls = 0;

/* Counts a call, and says whether it fails. */
static int fails(void) {
    calls++;
    if (calls == atoi(getenv("MOVE_AT")) && rename(getenv("MOVED"), getenv("MOVE_TO")))
        abort();
    errno = EIO;
    return calls >= atoi(getenv("MOVE_FAILS"));
}

int fsync(int file) {
    int (*call)(int) = dlsym(RTLD_NEXT, "fsync");
    return fails() ? -1 : call(file);
}

int fdatasync(int file) {
    int (*call)(int) = dlsym(RTLD_NEXT, "fdatasync");
    return fails() ? -1 : call(file);
}

int ftruncate(int file, off_t length) {
    int (*call)(int, off_t) = dlsym(RTLD_NEXT, "ftruncate");
    return fails() ? -1 : call(file, length);
}

int ftruncate64(int file, off64_t length) {
    int (*call)(int, off64_t) = dlsym(RTLD_NEXT, "ftruncate64");
    return fails() ? -1 : call(file, length);
}
