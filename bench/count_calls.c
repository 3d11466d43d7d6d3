/* Loaded before the C library: counts a program's calls that read, write, seek and sync, and writes both numbers, those of syncs last,
   into the file CALLS. Where TRACE names a file, each call on another file than the standard ones goes into it as two numbers of 64 bits: a letter for
   what it does, and what it answered (play_calls.c makes these calls again). */
#define _GNU_SOURCE
#include <dlfcn.h>
#include <stdint.h>
#include <stdio.h>
#include <stdlib.h>
#include <sys/types.h>
#include <sys/uio.h>

static long calls, syncs;
static FILE *trace;

__attribute__((constructor)) static void begin(void) {
    const char *path = getenv("TRACE");
    trace = path ? fopen(path, "w") : NULL;
}

__attribute__((destructor)) static void end(void) {
    const char *path = getenv("CALLS");
    FILE *out = path ? fopen(path, "w") : NULL;
    if (out) {
        fprintf(out, "%ld %ld\n", calls, syncs);
        fclose(out);
    }
    if (trace)
        fclose(trace);
}

static void note(int file, int64_t letter, int64_t answer) {
    int64_t call[2] = {letter, answer};
    if (trace && file > 2 && answer >= 0)
        fwrite(call, sizeof call, 1, trace);
}

#define COUNTED(counter, letter, result, name, parameters, arguments)                                                                                  \
    result name parameters {                                                                                                                           \
        result(*own) parameters = (result(*) parameters)dlsym(RTLD_NEXT, #name);                                                                       \
        counter++;                                                                                                                                     \
        result answer = own arguments;                                                                                                                 \
        note(file, letter, answer);                                                                                                                    \
        return answer;                                                                                                                                 \
    }

COUNTED(calls, 'r', ssize_t, read, (int file, void *bytes, size_t count), (file, bytes, count))
COUNTED(calls, 'w', ssize_t, write, (int file, const void *bytes, size_t count), (file, bytes, count))
COUNTED(calls, 'w', ssize_t, writev, (int file, const struct iovec *parts, int count), (file, parts, count))
COUNTED(calls, 'p', ssize_t, pread, (int file, void *bytes, size_t count, off_t from), (file, bytes, count, from))
COUNTED(calls, 'p', ssize_t, pwrite, (int file, const void *bytes, size_t count, off_t from), (file, bytes, count, from))
COUNTED(calls, 'p', ssize_t, pread64, (int file, void *bytes, size_t count, off_t from), (file, bytes, count, from))
COUNTED(calls, 'p', ssize_t, pwrite64, (int file, const void *bytes, size_t count, off_t from), (file, bytes, count, from))
COUNTED(calls, 's', off_t, lseek, (int file, off_t place, int whence), (file, place, whence))
COUNTED(calls, 's', off_t, lseek64, (int file, off_t place, int whence), (file, place, whence))
COUNTED(syncs, 'f', int, fsync, (int file), (file))
COUNTED(syncs, 'd', int, fdatasync, (int file), (file))
