/* Loaded before the C library: refuses one allocation of a program, the one whose number is in REFUSED, or fails one read of its
   standard input, the one whose number is in FAILED_READ, or one write to its standard output, that in FAILED_WRITE, or one write to a
   file, sync of one or change of its length, that in FAILED_CHANGE, or the reads of files from that in FAILED_FILE_READ on, with the
   error CALL_ERROR, where 0 is a call that moves no byte; all are counted from 1. Where MOST is set, a read of standard input or a
   write to standard output moves at most this many bytes; where SLOW_WRITE is, such a write takes this many milliseconds longer. At
   its end the program's numbers of allocations, and of such reads, writes, changes and reads of files, are written into the file
   COUNTS, where that is set. */
#define _GNU_SOURCE
#include <errno.h>
#include <stdio.h>
#include <stdlib.h>
#include <sys/syscall.h>
#include <unistd.h>

/* The C library's own, under the names that glibc gives them. */
extern void *__libc_malloc(size_t), *__libc_calloc(size_t, size_t), *__libc_realloc(void *, size_t);
extern void *__libc_memalign(size_t, size_t);

static long allocations, refused, reads, failed_read, writes, failed_write, changes, failed_change, file_reads, failed_file_read, error, most, slow_write;

static long number(const char *name) {
    const char *given = getenv(name);
    return given ? atol(given) : 0;
}

__attribute__((constructor)) static void begin(void) {
    refused = number("REFUSED");
    failed_read = number("FAILED_READ");
    failed_write = number("FAILED_WRITE");
    failed_change = number("FAILED_CHANGE");
    failed_file_read = number("FAILED_FILE_READ");
    error = number("CALL_ERROR");
    most = number("MOST");
    slow_write = number("SLOW_WRITE");
    allocations = reads = writes = changes = file_reads = 0;
}

__attribute__((destructor)) static void end(void) {
    const char *path = getenv("COUNTS");
    FILE *out = path ? fopen(path, "w") : NULL;
    if (out) {
        fprintf(out, "%ld %ld %ld %ld %ld\n", allocations, reads, writes, changes, file_reads);
        fclose(out);
    }
}

static int is_refused(void) {
    if (++allocations != refused)
        return 0;
    errno = ENOMEM;
    return 1;
}

void *malloc(size_t size) {
    return is_refused() ? NULL : __libc_malloc(size);
}

void *calloc(size_t number, size_t size) {
    return is_refused() ? NULL : __libc_calloc(number, size);
}

void *realloc(void *block, size_t size) {
    return is_refused() ? NULL : __libc_realloc(block, size);
}

void *memalign(size_t alignment, size_t size) {
    return is_refused() ? NULL : __libc_memalign(alignment, size);
}

void *aligned_alloc(size_t alignment, size_t size) {
    return memalign(alignment, size);
}

int posix_memalign(void **block, size_t alignment, size_t size) {
    void *made = memalign(alignment, size);
    if (!made)
        return ENOMEM;
    *block = made;
    return 0;
}

static ssize_t failed(void) {
    errno = error;
    return error ? -1 : 0;
}

static size_t taken(size_t size) {
    return most && (size_t)most < size ? (size_t)most : size;
}

ssize_t read(int file, void *to, size_t size) {
    if (file != STDIN_FILENO)
        return ++file_reads >= failed_file_read && failed_file_read ? failed() : syscall(SYS_read, file, to, size);
    return ++reads == failed_read ? failed() : syscall(SYS_read, file, to, taken(size));
}

static int change_fails(int file) {
    return file > STDERR_FILENO && ++changes == failed_change;
}

ssize_t write(int file, const void *from, size_t size) {
    if (file != STDOUT_FILENO)
        return change_fails(file) ? failed() : syscall(SYS_write, file, from, size);
    if (slow_write)
        usleep(1000 * slow_write);
    return ++writes == failed_write ? failed() : syscall(SYS_write, file, from, taken(size));
}

int fsync(int file) {
    return change_fails(file) ? (int)failed() : (int)syscall(SYS_fsync, file);
}

int fdatasync(int file) {
    return change_fails(file) ? (int)failed() : (int)syscall(SYS_fdatasync, file);
}

int ftruncate(int file, off_t length) {
    return change_fails(file) ? (int)failed() : (int)syscall(SYS_ftruncate, file, length);
}
