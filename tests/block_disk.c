/* A disk for a loop device, in a file system of its own (libfuse3): `block_disk BEFORE BACK LOG MOUNT`. The file MOUNT/disk has the bytes of the file BACK.
   Each write and each flush of it is appended to LOG, a write with its bytes, in the order in which the disk did them: after a power cut the disk has any of
   those since the last flush. The text `fail START SIZE SKIP TIMES`, written to MOUNT/control, makes writes that touch these bytes fail with EIO, and change
   nothing: so many after so many that are done; -1 is all. The text `heal` ends all of this. */
#define FUSE_USE_VERSION 31
#define _GNU_SOURCE
#include "apart.h"
#include <errno.h>
#include <fcntl.h>
#include <fuse3/fuse.h>
#include <stdio.h>
#include <stdlib.h>
#include <string.h>
#include <sys/stat.h>
#include <unistd.h>

static const char *before;
static int back, log_file;
static struct range { long start, size, skip, times; } ranges[64];
static int bad_ranges;

static int is_disk(const char *path) {
    return !strcmp(path, "/disk");
}

static int is_control(const char *path) {
    return !strcmp(path, "/control");
}

static int about(const char *path, struct stat *to, struct fuse_file_info *file) {
    memset(to, 0, sizeof *to);
    to->st_nlink = 1;
    if (!strcmp(path, "/")) {
        to->st_mode = S_IFDIR | 0755;
    } else if (is_disk(path) || is_control(path)) {
        struct stat of_back;
        fstat(back, &of_back);
        to->st_mode = S_IFREG | 0600;
        to->st_size = is_disk(path) ? of_back.st_size : 0;
    } else {
        return -ENOENT;
    }
    return 0;
}

/* Nothing of the disk is kept by the system: each read and each write gets here. */
static int opened(const char *path, struct fuse_file_info *file) {
    file->direct_io = 1;
    return is_disk(path) || is_control(path) ? 0 : -ENOENT;
}

static int shortened(const char *path, off_t size, struct fuse_file_info *file) {
    return is_control(path) ? 0 : -EPERM;
}

static int get(const char *path, char *to, size_t size, off_t at, struct fuse_file_info *file) {
    if (!is_disk(path))
        return 0;
    ssize_t done = pread(back, to, size, at);
    return done < 0 ? -errno : done;
}

static void note(char kind, long at, long size, const char *bytes) {
    char line[64];
    int length = snprintf(line, sizeof line, "%c %ld %ld\n", kind, at, size);
    if (write(log_file, line, length) != length || write(log_file, bytes, size) != size)
        abort();
}

static int fails_in(struct range *range, long at, long size) {
    if (range->times == 0 || at + size <= range->start || range->start + range->size <= at)
        return 0;
    if (range->skip > 0) {
        range->skip--;
        return 0;
    }
    range->times--;
    return 1;
}

static int fails(long at, long size) {
    int is_failed = 0;
    for (int place = 0; place < bad_ranges; place++)
        is_failed |= fails_in(&ranges[place], at, size);
    return is_failed;
}

static int told(const char *text) {
    if (!strncmp(text, "heal", 4)) {
        bad_ranges = 0;
        return 1;
    }
    struct range *next = &ranges[bad_ranges];
    if (bad_ranges == 64 || sscanf(text, "fail %ld %ld %ld %ld", &next->start, &next->size, &next->skip, &next->times) != 4)
        return 0;
    bad_ranges++;
    return 1;
}

static int put(const char *path, const char *from, size_t size, off_t at, struct fuse_file_info *file) {
    if (is_control(path)) {
        char text[128] = {0};
        memcpy(text, from, size < sizeof text ? size : sizeof text - 1);
        return told(text) ? (int)size : -EINVAL;
    }
    if (fails(at, size)) {
        note('x', at, 0, "");
        return -EIO;
    }
    ssize_t done = pwrite(back, from, size, at);
    note('w', at, done, from);
    return done;
}

static int flushed(const char *path, int is_data, struct fuse_file_info *file) {
    if (is_disk(path))
        note('f', 0, 0, "");
    return 0;
}

static void *begun(struct fuse_conn_info *connection, struct fuse_config *settings) {
    leave_mounts(before);
    return NULL;
}

static const struct fuse_operations calls = {
    .init = begun, .getattr = about, .open = opened, .truncate = shortened, .read = get, .write = put, .fsync = flushed,
};

int main(int count, char **words) {
    if (count != 5)
        return 2;
    end_with_parent();
    before = words[1];
    back = open(words[2], O_RDWR);
    log_file = open(words[3], O_WRONLY | O_CREAT | O_APPEND, 0644);
    if (back < 0 || log_file < 0)
        return 2;
    char *settings[] = {words[0], "-f", "-s", words[4], NULL};
    return fuse_main(4, settings, &calls, NULL);
}
