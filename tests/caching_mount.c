/* Shows one folder at another place (libfuse3): `caching_mount BEFORE FOLDER WRITES MOUNT`. The system keeps the pages that it has read through this mount
   until the file is opened again, as it does over NFS, and is not told when the file is written through another mount: so two mounts of one folder stand for
   two machines over one file system. Where WRITES is `back`, the system writes to the folder only when it is told to sync or the file is closed, and by whole
   pages; where it is `through`, at once. Locks (flock) are those of the files below, so each mount knows those of the other. */
#define FUSE_USE_VERSION 31
#define _GNU_SOURCE
#include "apart.h"
#include <errno.h>
#include <fcntl.h>
#include <fuse3/fuse.h>
#include <stdio.h>
#include <string.h>
#include <sys/file.h>
#include <unistd.h>

static const char *before;
static int folder, writes_back;

static int done(long result) {
    return result < 0 ? -errno : (int)result;
}

/* A path from the folder on. */
static const char *below(const char *path) {
    return path[1] ? path + 1 : ".";
}

static int about(const char *path, struct stat *to, struct fuse_file_info *file) {
    return done(fstatat(folder, below(path), to, AT_SYMLINK_NOFOLLOW));
}

/* To write a part of a page the system reads it. */
static int opened(const char *path, struct fuse_file_info *file) {
    int flags = file->flags & ~O_CREAT & ~O_EXCL;
    if ((flags & O_ACCMODE) == O_WRONLY)
        flags = (flags & ~O_ACCMODE) | O_RDWR;
    int handle = openat(folder, below(path), flags);
    file->fh = handle;
    return handle < 0 ? -errno : 0;
}

static int created(const char *path, mode_t mode, struct fuse_file_info *file) {
    int handle = openat(folder, below(path), file->flags | O_CREAT, mode);
    file->fh = handle;
    return handle < 0 ? -errno : 0;
}

static int closed(const char *path, struct fuse_file_info *file) {
    return done(close(file->fh));
}

static int get(const char *path, char *to, size_t size, off_t at, struct fuse_file_info *file) {
    return done(pread(file->fh, to, size, at));
}

static int put(const char *path, const char *from, size_t size, off_t at, struct fuse_file_info *file) {
    return done(pwrite(file->fh, from, size, at));
}

static int shortened(const char *path, off_t size, struct fuse_file_info *file) {
    return done(file ? ftruncate(file->fh, size) : -1);
}

static int synced(const char *path, int is_data, struct fuse_file_info *file) {
    return done(is_data ? fdatasync(file->fh) : fsync(file->fh));
}

static int locked(const char *path, struct fuse_file_info *file, int what) {
    return done(flock(file->fh, what));
}

static int dated(const char *path, const struct timespec times[2], struct fuse_file_info *file) {
    return done(utimensat(folder, below(path), times, 0));
}

static int removed(const char *path) {
    return done(unlinkat(folder, below(path), 0));
}

static void *begun(struct fuse_conn_info *connection, struct fuse_config *settings) {
    settings->attr_timeout = settings->entry_timeout = settings->ac_attr_timeout = 3600;
    leave_mounts(before);
    connection->want &= ~FUSE_CAP_AUTO_INVAL_DATA;
    if (writes_back)
        connection->want |= FUSE_CAP_WRITEBACK_CACHE;
    return NULL;
}

static const struct fuse_operations calls = {
    .init = begun, .getattr = about, .open = opened, .create = created, .release = closed, .read = get, .write = put, .truncate = shortened,
    .fsync = synced, .flock = locked, .utimens = dated, .unlink = removed,
};

int main(int count, char **words) {
    if (count != 5)
        return 2;
    end_with_parent();
    before = words[1];
    folder = open(words[2], O_RDONLY | O_DIRECTORY);
    if (folder < 0)
        return 2;
    writes_back = !strcmp(words[3], "back");
    char *settings[] = {words[0], "-f", "-s", words[4], NULL};
    return fuse_main(4, settings, &calls, NULL);
}
