/* Loaded before the C library: the system's copies of the pages of one file, DISK_FILE, and the disk below them, as Linux has them when writing fails. The
   file itself stands for the copies: reads show it, also those of a later process. The folder DISK has what a later process finds, too:
     media   what the disk holds
     pages   a byte for each 4,096 bytes of the file: 1 if the page is dirty, 0 if it counts as clean
     errors  how often writing back failed, and whether some sync has told the last time
     calls   each call on the file, in order; a write with the whole pages that it touched
   A write makes the pages that it touches dirty as wholes, also if it writes what they have. A sync writes all eight sectors of each dirty page as reads show
   them. Where that fails, the pages count as clean all the same: reads show what was written, the disk has any of their sectors (DISK_REACHED: 0 none of them,
   1 all, else a draw), and no later sync writes them, unless they are written again. A sync fails also if writing back failed before, and its file was open
   then, or nobody was told yet.
   Each call reaches the system as well, whose failures are told.
   The call of number DISK_CALL, counted from 1, goes wrong as DISK_HOW says: `fail` with DISK_ERROR, a write after DISK_PART bytes; `short`, it moves at most
   DISK_PART bytes; `kill`, the process is killed before it; `killed`, after it; `drop`, before it the system has used the memory of
   all clean pages for something else, and reads show the disk again. */
#define _GNU_SOURCE
#include <errno.h>
#include <fcntl.h>
#include <signal.h>
#include <stdarg.h>
#include <stdio.h>
#include <stdlib.h>
#include <string.h>
#include <sys/stat.h>
#include <sys/syscall.h>
#include <unistd.h>

enum { PAGE = 4096, SECTOR = 512, HANDLES = 1024 };
enum state { CLEAN, DIRTY };
enum handle { OTHER, OURS, FOLDER };

static const char *path, *how;
static int file = -1, media, pages, errors, calls;
static long number, call, error, part, reached;
static struct { enum handle kind; long told; } handles[HANDLES];

static long given(const char *name, long otherwise) {
    const char *text = getenv(name);
    return text && *text ? atol(text) : otherwise;
}

/* Opens a file at a number that no file of the program gets. */
static int opened(const char *name, int flags) {
    int low = syscall(SYS_openat, AT_FDCWD, name, O_RDWR | O_CLOEXEC | flags, 0644);
    int high = fcntl(low, F_DUPFD_CLOEXEC, HANDLES);
    syscall(SYS_close, low);
    return high;
}

static int beside(const char *name, int flags) {
    char at[4096];
    snprintf(at, sizeof at, "%s/%s", getenv("DISK"), name);
    return opened(at, O_CREAT | flags);
}

static long get_at(int from, void *to, long size, long at) {
    return syscall(SYS_pread64, from, to, size, at);
}

static void put_at(int to, const void *from, long size, long at) {
    syscall(SYS_pwrite64, to, from, size, at);
}

__attribute__((constructor)) static void begin(void) {
    path = getenv("DISK_FILE");
    how = getenv("DISK_HOW") ? getenv("DISK_HOW") : "";
    call = given("DISK_CALL", 0);
    error = given("DISK_ERROR", EIO);
    part = given("DISK_PART", 0);
    reached = given("DISK_REACHED", 0);
    media = beside("media", 0);
    pages = beside("pages", 0);
    errors = beside("errors", 0);
    calls = beside("calls", O_APPEND | O_TRUNC);
}

static enum handle kind_of(int handle) {
    return handle >= 0 && handle < HANDLES ? handles[handle].kind : OTHER;
}

static long length(void) {
    struct stat about;
    return fstat(file, &about) ? 0 : about.st_size;
}

static enum state state_of(long page) {
    char state = CLEAN;
    get_at(pages, &state, 1, page);
    return state;
}

static void set_state(long page, enum state to) {
    char state = to;
    put_at(pages, &state, 1, page);
}

static void copy(int from, int to, long at, long size) {
    char bytes[PAGE] = {0};
    long got = get_at(from, bytes, size, at);
    if (got > 0)
        put_at(to, bytes, got, at);
}

static long failures(void) {
    long count[2] = {0, 0};
    get_at(errors, count, sizeof count, 0);
    return count[0];
}

static int was_told(void) {
    long count[2] = {0, 1};
    get_at(errors, count, sizeof count, 0);
    return count[1] != 0;
}

static void set_failures(long count, long told) {
    long both[2] = {count, told};
    put_at(errors, both, sizeof both, 0);
}

/* Whether a sector gets to the disk in a sync that fails. */
static int reaches(void) {
    static unsigned long drawn;
    drawn = (drawn + reached) * 6364136223846793005ul + 1442695040888963407ul;
    return reached > 1 ? drawn >> 63 : reached;
}

static void lose_page(long page) {
    for (long at = page * PAGE; at < (page + 1) * PAGE; at += SECTOR)
        if (reaches())
            copy(file, media, at, SECTOR);
    set_state(page, CLEAN);
}

static void write_back(int fails) {
    for (long page = 0; page * PAGE < length(); page++) {
        if (state_of(page) != DIRTY)
            continue;
        if (fails) {
            lose_page(page);
        } else {
            copy(file, media, page * PAGE, PAGE);
            set_state(page, CLEAN);
        }
    }
    if (fails)
        set_failures(failures() + 1, 0);
    else
        ftruncate(media, length());
}

static int is_how(const char *name) {
    return number == call && !strcmp(how, name);
}

static void drop_clean(void) {
    for (long page = 0; page * PAGE < length(); page++)
        if (state_of(page) == CLEAN)
            copy(media, file, page * PAGE, PAGE);
}

/* Counts a call; whether it goes wrong by itself. */
static int goes_wrong(void) {
    number++;
    if (is_how("kill"))
        kill(getpid(), SIGKILL);
    if (is_how("drop"))
        drop_clean();
    return is_how("fail") || is_how("short");
}

/* Notes a call that has ended: its number, kind, place and result, and the size of what follows, which are the bytes of the file at this place. */
static void noted(char kind, long at, long size, long result) {
    char *bytes = malloc(size + 128);
    int kept = errno, line = sprintf(bytes, "%ld %c %ld %ld %ld\n", number, kind, at, result, size);
    if (size)
        get_at(file, bytes + line, size, at);
    syscall(SYS_write, calls, bytes, line + size);
    free(bytes);
    if (is_how("killed"))
        kill(getpid(), SIGKILL);
    errno = kept;
}

static long failed(void) {
    errno = error;
    return -1;
}

static long ended(char kind, long at, long result) {
    noted(kind, at, 0, result);
    return result;
}

static long least(long one, long other) {
    return one < other ? one : other;
}

int open(const char *name, int flags, ...) {
    va_list more;
    va_start(more, flags);
    int mode = flags & O_CREAT ? va_arg(more, int) : 0;
    va_end(more);
    int is_ours = path && !strcmp(name, path);
    if (is_ours && goes_wrong())
        return ended('o', 0, failed());
    int handle = syscall(SYS_openat, AT_FDCWD, name, flags, mode);
    if (handle >= 0 && handle < HANDLES) {
        size_t folder = strlen(name);
        int is_folder = path && !strncmp(name, path, folder) && !strchr(path + folder + 1, '/') && path[folder] == '/';
        handles[handle].kind = is_ours ? OURS : is_folder ? FOLDER : OTHER;
        handles[handle].told = was_told() ? failures() : failures() - 1;
    }
    if (is_ours && handle >= 0 && file < 0)
        file = opened(path, 0);
    if (is_ours)
        noted(flags & O_CREAT ? 'c' : 'o', 0, 0, handle);
    return handle;
}

int open64(const char *name, int flags, ...) __attribute__((alias("open")));

int close(int handle) {
    enum handle kind = kind_of(handle);
    int wrong = kind == OURS && goes_wrong();
    if (kind != OTHER)
        handles[handle].kind = OTHER;
    int done = syscall(SYS_close, handle);
    return kind == OURS ? (int)ended('x', 0, wrong ? failed() : done) : done;
}

int flock(int handle, int what) {
    if (kind_of(handle) != OURS)
        return syscall(SYS_flock, handle, what);
    return ended('l', what, goes_wrong() ? failed() : syscall(SYS_flock, handle, what));
}

off_t lseek(int handle, off_t to, int from) {
    if (kind_of(handle) != OURS)
        return syscall(SYS_lseek, handle, to, from);
    return ended('k', to, goes_wrong() ? failed() : syscall(SYS_lseek, handle, to, from));
}

off_t lseek64(int handle, off_t to, int from) __attribute__((alias("lseek")));

static ssize_t get(int handle, void *to, size_t size, long at, int is_placed) {
    int wrong = goes_wrong();
    if (wrong && is_how("fail"))
        return ended('r', at, failed());
    size = wrong ? least(part, size) : size;
    return ended('r', at, is_placed ? syscall(SYS_pread64, handle, to, size, at) : syscall(SYS_read, handle, to, size));
}

ssize_t read(int handle, void *to, size_t size) {
    if (kind_of(handle) != OURS)
        return syscall(SYS_read, handle, to, size);
    return get(handle, to, size, syscall(SYS_lseek, handle, 0, SEEK_CUR), 0);
}

ssize_t pread(int handle, void *to, size_t size, off_t at) {
    if (kind_of(handle) != OURS)
        return syscall(SYS_pread64, handle, to, size, at);
    return get(handle, to, size, at, 1);
}

ssize_t pread64(int handle, void *to, size_t size, off_t at) __attribute__((alias("pread")));

/* What was written is in the pages, which are dirty now, as a whole. */
static void dirty(long at, long size, long result) {
    long first = at / PAGE, end = (at + size + PAGE - 1) / PAGE;
    for (long page = first; page < end; page++)
        set_state(page, DIRTY);
    noted('w', first * PAGE, least(end * PAGE, length()) - first * PAGE, result);
}

static ssize_t put(int handle, const void *from, size_t size, long at, int is_placed) {
    int wrong = goes_wrong();
    if (wrong)
        size = least(part, size);
    ssize_t done = is_placed ? syscall(SYS_pwrite64, handle, from, size, at) : syscall(SYS_write, handle, from, size);
    long result = wrong && is_how("fail") ? failed() : done;
    if (done > 0)
        dirty(at, done, result);
    else
        noted('w', at, 0, result);
    return result;
}

ssize_t write(int handle, const void *from, size_t size) {
    if (kind_of(handle) == OURS)
        return put(handle, from, size, syscall(SYS_lseek, handle, 0, SEEK_CUR), 0);
    ssize_t done = syscall(SYS_write, handle, from, size);
    if (handle == STDOUT_FILENO)
        ended('a', 0, done);
    return done;
}

ssize_t pwrite(int handle, const void *from, size_t size, off_t at) {
    if (kind_of(handle) != OURS)
        return syscall(SYS_pwrite64, handle, from, size, at);
    return put(handle, from, size, at, 1);
}

ssize_t pwrite64(int handle, const void *from, size_t size, off_t at) __attribute__((alias("pwrite")));

static long synced(int handle, long call_of_system) {
    int wrong = goes_wrong();
    if (wrong && error == EINTR)
        return failed();
    if (!wrong && syscall(call_of_system, handle))
        return -1;
    write_back(wrong);
    if (handles[handle].told == failures())
        return 0;
    handles[handle].told = failures();
    set_failures(failures(), 1);
    return failed();
}

int fdatasync(int handle) {
    return kind_of(handle) == OURS ? ended('s', 0, synced(handle, SYS_fdatasync)) : syscall(SYS_fdatasync, handle);
}

int fsync(int handle) {
    if (kind_of(handle) == FOLDER)
        return ended('d', 0, goes_wrong() ? failed() : syscall(SYS_fsync, handle));
    return kind_of(handle) == OURS ? ended('S', 0, synced(handle, SYS_fsync)) : syscall(SYS_fsync, handle);
}

int ftruncate(int handle, off_t length) {
    if (kind_of(handle) != OURS)
        return syscall(SYS_ftruncate, handle, length);
    return ended('t', length, goes_wrong() ? failed() : syscall(SYS_ftruncate, handle, length));
}

int ftruncate64(int handle, off_t length) __attribute__((alias("ftruncate")));

int unlink(const char *name) {
    if (!path || strcmp(name, path))
        return syscall(SYS_unlink, name);
    return ended('u', 0, goes_wrong() ? failed() : syscall(SYS_unlink, name));
}
