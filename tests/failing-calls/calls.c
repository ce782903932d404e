/* Preloaded by `run` into the program under test: counts the calls that it makes of one of its parts, makes the one of a
   number fail, or that one and all behind it, and notes what the disks were told to do. A write that fails has done half of
   its work. A call moves at most a number of bytes, where one is given. Where a byte of the log is named, reads behind a
   number of them give it changed; how many there were is noted at the end. */
#define _GNU_SOURCE
#include <errno.h>
#include <fcntl.h>
#include <stdarg.h>
#include <stdint.h>
#include <stdio.h>
#include <stdlib.h>
#include <string.h>
#include <sys/stat.h>
#include <sys/syscall.h>
#include <time.h>
#include <unistd.h>

enum { FILES = 64 };

/* What a file is a part of: i(nput), o(utput), d(isk), r(epositories), a(uthority); the clock is c. */
static char parts[FILES] = {'i', 'o'};
static int is_second[FILES];
static char part;
static long number, seen;
static size_t piece;
static int is_fuse, trace = -1;
static long changed = -1, reads, reads_as_kept;
static unsigned char change;

static void start(void) __attribute__((constructor));
static void start(void) {
    part = *getenv("FAILING_PART");
    number = atol(getenv("FAILING_CALL"));
    is_fuse = getenv("FAILING_FUSE") != NULL;
    piece = getenv("FAILING_PIECE") ? atol(getenv("FAILING_PIECE")) : SIZE_MAX;
    trace = syscall(SYS_openat, AT_FDCWD, getenv("FAILING_TRACE"), O_WRONLY | O_CREAT | O_APPEND, 0600);
    if (getenv("FAILING_CHANGED") == NULL) return;
    changed = atol(getenv("FAILING_CHANGED"));
    change = atoi(getenv("FAILING_CHANGE"));
    reads_as_kept = atol(getenv("FAILING_READS"));
}

static void end(void) __attribute__((destructor));
static void end(void) {
    char line[64];
    if (changed >= 0) syscall(SYS_write, trace, line, snprintf(line, sizeof line, "reads %ld\n", reads));
}

static int fails_of(char of) {
    if (of == 0 || of != part) return 0;
    seen++;
    if (seen != number && !(is_fuse && seen > number)) return 0;
    syscall(SYS_write, trace, "fail\n", 5);
    errno = EIO;
    return 1;
}

static int fails(int file) { return fails_of(file >= 0 && file < FILES ? parts[file] : 0); }

static size_t part_of(size_t count) { return count < piece ? count : piece; }

static int is_at_end(const char *path, const char *end) {
    size_t length = strlen(path), size = strlen(end);
    return length >= size && !strcmp(path + length - size, end);
}

static char part_at(const char *path) {
    if (is_at_end(path, "/log") || is_at_end(path, "/log.2")) return 'd';
    if (is_at_end(path, "/plc.1") || is_at_end(path, "/web.1")) return 'a';
    return is_at_end(path, ".car") ? 'r' : 0;
}

/* Notes a call of a disk: which one, where, and the bytes in hexadecimal. */
static void note(int file, const char *call, long place, const unsigned char *bytes, size_t count) {
    if (file < 0 || file >= FILES || parts[file] != 'd') return;
    size_t room = 64 + 2 * count;
    char *line = malloc(room);
    int length = snprintf(line, room, "%s %s %ld ", is_second[file] ? "log.2" : "log", call, place);
    for (size_t i = 0; i < count; i++) length += snprintf(line + length, room - length, "%02x", bytes[i]);
    line[length++] = '\n';
    syscall(SYS_write, trace, line, length);
    free(line);
}

static int opened(const char *path, int flags, int mode) {
    char of = part_at(path);
    if (fails_of(of)) return -1;
    int file = syscall(SYS_openat, AT_FDCWD, path, flags, mode);
    if (file >= 0 && file < FILES) {
        parts[file] = of;
        is_second[file] = is_at_end(path, ".2");
    }
    return file;
}

int open(const char *path, int flags, ...) {
    va_list more;
    va_start(more, flags);
    int mode = va_arg(more, int);
    va_end(more);
    return opened(path, flags, mode);
}

int open64(const char *path, int flags, ...) {
    va_list more;
    va_start(more, flags);
    int mode = va_arg(more, int);
    va_end(more);
    return opened(path, flags, mode);
}

int close(int file) {
    if (file >= 0 && file < FILES) parts[file] = 0;
    return syscall(SYS_close, file);
}

ssize_t read(int file, void *room, size_t count) { return fails(file) ? -1 : syscall(SYS_read, file, room, part_of(count)); }

ssize_t pread(int file, void *room, size_t count, off_t place) {
    if (fails(file)) return -1;
    ssize_t done = syscall(SYS_pread64, file, room, part_of(count), place);
    if (file < 0 || file >= FILES || parts[file] != 'd' || is_second[file]) return done;
    if (++reads > reads_as_kept && changed >= place && changed < place + done) ((unsigned char *)room)[changed - place] ^= change;
    return done;
}

ssize_t pread64(int file, void *room, size_t count, off_t place) { return pread(file, room, count, place); }

ssize_t write(int file, const void *bytes, size_t count) {
    return fails(file) ? -1 : syscall(SYS_write, file, bytes, part_of(count));
}

ssize_t pwrite(int file, const void *bytes, size_t count, off_t place) {
    int is_failing = fails(file);
    if (is_failing && seen != number) return -1;
    count = is_failing ? count / 2 : count;
    count = part_of(count);
    ssize_t done = syscall(SYS_pwrite64, file, bytes, count, place);
    if (done >= 0) note(file, "write", place, bytes, done);
    if (is_failing) errno = EIO;
    return is_failing ? -1 : done;
}

ssize_t pwrite64(int file, const void *bytes, size_t count, off_t place) { return pwrite(file, bytes, count, place); }

int ftruncate(int file, off_t size) {
    if (fails(file)) return -1;
    int done = syscall(SYS_ftruncate, file, size);
    if (done == 0) note(file, "cut", size, NULL, 0);
    return done;
}

int ftruncate64(int file, off_t size) { return ftruncate(file, size); }

int fsync(int file) {
    if (fails(file)) return -1;
    int done = syscall(SYS_fsync, file);
    if (done == 0) note(file, "sync", 0, NULL, 0);
    return done;
}

int fdatasync(int file) { return fsync(file); }

int statx(int file, const char *restrict path, int flags, unsigned mask, struct statx *restrict found) {
    return fails(file) ? -1 : syscall(SYS_statx, file, path, flags, mask, found);
}

int fstat(int file, struct stat *found) { return fails(file) ? -1 : syscall(SYS_fstat, file, found); }

int clock_gettime(clockid_t clock, struct timespec *now) {
    if (clock == CLOCK_REALTIME && fails_of('c')) return -1;
    return syscall(SYS_clock_gettime, clock, now);
}
