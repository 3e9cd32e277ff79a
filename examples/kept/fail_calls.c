/* Preloaded into a program, has one of the calls for its journal's file fail: cc -shared -fPIC -O2 fail_calls.c
 *
 * FAIL_PATH   the absolute path of the file, with no link in it; calls for PATH, for PATH.new and for the folder are counted
 * FAIL_AT     the number of the call that fails, counted from 1; none is where it is missing
 * FAIL_WITH   the number of the error
 * FAIL_DONE   how much of the call is done all the same: 0 nothing, 1 half, 2 all
 * FAIL_LIES   where it is there, that call tells that it succeeded
 * FAIL_SHORT  where it is there, no call reads or writes more than so many bytes
 * FAIL_LOG    a file to which each call adds a line: its number, its name, and `fails` where it does
 *
 * A sync that fails loses what was written to the file since the last one: all of it, the later half of the calls, or nothing; one that is
 * interrupted loses nothing.
 */
#define _GNU_SOURCE
#include <errno.h>
#include <fcntl.h>
#include <limits.h>
#include <pthread.h>
#include <stdarg.h>
#include <stdio.h>
#include <stdlib.h>
#include <string.h>
#include <sys/stat.h>
#include <sys/syscall.h>
#include <unistd.h>

enum done { NOTHING, HALF, ALL };

static char path[PATH_MAX], new_path[PATH_MAX + 4], folder[PATH_MAX];
static unsigned long calls, fails_at, fails_with, takes;
static enum done done;
static int lies, told = -1;
static pthread_mutex_t lock = PTHREAD_MUTEX_INITIALIZER;

static unsigned long number(const char *name) {
    const char *text = getenv(name);
    return text ? strtoul(text, NULL, 10) : 0;
}

__attribute__((constructor)) static void begin(void) {
    if (!getenv("FAIL_PATH"))
        return;
    snprintf(path, sizeof path, "%s", getenv("FAIL_PATH"));
    snprintf(new_path, sizeof new_path, "%s.new", path);
    snprintf(folder, sizeof folder, "%s", path);
    *strrchr(folder, '/') = 0;
    fails_at = number("FAIL_AT"), fails_with = number("FAIL_WITH"), done = number("FAIL_DONE");
    lies = getenv("FAIL_LIES") != NULL, takes = number("FAIL_SHORT");
    if (getenv("FAIL_LOG"))
        told = syscall(SYS_openat, AT_FDCWD, getenv("FAIL_LOG"), O_WRONLY | O_CREAT | O_APPEND | O_CLOEXEC, 0644);
}

/* ---- which calls are counted */

static int is_file(const char *name) { return *path && (!strcmp(name, path) || !strcmp(name, new_path)); }

static int is_named(const char *name) { return is_file(name) || (*path && !strcmp(name, folder)); }

static const char *name_of(int fd) {
    static _Thread_local char name[PATH_MAX];
    char link[32];
    snprintf(link, sizeof link, "/proc/self/fd/%d", fd);
    ssize_t len = syscall(SYS_readlinkat, AT_FDCWD, link, name, sizeof name - 1);
    name[len < 0 ? 0 : len] = 0;
    char *end = strstr(name, " (deleted)");
    if (end)
        *end = 0;
    return name;
}

/* Whether this call, which is counted, is the one that fails. */
static int fails(const char *name) {
    char line[64];
    pthread_mutex_lock(&lock);
    int it = ++calls == fails_at;
    int len = snprintf(line, sizeof line, "%lu %s%s\n", calls, name, it ? " fails" : "");
    if (told >= 0 && syscall(SYS_write, told, line, len) != len)
        abort();
    pthread_mutex_unlock(&lock);
    return it;
}

/* What the call gives that fails, where it would have given so much. */
static long failed(long instead) {
    if (lies)
        return instead;
    errno = (int)fails_with;
    return -1;
}

/* ---- what was written since the last sync */

static struct change {
    char *bytes;
    size_t count;
    off_t at, size;
} changes[4096];
static size_t changed;

/* Before so many bytes from there on become others. */
static void remember(int fd, off_t at, size_t count) {
    struct stat now;
    if (syscall(SYS_fstat, fd, &now) || changed == sizeof changes / sizeof *changes)
        abort();
    struct change *it = &changes[changed++];
    it->at = at, it->size = now.st_size;
    it->count = at >= now.st_size ? 0 : count < (size_t)(now.st_size - at) ? count : (size_t)(now.st_size - at);
    it->bytes = malloc(it->count + 1);
    if (!it->bytes || syscall(SYS_pread64, fd, it->bytes, it->count, at) != (ssize_t)it->count)
        abort();
}

/* Takes back what was changed, but for the first so many calls; then all counts as synced. */
static void settle(int fd, size_t stay) {
    while (changed) {
        struct change *it = &changes[--changed];
        if (changed >= stay && (syscall(SYS_ftruncate, fd, it->size) ||
                                syscall(SYS_pwrite64, fd, it->bytes, it->count, it->at) != (ssize_t)it->count))
            abort();
        free(it->bytes);
    }
}

/* ---- calls of a descriptor */

static size_t most(size_t count) { return takes && takes < count ? takes : count; }

ssize_t read(int fd, void *to, size_t count) {
    if (!is_file(name_of(fd)))
        return syscall(SYS_read, fd, to, count);
    return fails("read") ? failed(0) : syscall(SYS_read, fd, to, most(count));
}

ssize_t pwrite(int fd, const void *from, size_t count, off_t at) {
    if (!is_file(name_of(fd)))
        return syscall(SYS_pwrite64, fd, from, count, at);
    int it = fails("pwrite");
    remember(fd, at, count);
    if (!it)
        return syscall(SYS_pwrite64, fd, from, most(count), at);
    if (done != NOTHING && syscall(SYS_pwrite64, fd, from, done == HALF ? count / 2 : count, at) < 0)
        abort();
    return failed(count);
}

ssize_t write(int fd, const void *from, size_t count) {
    if (!is_file(name_of(fd)))
        return syscall(SYS_write, fd, from, count);
    int it = fails("write");
    remember(fd, syscall(SYS_lseek, fd, 0, SEEK_CUR), count);
    if (!it)
        return syscall(SYS_write, fd, from, most(count));
    if (done != NOTHING && syscall(SYS_write, fd, from, done == HALF ? count / 2 : count) < 0)
        abort();
    return failed(count);
}

int ftruncate(int fd, off_t size) {
    struct stat now;
    if (!is_file(name_of(fd)))
        return syscall(SYS_ftruncate, fd, size);
    int it = fails("ftruncate");
    if (syscall(SYS_fstat, fd, &now))
        abort();
    remember(fd, size, now.st_size > size ? now.st_size - size : 0);
    if (it && done == NOTHING)
        return failed(0);
    int result = syscall(SYS_ftruncate, fd, size);
    return it ? failed(0) : result;
}

static int synced(int fd, const char *name, long call) {
    char of[PATH_MAX];
    snprintf(of, sizeof of, "%s", name_of(fd));
    if (!is_named(of))
        return syscall(call, fd);
    int it = fails(is_file(of) ? name : "fsync of the folder");
    if (is_file(of))
        settle(fd, !it || done == ALL || fails_with == EINTR ? changed : done == HALF ? changed / 2 : 0);
    int result = syscall(call, fd);
    return it ? failed(0) : result;
}

int fsync(int fd) { return synced(fd, "fsync", SYS_fsync); }

int fdatasync(int fd) { return synced(fd, "fdatasync", SYS_fdatasync); }

int flock(int fd, int how) {
    if (is_file(name_of(fd)) && fails("flock"))
        return failed(0);
    return syscall(SYS_flock, fd, how);
}

/* Gives the number of the error. */
int posix_fadvise(int fd, off_t at, off_t count, int advice) {
    if (is_file(name_of(fd)) && fails("posix_fadvise"))
        return lies ? 0 : (int)fails_with;
    return syscall(SYS_fadvise64, fd, at, count, advice) ? errno : 0;
}

/* ---- calls of a path */

int open(const char *name, int flags, ...) {
    va_list rest;
    va_start(rest, flags);
    mode_t mode = flags & O_CREAT ? va_arg(rest, mode_t) : 0;
    va_end(rest);
    if (is_named(name) && fails(is_file(name) ? "open" : "open of the folder"))
        return failed(-1);
    return syscall(SYS_openat, AT_FDCWD, name, flags, mode);
}

int statx(int fd, const char *restrict name, int flags, unsigned mask, struct statx *restrict it) {
    int counts = *name ? is_file(name) : is_file(name_of(fd));
    if (counts && fails(*name ? "statx of the path" : "statx"))
        return failed(-1);
    return syscall(SYS_statx, fd, name, flags, mask, it);
}

int link(const char *from, const char *to) {
    int it = is_file(to) && fails("link");
    if (it && done == NOTHING)
        return failed(0);
    int result = syscall(SYS_linkat, AT_FDCWD, from, AT_FDCWD, to, 0);
    return it ? failed(0) : result;
}

int unlink(const char *name) {
    int it = is_file(name) && fails("unlink");
    if (it && done == NOTHING)
        return failed(0);
    int result = syscall(SYS_unlinkat, AT_FDCWD, name, 0);
    return it ? failed(0) : result;
}
