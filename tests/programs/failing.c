/* For LD_PRELOAD: the FAIL_AT-th call of these functions, but for standard output and error, ends the process (FAIL_HOW=kill) or fails (error); where
 * FAIL_AT is a name, each call of that function. Or the first write of a file puts half of the bytes there and then ends the process (half). The file
 * that CALLS names gets a line for each call, with its paths. */
#define _GNU_SOURCE
#include <dlfcn.h>
#include <errno.h>
#include <fcntl.h>
#include <signal.h>
#include <stdarg.h>
#include <stdio.h>
#include <stdlib.h>
#include <string.h>
#include <unistd.h>

#define REAL(name) ((__typeof__(&name))dlsym(RTLD_NEXT, #name))

static void note(const char *name, const char *paths) {
    const char *calls = getenv("CALLS");
    FILE *log = calls ? fopen(calls, "a") : NULL;
    if (!log)
        return;
    fprintf(log, "%s%s\n", name, paths);
    fclose(log);
}

/* Whether this call is the one that fails. */
static int fails(const char *name) {
    static int calls;
    const char *at = getenv("FAIL_AT");
    const char *how = getenv("FAIL_HOW");
    if (!at || !how || !strcmp(how, "half"))
        return 0;
    if (++calls != atoi(at) && strcmp(name, at))
        return 0;
    if (!strcmp(how, "kill"))
        raise(SIGKILL);
    errno = EIO;
    return 1;
}

int open(const char *path, int flags, ...) {
    char paths[5000];
    snprintf(paths, sizeof paths, " %s", path);
    note("open", paths);
    va_list rest;
    va_start(rest, flags);
    int mode = flags & O_CREAT ? va_arg(rest, int) : 0;
    va_end(rest);
    return fails("open") ? -1 : REAL(open)(path, flags, mode);
}

ssize_t read(int fd, void *buffer, size_t count) {
    note("read", "");
    return fails("read") ? -1 : REAL(read)(fd, buffer, count);
}

ssize_t write(int fd, const void *buffer, size_t count) {
    const char *how = getenv("FAIL_HOW");
    if (fd <= 2)
        return REAL(write)(fd, buffer, count);
    note("write", "");
    if (how && !strcmp(how, "half") && REAL(write)(fd, buffer, count / 2) > 0)
        raise(SIGKILL);
    return fails("write") ? -1 : REAL(write)(fd, buffer, count);
}

int fsync(int fd) {
    note("fsync", "");
    return fails("fsync") ? -1 : REAL(fsync)(fd);
}

int close(int fd) {
    note("close", "");
    int failed = fails("close");
    int done = REAL(close)(fd);
    if (failed)
        errno = EIO;
    return failed ? -1 : done;
}

int rename(const char *from, const char *to) {
    char paths[10000];
    snprintf(paths, sizeof paths, " %s %s", from, to);
    note("rename", paths);
    return fails("rename") ? -1 : REAL(rename)(from, to);
}

int unlink(const char *path) {
    char paths[5000];
    snprintf(paths, sizeof paths, " %s", path);
    note("unlink", paths);
    return fails("unlink") ? -1 : REAL(unlink)(path);
}
