/* Stands between the program and the C library: writes down the calls that change files, and spoils one of them.
 *
 * SHIM_LOG  the file to write a line to for each call: its turn, its name, its paths, and how many bytes it is about, or
 *           with which mode a file is created
 * SHIM_AT   which turn is spoilt, from 1; SHIM_FOR: how many are, from that one on
 * SHIM_DO   ENOSPC or EIO: it fails so; KILL: the process is killed before it; HALF: a write is done by half, and then it is
 *           killed; RUN and a line for the shell: that is run before it
 * SHIM_LACKS  names of calls that the file system does not know: link, exchange, rename-new
 */
#define _GNU_SOURCE
#include <dlfcn.h>
#include <errno.h>
#include <fcntl.h>
#include <signal.h>
#include <stdarg.h>
#include <stdio.h>
#include <stdlib.h>
#include <string.h>
#include <sys/stat.h>
#include <sys/syscall.h>
#include <unistd.h>

static int turn = 0;

static ssize_t write_really(int file, const void *bytes, size_t length) {
    static ssize_t (*really)(int, const void *, size_t) = NULL;
    if (really == NULL) {
        *(void **)&really = dlsym(RTLD_NEXT, "write");
    }
    return really(file, bytes, length);
}

static int open_really(const char *path, int flags, mode_t mode) {
    static int (*really)(const char *, int, ...) = NULL;
    if (really == NULL) {
        *(void **)&really = dlsym(RTLD_NEXT, "open64");
    }
    return really(path, flags, mode);
}

/* The path of an open file. */
static void path_of(int file, char *path, size_t length) {
    char link[64];
    snprintf(link, sizeof link, "/proc/self/fd/%d", file);
    ssize_t got = readlink(link, path, length - 1);
    path[got < 0 ? 0 : got] = 0;
}

static void note(const char *call, const char *path, const char *other, size_t length) {
    const char *log = getenv("SHIM_LOG");
    char line[2048];
    if (log == NULL) {
        return;
    }
    int put = snprintf(line, sizeof line, "%d\t%s\t%s\t%s\t%zu\n", turn, call, path, other, length);
    int file = open_really(log, O_WRONLY | O_CREAT | O_APPEND | O_CLOEXEC, 0666);
    if (file >= 0) {
        if (write_really(file, line, (size_t)put) != put) {
            abort();
        }
        close(file);
    }
}

/* What is done to the call whose turn it is; nothing, usually. */
static const char *what_is_done(void) {
    const char *at = getenv("SHIM_AT");
    const char *how_many = getenv("SHIM_FOR");
    const char *what = getenv("SHIM_DO");
    int before = at == NULL ? 0 : turn - atoi(at);
    if (at == NULL || what == NULL || before < 0 || before >= (how_many == NULL ? 1 : atoi(how_many))) {
        return "";
    }
    return what;
}

/* Whether this call is the one to be spoilt by failing; or nobody learns it any more. */
static int fails(const char *call, const char *path, const char *other, size_t length) {
    turn += 1;
    note(call, path, other, length);
    const char *what = what_is_done();
    if (strncmp(what, "RUN ", 4) == 0) {
        unsetenv("LD_PRELOAD");
        if (system(what + 4) != 0) {
            abort();
        }
        return 0;
    }
    if (strcmp(what, "KILL") == 0) {
        raise(SIGKILL);
    }
    errno = strcmp(what, "EIO") == 0 ? EIO : ENOSPC;
    return what[0] != 0 && strcmp(what, "HALF") != 0;
}

static int is_halved(void) {
    return strcmp(what_is_done(), "HALF") == 0;
}

/* Whether the file system does not know this call. Nothing can be spoilt in it then. */
static int lacks(const char *call) {
    const char *calls = getenv("SHIM_LACKS");
    errno = strcmp(call, "link") == 0 ? EPERM : EINVAL;
    return calls != NULL && strstr(calls, call) != NULL;
}

ssize_t write(int file, const void *bytes, size_t length) {
    char path[1024];
    path_of(file, path, sizeof path);
    if (fails("write", path, "", length)) {
        return -1;
    }
    if (is_halved()) {
        if (write_really(file, bytes, length / 2) >= 0) {
            raise(SIGKILL);
        }
    }
    return write_really(file, bytes, length);
}

static int opened(const char *path, int flags, va_list more) {
    mode_t mode = 0;
    if ((flags & O_CREAT) != 0) {
        mode = (mode_t)va_arg(more, int);
        if (fails("create", path, "", mode)) {
            return -1;
        }
    }
    return open_really(path, flags, mode);
}

int open64(const char *path, int flags, ...) {
    va_list more;
    va_start(more, flags);
    int file = opened(path, flags, more);
    va_end(more);
    return file;
}

int open(const char *path, int flags, ...) {
    va_list more;
    va_start(more, flags);
    int file = opened(path, flags, more);
    va_end(more);
    return file;
}

int fsync(int file) {
    char path[1024];
    path_of(file, path, sizeof path);
    if (fails("fsync", path, "", 0)) {
        return -1;
    }
    int (*really)(int) = NULL;
    *(void **)&really = dlsym(RTLD_NEXT, "fsync");
    return really(file);
}

int fchmod(int file, mode_t mode) {
    char path[1024];
    path_of(file, path, sizeof path);
    if (fails("fchmod", path, "", 0)) {
        return -1;
    }
    int (*really)(int, mode_t) = NULL;
    *(void **)&really = dlsym(RTLD_NEXT, "fchmod");
    return really(file, mode);
}

int rename(const char *from, const char *to) {
    if (fails("rename", from, to, 0)) {
        return -1;
    }
    int (*really)(const char *, const char *) = NULL;
    *(void **)&really = dlsym(RTLD_NEXT, "rename");
    return really(from, to);
}

int renameat2(int from_in, const char *from, int to_in, const char *to, unsigned int how) {
    const char *call = how == RENAME_EXCHANGE ? "exchange" : "rename-new";
    if (lacks(call) || fails(call, from, to, 0)) {
        return -1;
    }
    int (*really)(int, const char *, int, const char *, unsigned int) = NULL;
    *(void **)&really = dlsym(RTLD_NEXT, "renameat2");
    return really(from_in, from, to_in, to, how);
}

int link(const char *from, const char *to) {
    if (lacks("link") || fails("link", from, to, 0)) {
        return -1;
    }
    int (*really)(const char *, const char *) = NULL;
    *(void **)&really = dlsym(RTLD_NEXT, "link");
    return really(from, to);
}

int linkat(int from_in, const char *from, int to_in, const char *to, int flags) {
    if (lacks("link") || fails("link", from, to, 0)) {
        return -1;
    }
    int (*really)(int, const char *, int, const char *, int) = NULL;
    *(void **)&really = dlsym(RTLD_NEXT, "linkat");
    return really(from_in, from, to_in, to, flags);
}

int unlink(const char *path) {
    if (fails("unlink", path, "", 0)) {
        return -1;
    }
    int (*really)(const char *) = NULL;
    *(void **)&really = dlsym(RTLD_NEXT, "unlink");
    return really(path);
}

/* SHIM_PROCESS, if it is set, is the number of this process. */
pid_t getpid(void) {
    const char *number = getenv("SHIM_PROCESS");
    return number != NULL ? (pid_t)atoi(number) : (pid_t)syscall(SYS_getpid);
}

/* Ways to change a file that the program does not go: seen in the log, they would be noticed. */
int ftruncate64(int file, off64_t length) {
    char path[1024];
    path_of(file, path, sizeof path);
    if (fails("ftruncate", path, "", (size_t)length)) {
        return -1;
    }
    int (*really)(int, off64_t) = NULL;
    *(void **)&really = dlsym(RTLD_NEXT, "ftruncate64");
    return really(file, length);
}
