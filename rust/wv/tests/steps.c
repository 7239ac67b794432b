/*
 * Loaded before the C library (LD_PRELOAD), sees the calls that change files in
 * one folder: creating, writing, waiting for the disk, renaming, linking,
 * removing, locking. Each is a step, counted from 0.
 *
 *   WV_STEPS_IN      the folder
 *   WV_STEPS_TRACE   a file to which each step is appended, a line each
 *   WV_STEPS_KILL    the process is killed at this step; a write is half done
 *   WV_STEPS_STOP    the process stops before this step, until it is continued
 */
#define _GNU_SOURCE
#include <dlfcn.h>
#include <fcntl.h>
#include <signal.h>
#include <stdarg.h>
#include <stdio.h>
#include <stdlib.h>
#include <string.h>
#include <sys/file.h>
#include <sys/syscall.h>
#include <unistd.h>

static long steps;

static long wish(const char *name)
{
    const char *value = getenv(name);

    return value == NULL ? -1 : atol(value);
}

/* The name of a path inside the folder, or NULL. */
static const char *inside(const char *path)
{
    const char *folder = getenv("WV_STEPS_IN");
    size_t len = folder == NULL ? 0 : strlen(folder);

    if (len == 0 || strncmp(path, folder, len) != 0)
        return NULL;
    path += len;
    return *path == '/' ? path + 1 : *path == 0 ? "." : NULL;
}

static const char *by_path(const char *path, char *place)
{
    if (*path == '/')
        return inside(path);
    if (getcwd(place, 4096) == NULL || inside(place) == NULL)
        return NULL;
    snprintf(place, 4096, "%s", path);
    return strncmp(place, "./", 2) == 0 ? place + 2 : place;
}

static const char *by_descriptor(int fd, char *place)
{
    char link[64];
    ssize_t len;

    snprintf(link, sizeof link, "/proc/self/fd/%d", fd);
    len = readlink(link, place, 4095);
    if (len < 0)
        return NULL;
    place[len] = 0;
    return inside(place);
}

static void trace(const char *what, const char *name, const char *other)
{
    const char *path = getenv("WV_STEPS_TRACE");
    char line[9000];
    int fd, len;

    if (path == NULL)
        return;
    len = snprintf(line, sizeof line, "%s %s%s%s\n", what, name,
                   *other == 0 ? "" : " ", other);
    fd = (int)syscall(SYS_openat, AT_FDCWD, path, O_WRONLY | O_CREAT | O_APPEND, 0600);
    if (fd < 0 || syscall(SYS_write, fd, line, (size_t)len) != len)
        abort();
    syscall(SYS_close, fd);
}

/* Is the process to be killed at this step? */
static int step(const char *what, const char *name, const char *other)
{
    long now = steps++;

    trace(what, name, other);
    if (now == wish("WV_STEPS_STOP"))
        raise(SIGSTOP);
    return now == wish("WV_STEPS_KILL");
}

static void end(void)
{
    kill(getpid(), SIGKILL);
    pause();
}

static void seen(const char *what, const char *name, const char *other)
{
    if (name != NULL && step(what, name, other))
        end();
}

static void *next(const char *name)
{
    return dlsym(RTLD_NEXT, name);
}

static void seen_open(const char *path, int flags)
{
    char place[4096];

    if (flags & (O_CREAT | O_TRUNC))
        seen(flags & O_EXCL ? "create" : "open", by_path(path, place), "");
}

int open(const char *path, int flags, ...)
{
    va_list list;
    mode_t mode;

    va_start(list, flags);
    mode = va_arg(list, mode_t);
    va_end(list);
    seen_open(path, flags);
    return ((int (*)(const char *, int, mode_t))next("open"))(path, flags, mode);
}

int open64(const char *path, int flags, ...)
{
    va_list list;
    mode_t mode;

    va_start(list, flags);
    mode = va_arg(list, mode_t);
    va_end(list);
    seen_open(path, flags);
    return ((int (*)(const char *, int, mode_t))next("open64"))(path, flags, mode);
}

ssize_t write(int fd, const void *bytes, size_t len)
{
    ssize_t (*real)(int, const void *, size_t) = next("write");
    char place[4096];
    const char *name = by_descriptor(fd, place);

    if (name != NULL && step("write", name, "")) {
        if (real(fd, bytes, len / 2) >= 0)
            end();
        end();
    }
    return real(fd, bytes, len);
}

int fsync(int fd)
{
    char place[4096];

    seen("fsync", by_descriptor(fd, place), "");
    return ((int (*)(int))next("fsync"))(fd);
}

int flock(int fd, int how)
{
    char place[4096];

    if (how & LOCK_EX)
        seen("lock", by_descriptor(fd, place), "");
    return ((int (*)(int, int))next("flock"))(fd, how);
}

int rename(const char *from, const char *to)
{
    char place[2][4096];
    const char *name = by_path(from, place[0]), *other = by_path(to, place[1]);

    seen("rename", name, other == NULL ? to : other);
    return ((int (*)(const char *, const char *))next("rename"))(from, to);
}

int linkat(int folder, const char *from, int other_folder, const char *to, int flags)
{
    char place[2][4096];
    const char *name = by_path(from, place[0]), *other = by_path(to, place[1]);

    seen("link", name, other == NULL ? to : other);
    return ((int (*)(int, const char *, int, const char *, int))next("linkat"))(
        folder, from, other_folder, to, flags);
}

int unlink(const char *path)
{
    char place[4096];

    seen("remove", by_path(path, place), "");
    return ((int (*)(const char *))next("unlink"))(path);
}
