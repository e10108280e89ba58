/* To be preloaded: keeps what a disk has when the power is cut, and cuts it. ROOT is a folder, and MIRROR one that keeps
 * what is durable of it: a file as it was at its last sync that succeeded, under the name that it has. CUT_AT is the number
 * of the call that changes a file below ROOT, from 1, at which the process ends with status 137; CUT_HOW says whether that
 * is before the call (0), behind it (1), or with half of what it writes (2). With SERVING, calls are counted from when the
 * first connection is accepted. While there is a file that REFUSE names, each sync
 * below ROOT gives EIO, and nothing is durable. */
#define _GNU_SOURCE
#include <dlfcn.h>
#include <errno.h>
#include <fcntl.h>
#include <limits.h>
#include <stdarg.h>
#include <stdio.h>
#include <stdlib.h>
#include <string.h>
#include <sys/socket.h>
#include <sys/stat.h>
#include <unistd.h>

static long calls;
static int serving;

static long number(const char *name)
{
    const char *text = getenv(name);
    return text ? atol(text) : 0;
}

/* The part of a path below ROOT; NULL where it is elsewhere. */
static const char *below(const char *path)
{
    const char *root = getenv("ROOT");
    size_t count = root ? strlen(root) : 0;
    return root && path && !strncmp(path, root, count) && path[count] == '/' ? path + count : NULL;
}

static const char *path_of(int fd, char *path)
{
    char link[64];
    snprintf(link, sizeof link, "/proc/self/fd/%d", fd);
    ssize_t count = readlink(link, path, PATH_MAX - 1);
    path[count < 0 ? 0 : count] = 0;
    return below(path);
}

static void mirrored(const char *rest, char *path)
{
    snprintf(path, PATH_MAX, "%s%s", getenv("MIRROR"), rest);
}

static void make_above(char *path)
{
    for (char *at = path + 1; *at; at++)
        if (*at == '/') {
            *at = 0;
            mkdir(path, 0700);
            *at = '/';
        }
}

/* Copies a file as it is to the mirror. */
static void keep(const char *path, const char *rest)
{
    static char bytes[1 << 16];
    char copy[PATH_MAX], beside[PATH_MAX + 8];
    ssize_t count;
    ssize_t (*real_write)(int, const void *, size_t) = dlsym(RTLD_NEXT, "write");
    int (*real_rename)(const char *, const char *) = dlsym(RTLD_NEXT, "rename");
    mirrored(rest, copy);
    make_above(copy);
    snprintf(beside, sizeof beside, "%s.copy", copy);
    int from = open(path, O_RDONLY), to = open(beside, O_WRONLY | O_CREAT | O_TRUNC, 0600);
    while (from >= 0 && to >= 0 && (count = read(from, bytes, sizeof bytes)) > 0)
        if (real_write(to, bytes, (size_t)count) != count)
            abort();
    close(from);
    close(to);
    real_rename(beside, copy);
}

/* Counts a call, and says whether it is the last one. */
static int is_last(const char *rest)
{
    return rest && (serving || !getenv("SERVING")) && ++calls == number("CUT_AT");
}

static void end_before(int last)
{
    if (last && number("CUT_HOW") == 0)
        _exit(137);
}

static void end_behind(int last)
{
    if (last)
        _exit(137);
}

static size_t half_of(int last, size_t count)
{
    return last && number("CUT_HOW") == 2 ? count / 2 : count;
}

int accept4(int fd, struct sockaddr *peer, socklen_t *length, int flags)
{
    int (*real)(int, struct sockaddr *, socklen_t *, int) = dlsym(RTLD_NEXT, "accept4");
    int accepted = real(fd, peer, length, flags);
    serving |= accepted >= 0;
    return accepted;
}

ssize_t write(int fd, const void *bytes, size_t count)
{
    char path[PATH_MAX];
    ssize_t (*real)(int, const void *, size_t) = dlsym(RTLD_NEXT, "write");
    int last = is_last(path_of(fd, path));
    end_before(last);
    ssize_t done = real(fd, bytes, half_of(last, count));
    end_behind(last);
    return done;
}

static ssize_t write_at(const char *name, int fd, const void *bytes, size_t count, off_t at)
{
    char path[PATH_MAX];
    ssize_t (*real)(int, const void *, size_t, off_t) = dlsym(RTLD_NEXT, name);
    int last = is_last(path_of(fd, path));
    end_before(last);
    ssize_t done = real(fd, bytes, half_of(last, count), at);
    end_behind(last);
    return done;
}

ssize_t pwrite(int fd, const void *bytes, size_t count, off_t at)
{
    return write_at("pwrite", fd, bytes, count, at);
}

ssize_t pwrite64(int fd, const void *bytes, size_t count, off_t at)
{
    return write_at("pwrite64", fd, bytes, count, at);
}

static int synced(const char *name, int fd)
{
    char path[PATH_MAX];
    struct stat found;
    int (*real)(int) = dlsym(RTLD_NEXT, name);
    const char *rest = path_of(fd, path);
    int last = is_last(rest);
    end_before(last);
    if (rest && getenv("REFUSE") && access(getenv("REFUSE"), F_OK) == 0) {
        errno = EIO;
        return -1;
    }
    int done = real(fd);
    if (done == 0 && rest && fstat(fd, &found) == 0 && S_ISREG(found.st_mode))
        keep(path, rest);
    end_behind(last);
    return done;
}

int fsync(int fd)
{
    return synced("fsync", fd);
}

int fdatasync(int fd)
{
    return synced("fdatasync", fd);
}

int ftruncate(int fd, off_t length)
{
    char path[PATH_MAX];
    int (*real)(int, off_t) = dlsym(RTLD_NEXT, "ftruncate");
    int last = is_last(path_of(fd, path));
    end_before(last);
    int done = real(fd, length);
    end_behind(last);
    return done;
}

int rename(const char *from, const char *to)
{
    char old[PATH_MAX], new[PATH_MAX];
    int (*real)(const char *, const char *) = dlsym(RTLD_NEXT, "rename");
    int last = is_last(below(from));
    end_before(last);
    int done = real(from, to);
    if (done == 0 && below(from) && below(to)) {
        mirrored(below(from), old);
        mirrored(below(to), new);
        real(old, new);
    }
    end_behind(last);
    return done;
}

int unlink(const char *path)
{
    char copy[PATH_MAX];
    int (*real)(const char *) = dlsym(RTLD_NEXT, "unlink");
    int last = is_last(below(path));
    end_before(last);
    int done = real(path);
    if (done == 0 && below(path)) {
        mirrored(below(path), copy);
        real(copy);
    }
    end_behind(last);
    return done;
}

int mkdir(const char *path, mode_t mode)
{
    char copy[PATH_MAX];
    int (*real)(const char *, mode_t) = dlsym(RTLD_NEXT, "mkdir");
    int last = is_last(below(path));
    end_before(last);
    int done = real(path, mode);
    if (done == 0 && below(path)) {
        mirrored(below(path), copy);
        make_above(copy);
        real(copy, mode);
    }
    end_behind(last);
    return done;
}
