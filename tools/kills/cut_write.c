/* To be preloaded: cuts a write to a file of a party or of the match, and kills the process there, so that the file is
 * torn.
 * CUT_WRITE is the number of the write, from 1, and CUT_SHARE how many 255ths of its bytes are written: 0 leaves the
 * file empty, 255 writes all. Where CUT_SIGNAL has the number of a signal, the process gets that one. Where CUT_ERROR has
 * the number of an error, that write fails with it instead, and nothing is written or killed. */
#define _GNU_SOURCE
#include <dlfcn.h>
#include <errno.h>
#include <fcntl.h>
#include <signal.h>
#include <stdarg.h>
#include <stdlib.h>
#include <string.h>
#include <unistd.h>

#define MOST_FILES 1024

static char is_kept[MOST_FILES];
static long writes;

static long number(const char *name)
{
    const char *text = getenv(name);
    return text ? atol(text) : 0;
}

static int has_kept_name(const char *path)
{
    return strstr(path, "/party-") || strstr(path, "/secret") || strstr(path, "/key-secret") || strstr(path, "/dice")
        || strstr(path, "/match");
}

int open(const char *path, int flags, ...)
{
    int (*real)(const char *, int, ...) = dlsym(RTLD_NEXT, "open");
    va_list more;
    va_start(more, flags);
    int mode = va_arg(more, int);
    va_end(more);
    int file = real(path, flags, mode);
    if (file >= 0 && file < MOST_FILES)
        is_kept[file] = (flags & O_ACCMODE) == O_WRONLY && has_kept_name(path);
    return file;
}

ssize_t write(int file, const void *bytes, size_t count)
{
    ssize_t (*real)(int, const void *, size_t) = dlsym(RTLD_NEXT, "write");
    if (file >= 0 && file < MOST_FILES && is_kept[file] && ++writes == number("CUT_WRITE")) {
        if (getenv("CUT_ERROR")) {
            errno = (int)number("CUT_ERROR");
            return -1;
        }
        size_t kept = count * number("CUT_SHARE") / 255;
        if (kept > 0 && real(file, bytes, kept) < 0)
            abort();
        kill(getpid(), getenv("CUT_SIGNAL") ? (int)number("CUT_SIGNAL") : SIGKILL);
    }
    return real(file, bytes, count);
}
