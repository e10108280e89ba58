/* To be preloaded: lets syncs fail, and keeps a trace of what was synced and told.
 * FAIL_SYNCS is the number of the sync that fails first, from 1, and FAIL_COUNT how many fail from there on: each gives
 * EIO, and syncs nothing. To the file that TRACE names it adds a line for each call: `emptied PATH` where a file of a
 * party is opened to be written; `file PATH BYTES` and `folder PATH NAME NAME ..` for a sync that succeeded, with what
 * the file, or the folder, had then; `failed PATH` for one that did not; `sent BYTES` for a datagram. BYTES are written
 * as hexadecimal digits. */
#define _GNU_SOURCE
#include <dirent.h>
#include <dlfcn.h>
#include <errno.h>
#include <fcntl.h>
#include <limits.h>
#include <stdarg.h>
#include <stdio.h>
#include <stdlib.h>
#include <string.h>
#include <sys/socket.h>
#include <sys/stat.h>
#include <unistd.h>

static long syncs;

static long number(const char *name)
{
    const char *text = getenv(name);
    return text ? atol(text) : 0;
}

static FILE *trace(void)
{
    static FILE *file;
    if (!file && getenv("TRACE"))
        file = fopen(getenv("TRACE"), "a");
    return file;
}

static void put_bytes(FILE *to, const unsigned char *bytes, size_t count)
{
    for (size_t at = 0; at < count; at++)
        fprintf(to, "%02x", bytes[at]);
    putc('\n', to);
    fflush(to);
}

static void put_file(FILE *to, const char *path)
{
    static unsigned char bytes[1 << 20];
    int again = open(path, O_RDONLY);
    ssize_t count = again < 0 ? -1 : read(again, bytes, sizeof bytes);
    if (again >= 0)
        close(again);
    fprintf(to, "file %s ", path);
    put_bytes(to, bytes, count < 0 ? 0 : (size_t)count);
}

static void put_folder(FILE *to, const char *path)
{
    DIR *folder = opendir(path);
    struct dirent *entry;
    fprintf(to, "folder %s", path);
    while (folder && (entry = readdir(folder)))
        if (entry->d_name[0] != '.')
            fprintf(to, " %s", entry->d_name);
    if (folder)
        closedir(folder);
    putc('\n', to);
    fflush(to);
}

int open(const char *path, int flags, ...)
{
    int (*real)(const char *, int, ...) = dlsym(RTLD_NEXT, "open");
    va_list more;
    va_start(more, flags);
    int mode = va_arg(more, int);
    va_end(more);
    int file = real(path, flags, mode);
    if (file >= 0 && flags & O_TRUNC && strstr(path, "/party-") && trace())
        fprintf(trace(), "emptied %s\n", path), fflush(trace());
    return file;
}

int fsync(int file)
{
    int (*real)(int) = dlsym(RTLD_NEXT, "fsync");
    FILE *to = trace();
    char link[64], path[PATH_MAX];
    struct stat found;
    snprintf(link, sizeof link, "/proc/self/fd/%d", file);
    ssize_t length = readlink(link, path, sizeof path - 1);
    path[length < 0 ? 0 : length] = '\0';
    long first = number("FAIL_SYNCS");
    syncs++;
    if (first && syncs >= first && syncs < first + number("FAIL_COUNT")) {
        if (to)
            fprintf(to, "failed %s\n", path), fflush(to);
        errno = EIO;
        return -1;
    }
    int answer = real(file);
    if (to && answer == 0 && fstat(file, &found) == 0) {
        if (S_ISDIR(found.st_mode))
            put_folder(to, path);
        else
            put_file(to, path);
    }
    return answer;
}

static void put_datagram(const void *bytes, size_t count)
{
    FILE *to = trace();
    if (to) {
        fputs("sent ", to);
        put_bytes(to, bytes, count);
    }
}

ssize_t send(int socket, const void *bytes, size_t count, int flags)
{
    ssize_t (*real)(int, const void *, size_t, int) = dlsym(RTLD_NEXT, "send");
    put_datagram(bytes, count);
    return real(socket, bytes, count, flags);
}

ssize_t sendto(int socket, const void *bytes, size_t count, int flags, const struct sockaddr *to, socklen_t length)
{
    ssize_t (*real)(int, const void *, size_t, int, const struct sockaddr *, socklen_t) = dlsym(RTLD_NEXT, "sendto");
    put_datagram(bytes, count);
    return real(socket, bytes, count, flags, to, length);
}
