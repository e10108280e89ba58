/* To be preloaded: refuses one growth of memory. REFUSE_GROWTH is its number among the calls of malloc and realloc,
 * from 1; the file that REFUSED_FILE names is made where it was refused. */
#define _GNU_SOURCE
#include <dlfcn.h>
#include <errno.h>
#include <fcntl.h>
#include <stdlib.h>
#include <unistd.h>

static long growths;

static int is_refused(void)
{
    const char *number = getenv("REFUSE_GROWTH"), *file = getenv("REFUSED_FILE");
    if (number == NULL || file == NULL || ++growths != atol(number))
        return 0;
    int made = open(file, O_CREAT | O_WRONLY, 0600);
    if (made < 0)
        abort();
    close(made);
    errno = ENOMEM;
    return 1;
}

void *malloc(size_t size)
{
    static void *(*real)(size_t);
    if (real == NULL)
        real = dlsym(RTLD_NEXT, "malloc");
    return is_refused() ? NULL : real(size);
}

void *realloc(void *old, size_t size)
{
    static void *(*real)(void *, size_t);
    if (real == NULL)
        real = dlsym(RTLD_NEXT, "realloc");
    return is_refused() ? NULL : real(old, size);
}
