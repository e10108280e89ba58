/* To be preloaded: a network that loses, repeats and reorders what the process sends. Of 20 datagrams it loses one,
 * sends two twice, and sends two late: behind a later one, so that they are lost where none follows.
 * LOSSY_SEED chooses which. A letter is put behind the file LOSSY_LOG for each that is lost (l), sent twice (r) or sent
 * late (o), so that a driver sees that it was so. */
#define _GNU_SOURCE
#include <dlfcn.h>
#include <fcntl.h>
#include <stdlib.h>
#include <string.h>
#include <sys/socket.h>
#include <unistd.h>

#define MOST_BYTES 512
#define MOST_HELD 4

typedef ssize_t sending(int, const void *, size_t, int, const struct sockaddr *, socklen_t);

struct held {
    int socket, flags;
    char bytes[MOST_BYTES];
    size_t count;
    struct sockaddr_storage to;
    socklen_t length;
};

static struct held held[MOST_HELD];
static int count_held;
static unsigned long long state;

static unsigned draw(unsigned below)
{
    if (!state)
        state = strtoull(getenv("LOSSY_SEED") ? getenv("LOSSY_SEED") : "1", 0, 10) * 2 + 1;
    state = state * 6364136223846793005u + 1442695040888963407u;
    return (unsigned)(state >> 33) % below;
}

static void note(char letter)
{
    int file = getenv("LOSSY_LOG") ? open(getenv("LOSSY_LOG"), O_WRONLY | O_APPEND | O_CREAT | O_CLOEXEC, 0600) : -1;
    if (file < 0 || write(file, &letter, 1) != 1)
        abort();
    close(file);
}

/* Sends one of those that are held. */
static void let_go(sending *real)
{
    unsigned at = draw(count_held);
    struct held it = held[at];
    held[at] = held[--count_held];
    real(it.socket, it.bytes, it.count, it.flags, (struct sockaddr *)&it.to, it.length);
    note('o');
}

ssize_t sendto(int socket, const void *bytes, size_t count, int flags, const struct sockaddr *to, socklen_t length)
{
    sending *real = (sending *)dlsym(RTLD_NEXT, "sendto");
    unsigned what = draw(20);
    if (what < 1) {
        note('l');
        return count;
    }
    if (what < 3 && count_held < MOST_HELD && count <= MOST_BYTES && length <= sizeof(struct sockaddr_storage)) {
        struct held *it = &held[count_held++];
        memset(it, 0, sizeof *it);
        it->socket = socket, it->flags = flags, it->count = count, it->length = length;
        memcpy(it->bytes, bytes, count);
        memcpy(&it->to, to, length);
        return count;
    }
    if (what >= 18) {
        real(socket, bytes, count, flags, to, length);
        note('r');
    }
    ssize_t answer = real(socket, bytes, count, flags, to, length);
    if (count_held > 0 && draw(2))
        let_go(real);
    return answer;
}
