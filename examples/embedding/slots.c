#define _POSIX_C_SOURCE 200809L
#include "slots.h"

#include "bg_relay.h"

#include <errno.h>
#include <fcntl.h>
#include <stdio.h>
#include <stdlib.h>
#include <unistd.h>

static int slot_path(char *path, size_t room, const char *folder, unsigned party, unsigned slot) {
    int length = snprintf(path, room, "%s/party-%u.%u", folder, party, slot);
    return length < 0 || (size_t)length >= room ? -1 : 0;
}

/* Makes sure that the names of the files last. */
static int sync_folder(const char *folder) {
    int descriptor = open(folder, O_RDONLY);
    if (descriptor < 0) {
        return -1;
    }
    int result = fsync(descriptor);
    close(descriptor);
    return result;
}

/* Reads at most a byte more than the longest saved text has: what is longer is none. */
static int read_whole(FILE *file, struct slot_text *text) {
    size_t room = 4096;
    uint8_t *bytes = malloc(room);
    size_t length = 0;
    while (bytes) {
        length += fread(bytes + length, 1, room - length, file);
        if (length < room || length > BG_LONGEST_SAVED_TEXT) {
            break;
        }
        room *= 2;
        uint8_t *more = realloc(bytes, room);
        if (!more) {
            free(bytes);
        }
        bytes = more;
    }
    if (!bytes || ferror(file)) {
        free(bytes);
        return -1;
    }
    text->bytes = bytes;
    text->length = length;
    return 0;
}

int slot_read(const char *folder, unsigned party, unsigned slot, struct slot_text *text) {
    char path[4096];
    text->bytes = NULL;
    text->length = 0;
    if (slot_path(path, sizeof path, folder, party, slot)) {
        return -1;
    }
    FILE *file = fopen(path, "rb");
    if (!file) {
        return errno == ENOENT ? 0 : -1;
    }
    int result = read_whole(file, text);
    fclose(file);
    return result;
}

int slot_write(const char *folder, unsigned party, unsigned slot, const uint8_t *bytes, size_t length) {
    char path[4096];
    if (slot_path(path, sizeof path, folder, party, slot)) {
        return -1;
    }
    int is_new = access(path, F_OK) != 0;
    FILE *file = fopen(path, "wb");
    if (!file) {
        return -1;
    }
    int failed = fwrite(bytes, 1, length, file) != length;
    failed |= fflush(file) != 0;
    failed |= fsync(fileno(file)) != 0;
    failed |= fclose(file) != 0;
    if (is_new) {
        failed |= sync_folder(folder) != 0;
    }
    return failed ? -1 : 0;
}
