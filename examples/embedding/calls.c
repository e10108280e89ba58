#include "calls.h"

#include <stdio.h>
#include <stdlib.h>

void stop(const char *call, const char *why) {
    fprintf(stderr, "%s: %s\n", call, why);
    exit(1);
}

void make_room(struct text *text) {
    free(text->bytes);
    text->room = text->length;
    text->bytes = malloc(text->room);
    if (!text->bytes) {
        stop("malloc", "there is no memory");
    }
}

void must(bg_status status, const char *call) {
    if (status != BG_OK) {
        stop(call, bg_status_name(status));
    }
}

uint32_t entries_of(const bg_party *party) {
    uint32_t entries = 0;
    must(bg_party_entries(party, &entries), "bg_party_entries");
    return entries;
}
