#include "checks.h"

#include <inttypes.h>
#include <stdio.h>
#include <string.h>

static unsigned long passed, failed;

void check(int holds, const char *what) {
    if (holds) {
        passed++;
    } else {
        failed++;
        printf("%s\n", what);
    }
}

void check_status(bg_status got, bg_status wanted, const char *what) {
    if (got != wanted) {
        printf("%s, expected %s: ", bg_status_name(got), bg_status_name(wanted));
    }
    check(got == wanted, what);
}

void check_number(uint64_t got, uint64_t wanted, const char *what) {
    if (got != wanted) {
        printf("%" PRIu64 ", expected %" PRIu64 ": ", got, wanted);
    }
    check(got == wanted, what);
}

void check_text(const uint8_t *got, size_t length, const char *wanted, const char *what) {
    int is_same = length == strlen(wanted) && memcmp(got, wanted, length) == 0;
    if (!is_same) {
        printf("'%.*s', expected '%s': ", (int)length, (const char *)got, wanted);
    }
    check(is_same, what);
}

uint32_t entries_of(const bg_party *party) {
    uint32_t entries = 0;
    return bg_party_entries(party, &entries) == BG_OK ? entries : UINT32_MAX;
}

uint32_t saved_of(const bg_party *party) {
    uint32_t saved = 0;
    return bg_party_saved(party, &saved) == BG_OK ? saved : UINT32_MAX;
}

uint32_t told_of(const bg_party *party) {
    uint32_t told = 0;
    return bg_party_told(party, &told) == BG_OK ? told : UINT32_MAX;
}

int checked(void) {
    printf("%lu passed, %lu failed\n", passed, failed);
    return failed != 0;
}
