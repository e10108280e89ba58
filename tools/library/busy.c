/* A second thread inside a handle: while a call waits for memory, a second thread makes every call on the same handle,
 * and each is refused, and sets nothing. Then the first call ends as if nothing had been. The heap of the library, in
 * the place of include/heap.c, is where the first call is held. */
#define _POSIX_C_SOURCE 200809L
#include "bg_relay.h"
#include "checks.h"

#include <pthread.h>
#include <stdio.h>
#include <stdlib.h>
#include <string.h>

enum { ROOM = 4096, UNTOUCHED = 0xA5, THREE_ONE = 12 };

struct bg_tried {
    unsigned char ok;
    void *block;
};

struct bg_tried rattle_alloc(size_t size, size_t align);
struct bg_tried rattle_realloc(void *block, size_t kept, size_t size, size_t align);
void rattle_dealloc(void *block);

static bg_party party = BG_PARTY_INIT;
static int is_armed;
static unsigned seconds;

/* All that the calls of the second thread may set. */
static struct {
    uint8_t out[ROOM];
    size_t needed;
    uint32_t one, two;
    bg_saved saved;
    bg_standing standing;
    bg_outcome outcome;
    bg_datagram first, second;
} set;

static void *second_thread(void *argument) {
    bg_party copy = party;
    (void)argument;
    check_status(bg_party_begin(&party, 0, 1, 5, 1, NULL, 0, NULL, 0), BG_BUSY, "bg_party_begin");
    check_status(bg_party_resume(&party, 0, 1, 5, 1, NULL, 0, NULL, 0, &set.saved), BG_BUSY, "bg_party_resume");
    check_status(bg_party_close(&party), BG_BUSY, "bg_party_close");
    check_status(bg_party_entries(&party, &set.one), BG_BUSY, "bg_party_entries");
    check_status(bg_party_saved(&party, &set.one), BG_BUSY, "bg_party_saved");
    check_status(bg_party_told(&party, &set.one), BG_BUSY, "bg_party_told");
    check_status(bg_party_board(&party, set.out, ROOM, &set.needed), BG_BUSY, "bg_party_board");
    check_status(bg_party_transcript(&party, set.out, ROOM, &set.needed), BG_BUSY, "bg_party_transcript");
    check_status(bg_party_turns(&party, set.out, ROOM, &set.needed), BG_BUSY, "bg_party_turns");
    check_status(bg_party_entries_text(&party, 1, 1, set.out, ROOM, &set.needed), BG_BUSY, "bg_party_entries_text");
    check_status(bg_party_actor(&party, &set.one), BG_BUSY, "bg_party_actor");
    check_status(bg_party_standing(&party, &set.standing), BG_BUSY, "bg_party_standing");
    check_status(bg_party_options(&party, &set.one), BG_BUSY, "bg_party_options");
    check_status(bg_party_claim(&party, &set.one, set.out, ROOM, &set.needed), BG_BUSY, "bg_party_claim");
    check_status(bg_party_try(&party, 1, NULL, 0, &set.one, &set.two), BG_BUSY, "bg_party_try");
    check_status(bg_referee_due(&party, THREE_ONE, &set.one), BG_BUSY, "bg_referee_due");
    check_status(bg_party_take(&party, NULL, 0, 0, &set.outcome, &set.first), BG_BUSY, "bg_party_take");
    check_status(bg_seat_choose(&party, NULL, 0, &set.one, &set.two), BG_BUSY, "bg_seat_choose");
    check_status(bg_party_tick(&party, &set.first, &set.second), BG_BUSY, "bg_party_tick");
    check_status(bg_party_to_save(&party, &set.one, &set.two, set.out, ROOM, &set.needed), BG_BUSY,
                 "bg_party_to_save");
    check_status(bg_party_mark_saved(&party, 1), BG_BUSY, "bg_party_mark_saved");
    check_status(bg_party_close(&copy), copy.place ? BG_COPIED : BG_BUSY, "a copy that was made meanwhile");
    return NULL;
}

static void hold(void) {
    pthread_t thread;
    if (!is_armed) {
        return;
    }
    is_armed = 0;
    seconds++;
    memset(&set, UNTOUCHED, sizeof set);
    if (pthread_create(&thread, NULL, second_thread, NULL)) {
        fprintf(stderr, "busy: there is no thread\n");
        exit(1);
    }
    pthread_join(thread, NULL);
    const uint8_t *bytes = (const uint8_t *)&set;
    size_t at = 0;
    while (at < sizeof set && bytes[at] == UNTOUCHED) {
        at++;
    }
    check_number(at, sizeof set, "a call that is refused sets nothing");
}

static struct bg_tried tried_of(void *block) {
    static char no_block;
    struct bg_tried tried = {block != NULL, block ? block : &no_block};
    return tried;
}

struct bg_tried rattle_alloc(size_t size, size_t align) {
    hold();
    return tried_of(malloc(size ? size : align));
}

struct bg_tried rattle_realloc(void *block, size_t kept, size_t size, size_t align) {
    (void)kept;
    hold();
    return tried_of(realloc(block, size ? size : align));
}

void rattle_dealloc(void *block) {
    free(block);
}

/* The next call that asks for memory is held. */
static void check_held(bg_status status, const char *what) {
    check_status(status, BG_OK, what);
    check(!is_armed, what);
    is_armed = 1;
}

int main(void) {
    uint8_t out[ROOM];
    size_t needed = 0;
    uint32_t number = 0, slot = 0, save = 0;
    is_armed = 1;
    check_held(bg_party_begin(&party, 0, 1, 5, 1, NULL, 0, NULL, 0), "a handle that is opened");
    check_held(bg_referee_due(&party, THREE_ONE, &number), "an opening");
    check_held(bg_party_board(&party, out, ROOM, &needed), "a board");
    check_held(bg_party_turns(&party, out, ROOM, &needed), "legal turns");
    check_held(bg_party_to_save(&party, &slot, &save, out, ROOM, &needed), "a save");
    is_armed = 0;
    check_number(seconds, 5, "how often a second thread came");
    check_number(entries_of(&party), 1, "the entries at the end");
    check_status(bg_party_mark_saved(&party, save), BG_OK, "the save is still under way");
    check_number(saved_of(&party), 1, "the saved entries at the end");
    check_status(bg_party_close(&party), BG_OK, "the handle is closed");
    return checked();
}
