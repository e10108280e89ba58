#include "played.h"
#include "calls.h"

#include <stdlib.h>
#include <string.h>

enum { REFEREE, PARTIES = 3, LENGTH = 99 };

struct sample sample;
uint8_t played_text[MOST_TEXT];

static uint32_t next_word(void) {
    static uint64_t random = 88172645463325252u;
    random ^= random << 13;
    random ^= random >> 7;
    random ^= random << 17;
    return (uint32_t)(random >> 32);
}

void save_party(bg_party *party) {
    uint32_t slot = 0, number = 0;
    size_t needed = 0;
    must(bg_party_to_save(party, &slot, &number, played_text, sizeof played_text, &needed), "bg_party_to_save");
    must(bg_party_mark_saved(party, number), "bg_party_mark_saved");
}

/* A seat rolls, or plays the turn that is the first of the list. */
static void act(bg_party *seat) {
    uint32_t number = 0, why = 0;
    size_t needed = 0;
    if (bg_seat_choose(seat, (const uint8_t *)"roll", 4, &number, &why) == BG_ILLEGAL) {
        must(bg_party_turns(seat, played_text, sizeof played_text, &needed), "bg_party_turns");
        size_t length = (size_t)((uint8_t *)memchr(played_text, '\n', needed) - played_text);
        bg_seat_choose(seat, played_text, length, &number, &why);
    }
    save_party(seat);
}

/* The referee takes what a seat sends, and the seat the answer. */
static void carry(bg_party *referee, bg_party *seat) {
    bg_datagram first = {0}, second = {0}, answer = {0};
    bg_outcome outcome = {0};
    must(bg_party_tick(seat, &first, &second), "bg_party_tick");
    if (first.length > 0) {
        must(bg_party_take(referee, first.bytes, first.length, next_word(), &outcome, &answer), "bg_party_take");
    }
    if (outcome.kind == BG_TOOK_ACCEPTED) {
        save_party(referee);
    }
    if (answer.length > 0) {
        must(bg_party_take(seat, answer.bytes, answer.length, 0, &outcome, &second), "bg_party_take");
    }
}

static void keep(bg_party *referee) {
    uint32_t slot = 0, number = 0;
    size_t needed = 0;
    must(bg_party_to_save(referee, &slot, &number, played_text, sizeof played_text, &needed), "bg_party_to_save");
    sample.saved = malloc(needed);
    memcpy(sample.saved, played_text, needed);
    sample.saved_length = needed;
    sample.slot = slot;
    must(bg_party_transcript(referee, played_text, sizeof played_text, &needed), "bg_party_transcript");
    sample.transcript = malloc(needed);
    memcpy(sample.transcript, played_text, needed);
    sample.transcript_length = needed;
}

/* Keeps the claim of the player who acts next, once the player knows of all entries; none where the referee acts. */
static void keep_claim(bg_party *parties) {
    bg_datagram first = {0}, second = {0};
    uint32_t actor = 0;
    sample.claim_length = 0;
    must(bg_party_actor(&parties[REFEREE], &actor), "bg_party_actor");
    if (actor != 1 && actor != 2) {
        return;
    }
    while (entries_of(&parties[actor]) < entries_of(&parties[REFEREE])) {
        carry(&parties[REFEREE], &parties[actor]);
    }
    act(&parties[actor]);
    must(bg_party_tick(&parties[actor], &first, &second), "bg_party_tick");
    memcpy(sample.claim, first.bytes, first.length);
    sample.claim_length = first.length;
}

void play(uint32_t entries) {
    bg_party parties[PARTIES] = {BG_PARTY_INIT, BG_PARTY_INIT, BG_PARTY_INIT};
    for (uint32_t number = 0; number < PARTIES; number++) {
        must(bg_party_begin(&parties[number], number, 1, LENGTH, 1, NULL, 0, NULL, 0), "bg_party_begin");
    }
    while (entries_of(&parties[REFEREE]) < entries) {
        uint32_t number = 0;
        if (bg_referee_due(&parties[REFEREE], next_word(), &number) == BG_OK) {
            save_party(&parties[REFEREE]);
        }
        for (int seat = 1; seat < PARTIES && entries_of(&parties[REFEREE]) < entries; seat++) {
            act(&parties[seat]);
            carry(&parties[REFEREE], &parties[seat]);
        }
    }
    keep(&parties[REFEREE]);
    keep_claim(parties);
    for (int number = 0; number < PARTIES; number++) {
        bg_party_close(&parties[number]);
    }
}

void resume_sample(bg_party *party) {
    bg_saved saved = {0};
    const uint8_t *zero = sample.slot == 0 ? sample.saved : NULL, *one = sample.slot == 1 ? sample.saved : NULL;
    size_t length = sample.saved_length;
    must(bg_party_resume(party, REFEREE, 1, LENGTH, 1, zero, zero ? length : 0, one, one ? length : 0, &saved),
         "bg_party_resume");
}
