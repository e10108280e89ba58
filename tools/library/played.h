/* A match to 99 points that is played in memory, for what measures calls on it. */
#ifndef PLAYED_H
#define PLAYED_H

#include "bg_relay.h"

enum { MOST_TEXT = 1 << 20 };

/* The texts of a referee who holds so many entries, and the claim that comes next; it has no bytes where the referee
 * acts. */
struct sample {
    uint8_t *saved, *transcript, claim[BG_MOST_DATAGRAM_BYTES];
    size_t saved_length, transcript_length, claim_length;
    uint32_t slot;
};
extern struct sample sample;

/* Room for each text of it. */
extern uint8_t played_text[MOST_TEXT];

/* Plays until the referee holds so many entries, and makes the sample. */
void play(uint32_t entries);

/* The referee goes on with the saved text, which stands in the slot that it stood in before. */
void resume_sample(bg_party *party);

/* Saves a party, into the room. */
void save_party(bg_party *party);

#endif
