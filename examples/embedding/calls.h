/* What each program that makes the calls has: room that grows with a text, and an end where a call fails. */
#ifndef CALLS_H
#define CALLS_H

#include "bg_relay.h"

/* Room for a text, and how many bytes the text has. It begins as zero bytes; `bytes` is to be freed. */
struct text {
    uint8_t *bytes;
    size_t room;
    size_t length;
};

/* Makes room for a text that did not fit: the call is then made again. */
void make_room(struct text *text);

/* Ends the program, and says of which call and why. */
void stop(const char *call, const char *why);

/* Ends the program where a call answers anything but BG_OK. */
void must(bg_status status, const char *call);

/* How many entries a party has. */
uint32_t entries_of(const bg_party *party);

#endif
