/* The two slots of a party as two files, FOLDER/party-N.0 and FOLDER/party-N.1, which `bg_relay show` reads too. */
#ifndef SLOTS_H
#define SLOTS_H

#include <stddef.h>
#include <stdint.h>

/* What a slot has; `bytes` is to be freed. */
struct slot_text {
    uint8_t *bytes;
    size_t length;
};

/* Reads a slot whole; a file that is missing has no bytes. 0 where it was read; else a server does not begin. */
int slot_read(const char *folder, unsigned party, unsigned slot, struct slot_text *text);

/* Writes a slot whole, and returns 0 once the disk has it. Else the slot has what it had, or a front of these bytes. */
int slot_write(const char *folder, unsigned party, unsigned slot, const uint8_t *bytes, size_t length);

#endif
