/* Checks that count: a program of them goes on where one fails, and says at its end how many passed and failed. */
#ifndef CHECKS_H
#define CHECKS_H

#include "bg_relay.h"

/* Counts, and prints what fails. */
void check(int holds, const char *what);
void check_status(bg_status got, bg_status wanted, const char *what);
void check_number(uint64_t got, uint64_t wanted, const char *what);
void check_text(const uint8_t *got, size_t length, const char *wanted, const char *what);

/* How many entries a party has, how many of them the referee has saved, and how many a party may show to others;
 * UINT32_MAX where the call does not say. */
uint32_t entries_of(const bg_party *party);
uint32_t saved_of(const bg_party *party);
uint32_t told_of(const bg_party *party);

/* Prints how many passed and failed; what `main` returns. */
int checked(void);

#endif
