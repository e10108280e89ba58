/* Prints what a server of many matches asks for, where each referee holds so many entries: how long an action takes,
 * from its packet to what is sent once it is saved, without the writing of the slot; how long a tick of many referees takes
 * that have nothing to send; and how many bytes a referee takes of the heap. Times are the least of many tries. */
#define _POSIX_C_SOURCE 200809L
#include "bg_relay.h"
#include "calls.h"
#include "played.h"

#include <malloc.h>
#include <stdio.h>
#include <stdlib.h>
#include <time.h>

enum { ENTRIES = 500, MANY = 1000, TRIES = 200, WORD = 12, PEERS = 3, MOST_TICKS = 1000 };

static bg_party parties[MANY];
static bg_ticked ticked[MANY];

static double now(void) {
    struct timespec time;
    clock_gettime(CLOCK_MONOTONIC, &time);
    return (double)time.tv_sec * 1e9 + (double)time.tv_nsec;
}

/* Bytes of the heap that are in use. */
static size_t in_use(void) {
    struct mallinfo2 heap = mallinfo2();
    return heap.uordblks + heap.hblkhd;
}

/* A referee whose peers hold all that it has. */
static void open_known(bg_party *party) {
    bg_outcome outcome;
    bg_datagram answer;
    resume_sample(party);
    for (uint32_t peer = 1; peer <= PEERS; peer++) {
        must(bg_referee_heard(party, peer, entries_of(party), &outcome, &answer), "bg_referee_heard");
    }
}

/* The claim is taken, the entry is saved, and the first packets of it are made. */
static void act_once(bg_party *party) {
    bg_outcome outcome = {0};
    bg_datagram first, second;
    must(bg_party_take(party, sample.claim, sample.claim_length, WORD, &outcome, &first), "bg_party_take");
    if (outcome.kind != BG_TOOK_ACCEPTED) {
        stop("bg_party_take", "the claim was not accepted");
    }
    save_party(party);
    must(bg_party_tick(party, &first, &second), "bg_party_tick");
    if (second.length == 0) {
        stop("bg_party_tick", "it makes no two packets");
    }
}

static double time_of_action(void) {
    double least = 1e18;
    for (int attempt = 0; attempt < TRIES; attempt++) {
        bg_party party = BG_PARTY_INIT;
        open_known(&party);
        double start = now();
        act_once(&party);
        double took = now() - start;
        least = took < least ? took : least;
        must(bg_party_close(&party), "bg_party_close");
    }
    return least;
}

/* The bytes of a referee that goes on from its slots, and of one that has then played on. */
static void print_memory(void) {
    size_t before = in_use();
    for (int at = 0; at < MANY; at++) {
        open_known(&parties[at]);
    }
    size_t opened = in_use();
    for (int at = 0; at < MANY; at++) {
        act_once(&parties[at]);
    }
    size_t played = in_use();
    printf("bytes of the heap for a referee: %zu once it is opened, %zu after an action\n", (opened - before) / MANY,
           (played - before) / MANY);
}

static double time_of_ticks(void) {
    static bg_party *all[MANY];
    size_t sending = 1;
    double least = 1e18;
    for (int at = 0; at < MANY; at++) {
        all[at] = &parties[at];
    }
    for (int tick = 0; sending > 0 && tick < MOST_TICKS; tick++) {
        must(bg_parties_tick(all, MANY, ticked, &sending), "bg_parties_tick");
    }
    if (sending > 0) {
        stop("bg_parties_tick", "they do not come to rest");
    }
    for (int attempt = 0; attempt < TRIES; attempt++) {
        double start = now();
        must(bg_parties_tick(all, MANY, ticked, &sending), "bg_parties_tick");
        double took = now() - start;
        least = took < least ? took : least;
    }
    return least;
}

int main(void) {
    for (uint32_t entries = ENTRIES; sample.claim_length == 0; entries++) {
        play(entries);
    }
    printf("nanoseconds of an action of the referee: %.0f\n", time_of_action());
    print_memory();
    printf("microseconds of a tick of %d idle referees: %.1f\n", MANY, time_of_ticks() / 1000);
    for (int at = 0; at < MANY; at++) {
        must(bg_party_close(&parties[at]), "bg_party_close");
    }
    return 0;
}
