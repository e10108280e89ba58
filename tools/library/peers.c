/* What a program does that knows its peers: it hands in packets of a sender that it has authenticated, names the peers
 * that it has to a referee that was opened again, and ticks many parties by one call. */
#include "bg_relay.h"
#include "checks.h"

#include <string.h>

#define BYTES(text) (const uint8_t *)(text), sizeof(text) - 1

enum { ROOM = 4096, THREE_ONE = 12, MANY = 100 };

/* The seat of X claims that entry 2 of match 1 is the move 8-5 6-5. */
static const char CLAIM[] = "BG\2\2\0\0\0\0\0\0\0\1\1\1\0\0\0\2\6\2\10\5\6\5";

static uint8_t slot[ROOM], out[ROOM];
static size_t saved_bytes, needed;

static bg_outcome outcome;
static bg_datagram answer;

static void save(bg_party *party, uint8_t *text, size_t *length) {
    uint32_t place = 9, number = 9;
    check_status(bg_party_to_save(party, &place, &number, text, ROOM, length), BG_OK, "a save");
    check_status(bg_party_mark_saved(party, number), BG_OK, "it is marked");
}

/* A referee whose opening is saved in slot 1. */
static void begin_referee(bg_party *referee) {
    uint32_t number = 9;
    check_status(bg_party_begin(referee, 0, 1, 1, 1, NULL, 0, NULL, 0), BG_OK, "a referee");
    check_status(bg_referee_due(referee, THREE_ONE, &number), BG_OK, "an opening");
    save(referee, slot, &saved_bytes);
}

static void check_senders(void) {
    bg_party referee = BG_PARTY_INIT;
    begin_referee(&referee);
    check_status(bg_party_take_from(&referee, 2, BYTES(CLAIM), 0, &outcome, &answer), BG_OTHER_SENDER, "O as X");
    check_status(bg_party_take_from(&referee, 257, BYTES(CLAIM), 0, &outcome, &answer), BG_BAD_ARGUMENT, "no party");
    check_number(entries_of(&referee), 1, "the entries after both");
    check_status(bg_party_take_from(&referee, 1, BYTES(CLAIM), 0, &outcome, &answer), BG_OK, "X as X");
    check_number(outcome.kind, BG_TOOK_ACCEPTED, "what becomes of it");
    bg_party_close(&referee);
}

static void check_reopened(void) {
    bg_party referee = BG_PARTY_INIT;
    bg_party *all[] = {&referee};
    bg_ticked ticked;
    bg_saved saved;
    size_t sending = 9;
    begin_referee(&referee);
    check_status(bg_party_resume(&referee, 0, 1, 1, 1, NULL, 0, slot, saved_bytes, &saved), BG_OK, "it is opened again");
    check_status(bg_referee_heard(&referee, 3, 0, &outcome, &answer), BG_OK, "a watcher that holds nothing");
    check(outcome.kind == BG_TOOK_ANSWERED && answer.to == 3, "it is sent the opening");
    check_status(bg_referee_heard(&referee, 2, 1, &outcome, &answer), BG_OK, "a seat that holds the opening");
    check(outcome.kind == BG_TOOK_NOTHING && answer.length == 0, "it is sent nothing");
    check_status(bg_referee_heard(&referee, 2, 2, &outcome, &answer), BG_OK, "a seat that holds more");
    check_number(outcome.kind, BG_TOOK_AHEAD, "which no seat may");
    check_status(bg_parties_tick(all, 1, &ticked, &sending), BG_OK, "a tick of a referee whom nobody waits for");
    check(sending == 0 && ticked.status == BG_OK && ticked.count == 0, "it sends nothing");
    check_status(bg_party_take_from(&referee, 1, BYTES(CLAIM), 0, &outcome, &answer), BG_OK, "a claim");
    save(&referee, out, &needed);
    check_status(bg_parties_tick(all, 1, &ticked, &sending), BG_OK, "a tick after a save");
    check(sending == 1 && ticked.count == 2, "it sends two packets");
    check(ticked.packets[0].to == 1 && ticked.packets[1].to == 2, "to the seats");
    check_status(bg_parties_tick(all, 1, &ticked, &sending), BG_OK, "the next tick");
    check(sending == 1 && ticked.count == 1 && ticked.packets[0].to == 3, "to the watcher");
    check(ticked.packets[1].length == 0 && ticked.packets[1].to == 0, "the other one sends nothing");
    bg_party_close(&referee);
}

/* Seats of many matches send at once; one that is closed has its status. */
static void check_many(void) {
    static bg_party parties[MANY];
    static bg_ticked ticked[MANY];
    bg_party *all[MANY];
    size_t sending = 9;
    for (size_t at = 0; at < MANY; at++) {
        all[at] = &parties[at];
        if (at != 7) {
            check_status(bg_party_begin(&parties[at], 1, at, 1, 1, NULL, 0, NULL, 0), BG_OK, "a seat");
        }
    }
    memset(ticked, 0xA5, sizeof ticked);
    check_status(bg_parties_tick(all, MANY, ticked, &sending), BG_OK, "a tick of many");
    check_number(sending, MANY - 1, "all that are open send");
    check(ticked[7].status == BG_NOT_OPEN && ticked[7].count == 0 && ticked[7].packets[0].length == 0xA5A5A5A5, "one is not");
    check(ticked[8].status == BG_OK && ticked[8].count == 1 && ticked[8].packets[0].length == 18, "a want");
    check(ticked[8].packets[0].bytes[11] == 8 && ticked[8].reserved[0] == 0, "of its own match");
    check_status(bg_parties_tick(all, 0, NULL, &sending), BG_OK, "a tick of none");
    check_number(sending, 0, "none sends");
    for (size_t at = 0; at < MANY; at++) {
        bg_party_close(&parties[at]);
    }
}

int main(void) {
    check_senders();
    check_reopened();
    check_many();
    return checked();
}
