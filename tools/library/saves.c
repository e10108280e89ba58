/* The order of saving: a save that is not whole, or that something came in between of, counts for nothing, so that the
 * referee tells no entry that no slot has. */
#include "bg_relay.h"
#include "checks.h"

#define BYTES(text) (const uint8_t *)(text), sizeof(text) - 1

/* A word whose dice are 3 and 1. */
enum { ROOM = 4096, THREE_ONE = 12 };

static const char MOVE[] = "move 8-5 6-5";

/* A save: what bg_party_to_save gave. */
struct save {
    uint32_t slot, number;
    uint8_t text[ROOM];
    size_t length;
};

static void open_fresh(bg_party *party, uint32_t number) {
    check_status(bg_party_begin(party, number, 1, 1, 1, NULL, 0, NULL, 0), BG_OK, "a fresh party");
}

static void begin(bg_party *party, struct save *save) {
    bg_status status = bg_party_to_save(party, &save->slot, &save->number, save->text, ROOM, &save->length);
    check_status(status, BG_OK, "a save begins");
}

static void save_whole(bg_party *party) {
    struct save save = {0};
    begin(party, &save);
    check_status(bg_party_mark_saved(party, save.number), BG_OK, "a save counts");
}

static void opens_game(bg_party *referee) {
    uint32_t number = 0;
    check_status(bg_referee_due(referee, THREE_ONE, &number), BG_OK, "a game is opened");
    check_number(number, 1, "the entry that opens it");
}

static uint32_t take(bg_party *party, const bg_datagram *packet, bg_datagram *answer) {
    bg_outcome outcome = {0};
    check_status(bg_party_take(party, packet->bytes, packet->length, THREE_ONE, &outcome, answer), BG_OK, "a packet");
    return outcome.kind;
}

/* What a seat sends: at first that it holds nothing, and then its claim. */
static bg_datagram ticked(bg_party *seat) {
    bg_datagram first = {0}, second = {0};
    check_status(bg_party_tick(seat, &first, &second), BG_OK, "a tick");
    check(first.length > 0 && first.to == 0 && second.length == 0, "a seat sends one packet, to the referee");
    return first;
}

/* A seat of X that knows the opening, and claims entry 2; the claim is saved. */
static bg_datagram claim_of(bg_party *seat) {
    bg_party referee = BG_PARTY_INIT;
    bg_datagram answer = {0}, none = {0};
    uint32_t number = 0, why = 0;
    open_fresh(&referee, 0);
    opens_game(&referee);
    save_whole(&referee);
    bg_datagram want = ticked(seat);
    check_number(take(&referee, &want, &answer), BG_TOOK_ANSWERED, "a want is answered");
    check_number(take(seat, &answer, &none), BG_TOOK_GREW, "a seat learns");
    check_status(bg_seat_choose(seat, BYTES(MOVE), &number, &why), BG_OK, "a seat claims");
    check_number(number, 2, "the entry that it claims");
    want = ticked(seat);
    check_number(want.bytes[3], 1, "a claim that is not saved is not sent");
    save_whole(seat);
    bg_party_close(&referee);
    return ticked(seat);
}

/* An entry is accepted between bg_party_to_save and bg_party_mark_saved: the slot has it not, so it is not told. */
static void check_accepted_between(const bg_datagram *claim, bg_party *seat) {
    bg_party referee = BG_PARTY_INIT;
    bg_datagram answer = {0};
    struct save save = {0};
    open_fresh(&referee, 0);
    opens_game(&referee);
    begin(&referee, &save);
    check_number(take(&referee, claim, &answer), BG_TOOK_ACCEPTED, "a claim is accepted");
    check_number(entries_of(&referee), 2, "the entries of the referee");
    check_status(bg_party_mark_saved(&referee, save.number), BG_WRONG_SAVE, "a save that an entry came in between of");
    check_number(saved_of(&referee), 0, "what is saved after it");
    check_number(told_of(&referee), 0, "what it may show then");
    check_number(take(&referee, claim, &answer), BG_TOOK_NOTHING, "a claim is not answered before it is saved");
    save_whole(&referee);
    check_number(saved_of(&referee), 2, "what is saved at last");
    check_number(take(&referee, claim, &answer), BG_TOOK_ANSWERED, "a claim is answered once it is saved");
    check_number(answer.to, 1, "the answer goes to the seat");
    check_number(take(seat, &answer, &(bg_datagram){0}), BG_TOOK_GREW, "the seat learns");
    check_number(entries_of(seat), 2, "the entries of the seat");
    bg_party_close(&referee);
}

static void check_numbers(void) {
    bg_party referee = BG_PARTY_INIT;
    struct save first = {0}, again = {0};
    uint32_t number = 0;
    open_fresh(&referee, 0);
    check_status(bg_party_mark_saved(&referee, 1), BG_WRONG_SAVE, "no save was begun");
    begin(&referee, &first);
    check_number(first.number, 1, "the first save");
    check_number(first.slot, 1, "its slot");
    check_status(bg_party_mark_saved(&referee, 2), BG_WRONG_SAVE, "another number");
    check_status(bg_party_mark_saved(&referee, 1), BG_OK, "the number of the save");
    check_status(bg_party_mark_saved(&referee, 1), BG_WRONG_SAVE, "the same number once more");
    begin(&referee, &first);
    check_number(first.number, 2, "the second save");
    check_number(first.slot, 0, "its slot");
    begin(&referee, &again);
    check(again.number == 2 && again.slot == 0 && again.length == first.length, "the same save, begun again");
    check_status(bg_referee_due(&referee, 4294967295u, &number), BG_WORD_REFUSED, "a word without dice");
    bg_datagram one = {0}, two = {0};
    check_status(bg_party_tick(&referee, &one, &two), BG_OK, "a tick in between");
    check_number(one.length, 0, "the referee has nothing to push");
    check_status(bg_party_mark_saved(&referee, 2), BG_OK, "a save that only refusals and ticks came in between of");
    begin(&referee, &first);
    opens_game(&referee);
    check_status(bg_party_mark_saved(&referee, 3), BG_WRONG_SAVE, "a save that the opening came in between of");
    bg_party_close(&referee);
}

static void check_short_room(void) {
    bg_party referee = BG_PARTY_INIT;
    struct save save = {0};
    open_fresh(&referee, 0);
    begin(&referee, &save);
    size_t needed = 0;
    bg_status status = bg_party_to_save(&referee, &save.slot, &save.number, save.text, save.length - 1, &needed);
    check_status(status, BG_NO_ROOM, "a saved text that does not fit");
    check_number(needed, save.length, "the room that it needs");
    check_status(bg_party_mark_saved(&referee, 1), BG_WRONG_SAVE, "a text without room is no save under way");
    save_whole(&referee);
    bg_party_close(&referee);
}

static void check_claim_between(bg_party *seat) {
    bg_party other = BG_PARTY_INIT;
    struct save save = {0};
    uint32_t number = 0, why = 77;
    check_status(bg_seat_choose(seat, BYTES("roll"), &number, &why), BG_ALREADY_CLAIMED, "a second claim");
    check_number(why, 77, "which has no reason");
    begin(seat, &save);
    bg_saved found = {0};
    bg_status status = bg_party_resume(&other, 1, 1, 1, 1, save.text, save.length, NULL, 0, &found);
    check_status(status, BG_OK, "the seat opens as it was saved");
    check(found.save == save.number && found.slot == 0 && found.claim == 2, "by the save that it was handed");
    check_number(found.misplaced, 0, "which stands in its slot");
    check_number(entries_of(&other), 1, "with its entry");
    check_status(bg_seat_choose(&other, BYTES("roll"), &number, &why), BG_ALREADY_CLAIMED, "and with its claim");
    bg_party_close(&other);
}

int main(void) {
    bg_party seat = BG_PARTY_INIT;
    check_numbers();
    check_short_room();
    open_fresh(&seat, 1);
    bg_datagram claim = claim_of(&seat);
    check_number(claim.bytes[3], 2, "a claim that is saved is sent");
    check_claim_between(&seat);
    check_accepted_between(&claim, &seat);
    bg_party_close(&seat);
    return checked();
}
