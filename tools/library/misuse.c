/* Handles that are not open, that are closed or copied, parties of the wrong role, arguments out of their range, slots
 * that are not empty or have nothing, null pointers, and room that is too small: what the header says of each, and that
 * nothing else changes. */
#include "bg_relay.h"
#include "checks.h"

#include <string.h>

#define BYTES(text) (const uint8_t *)(text), sizeof(text) - 1

enum { ROOM = 4096, UNTOUCHED = 0xA5 };

static const char TRANSCRIPT[] = "length 1\nopen 3 1\n";

/* Everything that a call may set. */
struct answers {
    uint8_t out[ROOM];
    size_t needed;
    uint32_t number, other;
    bg_verdict verdict;
    bg_saved saved;
    bg_standing standing;
    bg_shown shown;
    bg_outcome outcome;
    bg_datagram first, second;
};
static struct answers answers;

static void forget(void) {
    memset(&answers, UNTOUCHED, sizeof answers);
}

static int is_untouched(void) {
    const uint8_t *bytes = (const uint8_t *)&answers;
    for (size_t at = 0; at < sizeof answers; at++) {
        if (bytes[at] != UNTOUCHED) {
            return 0;
        }
    }
    return 1;
}

/* The calls on a party, by their numbers; the word opens no game. */
enum {
    ENTRIES, SAVED, TOLD, BOARD, A_TRANSCRIPT, TURNS, LINES, ACTOR, STANDING, SHOWN, OPTIONS, CLAIM, TRY, DUE, TAKE,
    TAKE_FROM, HEARD, CHOOSE, TICK, TO_SAVE, MARK_SAVED, CALLS
};

static const char *const NAMES[CALLS] = {
    "bg_party_entries", "bg_party_saved", "bg_party_told", "bg_party_board", "bg_party_transcript",
    "bg_party_turns", "bg_party_entries_text", "bg_party_actor", "bg_party_standing", "bg_party_shown", "bg_party_options",
    "bg_party_claim", "bg_party_try", "bg_referee_due", "bg_party_take", "bg_party_take_from", "bg_referee_heard",
    "bg_seat_choose", "bg_party_tick", "bg_party_to_save", "bg_party_mark_saved",
};

static bg_status call(int which, bg_party *party) {
    struct answers *to = &answers;
    forget();
    switch (which) {
    case ENTRIES:
        return bg_party_entries(party, &to->number);
    case SAVED:
        return bg_party_saved(party, &to->number);
    case TOLD:
        return bg_party_told(party, &to->number);
    case BOARD:
        return bg_party_board(party, to->out, ROOM, &to->needed);
    case A_TRANSCRIPT:
        return bg_party_transcript(party, to->out, ROOM, &to->needed);
    case TURNS:
        return bg_party_turns(party, to->out, ROOM, &to->needed);
    case LINES:
        return bg_party_entries_text(party, 1, 1, to->out, ROOM, &to->needed);
    case ACTOR:
        return bg_party_actor(party, &to->number);
    case STANDING:
        return bg_party_standing(party, &to->standing);
    case SHOWN:
        return bg_party_shown(party, &to->shown, to->out, ROOM, &to->needed);
    case OPTIONS:
        return bg_party_options(party, &to->number);
    case CLAIM:
        return bg_party_claim(party, &to->number, to->out, ROOM, &to->needed);
    case TRY:
        return bg_party_try(party, 1, BYTES("roll"), &to->number, &to->other);
    case DUE:
        return bg_referee_due(party, 12, &to->number);
    case TAKE:
        return bg_party_take(party, BYTES("BG"), 0, &to->outcome, &to->first);
    case TAKE_FROM:
        return bg_party_take_from(party, 1, BYTES("BG"), 0, &to->outcome, &to->first);
    case HEARD:
        return bg_referee_heard(party, 3, 0, &to->outcome, &to->first);
    case CHOOSE:
        return bg_seat_choose(party, BYTES("roll"), &to->number, &to->other);
    case TICK:
        return bg_party_tick(party, &to->first, &to->second);
    case TO_SAVE:
        return bg_party_to_save(party, &to->number, &to->other, to->out, ROOM, &to->needed);
    default:
        return bg_party_mark_saved(party, 1);
    }
}

static void refuses(int which, bg_party *party, bg_status wanted) {
    check_status(call(which, party), wanted, NAMES[which]);
    check(is_untouched(), NAMES[which]);
}

static bg_status open_fresh(bg_party *party, uint32_t number) {
    return bg_party_begin(party, number, 1, 5, 1, NULL, 0, NULL, 0);
}

/* Every call on the handle answers this, and so does a second close. */
static void check_refused(bg_party *party, bg_status wanted) {
    for (int which = 0; which < CALLS; which++) {
        refuses(which, party, wanted);
    }
    check_status(bg_party_close(party), wanted, "bg_party_close");
}

/* A save of the referee of match 1, of 5 points by the first rules, without entries. */
static const char SAVE[] = "BGS2\0\0\0\0\0\0\0\0\1\5\1\0\0\0\1\0\0\0\0\0";

static void check_handles(void) {
    bg_party party = BG_PARTY_INIT;
    check_refused(&party, BG_NOT_OPEN);
    check_status(open_fresh(&party, 256), BG_BAD_ARGUMENT, "a party that is refused");
    check_refused(&party, BG_NOT_OPEN);
    check_status(open_fresh(&party, 0), BG_OK, "a referee is opened");
    check_status(open_fresh(&party, 1), BG_OK, "a seat is opened over it");
    check_status(bg_party_close(&party), BG_OK, "the seat is closed");
    check_refused(&party, BG_CLOSED);
    check_status(open_fresh(&party, 2), BG_OK, "a handle is opened again");
    check_status(call(BOARD, &party), BG_OK, "the board of a handle that was opened again");
    check_status(bg_party_close(&party), BG_OK, "it is closed again");
    check_status(open_fresh(&party, 256), BG_BAD_ARGUMENT, "a party that is refused");
    check_refused(&party, BG_CLOSED);
}

/* Of two handles with the same bytes the one that was opened goes on, whatever is tried with the other. */
static void check_copies(void) {
    bg_party party = BG_PARTY_INIT;
    check_status(open_fresh(&party, 0), BG_OK, "the referee");
    check_status(call(DUE, &party), BG_OK, "its opening");
    bg_party copy = party;
    check_refused(&copy, BG_COPIED);
    check_status(open_fresh(&copy, 0), BG_COPIED, "a copy that is to begin");
    check_status(bg_party_resume(&copy, 0, 1, 5, 1, NULL, 0, BYTES(SAVE), &answers.saved), BG_COPIED,
                 "a copy that is to go on");
    check_number(entries_of(&party), 1, "the entries of what was copied");
    check_status(bg_party_close(&party), BG_OK, "what was copied is closed");
    check_refused(&copy, BG_COPIED);
    copy = party;
    check_refused(&copy, BG_COPIED);
    copy = (bg_party)BG_PARTY_INIT;
    check_status(open_fresh(&copy, 0), BG_OK, "a handle that begins anew");
    check_status(bg_party_close(&copy), BG_OK, "which is closed");
}

static void check_roles(void) {
    bg_party referee = BG_PARTY_INIT, seat = BG_PARTY_INIT, watcher = BG_PARTY_INIT;
    check_status(open_fresh(&referee, 0), BG_OK, "the referee");
    check_status(open_fresh(&seat, 1), BG_OK, "the seat of X");
    check_status(open_fresh(&watcher, 255), BG_OK, "the last watcher");
    refuses(CHOOSE, &referee, BG_WRONG_PARTY);
    refuses(DUE, &seat, BG_WRONG_PARTY);
    refuses(DUE, &watcher, BG_WRONG_PARTY);
    refuses(CHOOSE, &watcher, BG_WRONG_PARTY);
    refuses(TO_SAVE, &watcher, BG_WRONG_PARTY);
    refuses(MARK_SAVED, &watcher, BG_WRONG_SAVE);
    refuses(TAKE, &referee, BG_NOT_A_PACKET);
    refuses(TAKE, &seat, BG_NOT_A_PACKET);
    refuses(TAKE, &watcher, BG_NOT_A_PACKET);
    refuses(TURNS, &referee, BG_NOT_TO_MOVE);
    check_number(saved_of(&seat), 0, "a seat tells nothing");
    bg_party_close(&referee);
    bg_party_close(&seat);
    bg_party_close(&watcher);
}

/* An opening that is refused leaves the handle as it is: here a referee with an entry. */
static void check_kept(bg_party *party, void *inner, bg_status status, bg_status wanted, const char *what) {
    check_status(status, wanted, what);
    check(party->inner == inner && entries_of(party) == 1, what);
}

static void check_begin(bg_party *party, uint32_t number, uint32_t length, uint32_t rules, const char *slot0,
                        const char *slot1, bg_status wanted, const char *what) {
    void *inner = party->inner;
    bg_status status = bg_party_begin(party, number, 1, length, rules, (const uint8_t *)slot0, strlen(slot0),
                                      (const uint8_t *)slot1, strlen(slot1));
    check_kept(party, inner, status, wanted, what);
}

static void check_resume(bg_party *party, uint32_t number, uint32_t length, uint32_t rules, const char *slot0,
                         const char *slot1, bg_status wanted, const char *what) {
    void *inner = party->inner;
    forget();
    bg_status status = bg_party_resume(party, number, 1, length, rules, (const uint8_t *)slot0, strlen(slot0),
                                       (const uint8_t *)slot1, strlen(slot1), &answers.saved);
    check_kept(party, inner, status, wanted, what);
    check(is_untouched(), what);
}

static void check_arguments(void) {
    bg_party party = BG_PARTY_INIT;
    check_status(open_fresh(&party, 0), BG_OK, "the referee");
    check_status(call(DUE, &party), BG_OK, "the word 12 opens a game");
    check_begin(&party, 0, 0, 1, "", "", BG_BAD_ARGUMENT, "a length of 0");
    check_begin(&party, 0, 100, 1, "", "", BG_BAD_ARGUMENT, "a length of 100");
    check_begin(&party, 0, 256 + 5, 1, "", "", BG_BAD_ARGUMENT, "a length that is 5 in a byte");
    check_begin(&party, 0, 5, 0, "", "", BG_BAD_ARGUMENT, "rules of 0");
    check_begin(&party, 0, 5, 3, "", "", BG_BAD_ARGUMENT, "rules of 3");
    check_begin(&party, 0, 5, 256 + 1, "", "", BG_BAD_ARGUMENT, "rules that are 1 in a byte");
    check_begin(&party, 256, 5, 1, "", "", BG_BAD_ARGUMENT, "a party that is the referee in a byte");
    check_begin(&party, UINT32_MAX, 5, 1, "", "", BG_BAD_ARGUMENT, "the greatest number");
    check_begin(&party, 3, 0, 1, "", "", BG_BAD_ARGUMENT, "a watcher of a match of length 0");
    check_begin(&party, 256, 5, 1, "x", "x", BG_BAD_ARGUMENT, "a party that there is not, and slots");
    check_begin(&party, 0, 5, 1, "x", "", BG_NOT_EMPTY, "a slot 0 that has something");
    check_begin(&party, 1, 5, 1, "", "x", BG_NOT_EMPTY, "a slot 1 that has something");
    check_begin(&party, 4, 5, 1, "x", "x", BG_NOT_EMPTY, "slots of a watcher, who has none");
    check_resume(&party, 0, 100, 1, "", "", BG_BAD_ARGUMENT, "to go on with a length of 100");
    check_resume(&party, 3, 5, 1, "", "", BG_BAD_ARGUMENT, "a watcher, who goes on with nothing");
    check_resume(&party, 256, 5, 1, "", "", BG_BAD_ARGUMENT, "a party that is the referee in a byte");
    check_resume(&party, 0, 5, 1, "", "", BG_NOTHING_SAVED, "to go on with empty slots");
    check_resume(&party, 0, 5, 1, "", "x", BG_NOTHING_SAVED, "a slot 1 that was never whole");
    check_resume(&party, 0, 5, 1, "x", "", BG_DAMAGED, "a slot 0 that is no saved text");
    check_resume(&party, 1, 5, 1, "BGS2", "x", BG_DAMAGED, "two slots that are none");
    check_status(bg_party_close(&party), BG_OK, "the referee is closed");
}

/* A host that writes each save to slot 1 is warned while its match is there. */
static void check_one_slot(void) {
    bg_party party = BG_PARTY_INIT;
    uint8_t text[ROOM];
    size_t length = 0;
    uint32_t slot = 9, save = 9;
    bg_saved saved = {0};
    check_status(open_fresh(&party, 0), BG_OK, "the referee");
    for (uint32_t number = 1; number <= 2; number++) {
        check_status(bg_party_to_save(&party, &slot, &save, text, ROOM, &length), BG_OK, "a save");
        check_number(slot, number % 2, "the slot that it belongs to");
        check_status(bg_party_mark_saved(&party, save), BG_OK, "the save is marked");
        check_status(bg_party_resume(&party, 0, 1, 5, 1, NULL, 0, text, length, &saved), BG_OK, "it goes on by slot 1");
        check(saved.found == 1 && saved.save == number && saved.slot == 1, "with its save");
        check_number(saved.misplaced, number == 2 ? 2 : 0, "the warning of the second one");
    }
    check_status(bg_party_close(&party), BG_OK, "the referee is closed");
}

static void check_nulls(void) {
    struct answers *to = &answers;
    bg_party seat = BG_PARTY_INIT;
    forget();
    check_status(bg_judge(NULL, 0, &to->verdict, NULL, 0, &to->needed), BG_NO_ROOM, "a transcript without bytes");
    check_number(to->verdict.kind, 1, "it is refused");
    check_number(to->verdict.number, 1, "at line 1");
    check_number(to->needed, strlen("refused at line 1: not a length line\n"), "the text that it needs room for");
    check_status(bg_transcript_board(NULL, 0, NULL, 0, &to->needed), BG_REFUSED, "the board of no bytes");
    check_status(open_fresh(&seat, 1), BG_OK, "slots without bytes");
    check_status(bg_party_take(&seat, NULL, 0, 0, &to->outcome, &to->first), BG_NOT_A_PACKET, "a packet without bytes");
    check_status(bg_seat_choose(&seat, NULL, 0, &to->number, &to->other), BG_NOT_AN_ACTION, "an action without bytes");
    check_status(bg_party_board(&seat, NULL, 0, &to->needed), BG_NO_ROOM, "no room at all");
    check(to->needed > 0, "the text that there is no room for");
    bg_party_close(&seat);
}

/* The text of a call, by its number, of a transcript or of a party. */
enum { JUDGE = CALLS, TRANSCRIPT_BOARD, TRANSCRIPT_TURNS, STATUS_TEXT };

static bg_status text_of(int which, bg_party *party, size_t room) {
    struct answers *to = &answers;
    forget();
    switch (which) {
    case BOARD:
        return bg_party_board(party, to->out, room, &to->needed);
    case A_TRANSCRIPT:
        return bg_party_transcript(party, to->out, room, &to->needed);
    case LINES:
        return bg_party_entries_text(party, 1, 1, to->out, room, &to->needed);
    case TO_SAVE:
        return bg_party_to_save(party, &to->number, &to->other, to->out, room, &to->needed);
    case JUDGE:
        return bg_judge(BYTES(TRANSCRIPT), &to->verdict, to->out, room, &to->needed);
    case TRANSCRIPT_BOARD:
        return bg_transcript_board(BYTES(TRANSCRIPT), to->out, room, &to->needed);
    case TRANSCRIPT_TURNS:
        return bg_transcript_turns(BYTES(TRANSCRIPT), to->out, room, &to->needed);
    default:
        return bg_status_text(BG_DAMAGED, to->out, room, &to->needed);
    }
}

static void check_room(int which, bg_party *party, const char *what) {
    check_status(text_of(which, party, ROOM), BG_OK, what);
    size_t needed = answers.needed;
    check(needed > 0 && needed < ROOM && answers.out[needed] == UNTOUCHED, what);
    check_status(text_of(which, party, needed - 1), BG_NO_ROOM, what);
    check_number(answers.needed, needed, what);
    check(answers.out[0] == UNTOUCHED && answers.out[needed - 2] == UNTOUCHED, what);
    check_status(text_of(which, party, needed), BG_OK, what);
    check_number(answers.needed, needed, what);
    check(answers.out[needed - 1] != UNTOUCHED && answers.out[needed] == UNTOUCHED, what);
}

int main(void) {
    bg_party party = BG_PARTY_INIT;
    check_handles();
    check_copies();
    check_roles();
    check_arguments();
    check_one_slot();
    check_nulls();
    check_status(open_fresh(&party, 0), BG_OK, "the referee");
    check_room(BOARD, &party, "room for a board");
    check_room(A_TRANSCRIPT, &party, "room for the transcript of a party");
    check_status(call(LINES, &party), BG_OK, "the lines of no entry");
    check_number(answers.needed, 0, "they have no bytes");
    check_status(call(DUE, &party), BG_OK, "an opening");
    check_room(LINES, &party, "room for the line of an entry");
    check_room(TO_SAVE, &party, "room for a saved text");
    check_room(JUDGE, &party, "room for what the judge says");
    check_room(TRANSCRIPT_BOARD, &party, "room for the board after a transcript");
    check_room(TRANSCRIPT_TURNS, &party, "room for legal turns");
    check_room(STATUS_TEXT, &party, "room for what a status says");
    bg_party_close(&party);
    return checked();
}
