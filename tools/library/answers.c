/* What calls answer to the texts, packets and saved files that docs/FORMATS.md shows, and to those of which
 * docs/PROTOCOL.md says what becomes of them. */
#include "bg_relay.h"
#include "checks.h"

#include <string.h>

#define BYTES(text) (const uint8_t *)(text), sizeof(text) - 1

enum { ROOM = 4096 };
#define THREE_ONE 12u
#define WITHOUT_DICE 4294967295u

/* Of match 1, by the first rules: two of party 3, who holds nothing, and more than there is; claims of the seats; the
 * entries 1 and 2, entry 2 another one, one that does not follow, and entry 4. */
static const char WANT[] = "BG\2\1\0\0\0\0\0\0\0\1\1\3\0\0\0\0";
static const char WANT_AHEAD[] = "BG\2\1\0\0\0\0\0\0\0\1\1\3\0\0\0\11";
static const char WANT_OTHER[] = "BG\2\1\0\0\0\0\0\0\0\2\1\3\0\0\0\0";
static const char CLAIM[] = "BG\2\2\0\0\0\0\0\0\0\1\1\1\0\0\0\2\6\2\10\5\6\5";
static const char CLAIM_SHORT[] = "BG\2\2\0\0\0\0\0\0\0\1\1\1\0\0\0\2\6\1\10\5";
static const char CLAIM_OF_O[] = "BG\2\2\0\0\0\0\0\0\0\1\1\2\0\0\0\2\2";
static const char CLAIM_AHEAD[] = "BG\2\2\0\0\0\0\0\0\0\1\1\1\0\0\0\4\2";
static const char ROLL_OF_O[] = "BG\2\2\0\0\0\0\0\0\0\1\1\2\0\0\0\3\2";
static const char ENTRIES[] = "BG\2\3\0\0\0\0\0\0\0\1\1\0\0\0\1\2\1\3\1\6\2\10\5\6\5";
static const char CONFLICT[] = "BG\2\3\0\0\0\0\0\0\0\1\1\0\0\0\2\1\6\2\10\5\10\7";
static const char INVALID[] = "BG\2\3\0\0\0\0\0\0\0\1\1\0\0\0\3\1\11";
static const char BEHIND[] = "BG\2\3\0\0\0\0\0\0\0\1\1\0\0\0\4\1\3";

/* Save 2 of the referee, and the same in the layout of version 1; a save of the seat of X with the claim of entry 2. */
static const char SAVED[] = "BGS2\0\0\0\0\0\0\0\0\1\1\1\0\0\0\2\0\0\0\0\2\1\3\1\6\2\10\5\6\5";
static const char SAVED_1[] = "BGS1\0\0\0\0\0\0\0\0\1\1\0\0\0\2\0\0\2\1\3\1\6\2\10\5\6\5";
static const char SAVED_CLAIM[] = "BGS2\1\0\0\0\0\0\0\0\1\1\1\0\0\0\3\1\0\0\0\2\6\2\10\5\6\5\0\0\0\1\1\3\1";

static uint8_t out[ROOM];
static size_t needed;
static bg_saved found;

static void check_statuses(void) {
    for (bg_status status = BG_OK; status <= BG_NO_XGID; status++) {
        check_status(bg_status_text(status, out, ROOM, &needed), BG_OK, "a status has a text");
        check(needed > 0 && memchr(out, '\n', needed) == NULL, "a text without a line feed");
    }
    check_status(bg_status_text(BG_NO_XGID + 1, out, ROOM, &needed), BG_BAD_ARGUMENT, "the first number of no status");
    check_status(bg_status_text(UINT32_MAX, out, ROOM, &needed), BG_BAD_ARGUMENT, "the last one");
    check(strcmp(bg_status_name(BG_OK), "BG_OK") == 0, "the name of the first status");
    check(strcmp(bg_status_name(BG_NO_XGID), "BG_NO_XGID") == 0, "the name of the last one");
    check(strcmp(bg_status_name(UINT32_MAX), "an unknown status") == 0, "no name");
    check_number(bg_abi(), BG_ABI, "the interface of the library");
    check_number(bg_version(), BG_VERSION, "the version of the library");
    check(strcmp(bg_version_text(), BG_VERSION_TEXT) == 0, "the version as a text");
}

static void check_judged(const char *transcript, uint32_t kind, uint32_t number, const char *line) {
    bg_verdict verdict = {9, 9, {9, 9}};
    bg_status status = bg_judge((const uint8_t *)transcript, strlen(transcript), &verdict, out, ROOM, &needed);
    check_status(status, BG_OK, transcript);
    check_number(verdict.kind, kind, transcript);
    check_number(verdict.number, number, transcript);
    check(verdict.reserved[0] == 0 && verdict.reserved[1] == 0, "what is reserved");
    check(needed >= strlen(line), transcript);
    check_text(out + needed - strlen(line), strlen(line), line, transcript);
    status = bg_transcript_board((const uint8_t *)transcript, strlen(transcript), out, ROOM, &needed);
    check_status(status, kind == 0 ? BG_OK : BG_REFUSED, transcript);
}

static void check_turns(const char *transcript, bg_status wanted, const char *first) {
    bg_status status = bg_transcript_turns((const uint8_t *)transcript, strlen(transcript), out, ROOM, &needed);
    check_status(status, wanted, transcript);
    if (wanted == BG_OK) {
        check(needed >= strlen(first), transcript);
        check_text(out, strlen(first), first, transcript);
    }
}

static void check_texts(void) {
    check_judged("length 1\nopen 3 1\nX move 8-5 6-5\n", 0, 2, "O to roll\nok 2\n");
    check_judged("length 1\nopen 3 1\nX move 8-5\n", 1, 3, "refused at line 3: more can be played\n");
    check_judged("length 1\n\n", 1, 2, "refused at line 2: not a line\n");
    check_judged("length 0\n", 1, 1, "refused at line 1: length out of range\n");
    check_judged("length 99 rules 2", 0, 0, "ok 0\n");
    check_turns("length 1\nopen 3 1\nX move 8-5\n", BG_REFUSED, "");
    check_turns("length 1\n", BG_NOT_TO_MOVE, "");
    check_turns("length 1\nopen 3 1\nX move 8-5 6-5\n", BG_NOT_TO_MOVE, "");
    /* The first step of the greatest turn begins at the highest point, and ends at the highest. */
    check_turns("length 1\nopen 3 1\n", BG_OK, "move 24-23 24-21\n");
}

static void check_read(const char *bytes, size_t length, bg_packet wanted, const char *what) {
    bg_packet packet;
    memset(&packet, 0xA5, sizeof packet);
    check_status(bg_packet_read((const uint8_t *)bytes, length, &packet), BG_OK, what);
    check(packet.id == wanted.id && packet.rules == wanted.rules, what);
    check_number(packet.kind, wanted.kind, what);
    check_number(packet.sender, wanted.sender, what);
    check_number(packet.number, wanted.number, what);
    check_number(packet.count, wanted.count, what);
    check(memcmp(packet.reserved, wanted.reserved, sizeof packet.reserved) == 0, what);
    check_status(bg_packet_read((const uint8_t *)bytes, length - 1, &packet), BG_NOT_A_PACKET, what);
    check_number(packet.kind, wanted.kind, what);
}

static void check_packets(void) {
    check_read(WANT, sizeof WANT - 1, (bg_packet){1, 1, 1, 3, 0, 0, {0}}, "a want");
    check_read(CLAIM, sizeof CLAIM - 1, (bg_packet){1, 1, 2, 1, 2, 0, {0}}, "a claim");
    check_read(ENTRIES, sizeof ENTRIES - 1, (bg_packet){1, 1, 3, 0, 1, 2, {0}}, "two entries");
}

static void check_slots(uint32_t party, const char *slot0, size_t length0, const char *slot1, size_t length1,
                        bg_saved wanted, const char *what) {
    bg_saved saved = {9, 9, 9, 9, 9, 9, {9, 9}};
    bg_status status = bg_slots_read(party, 1, 1, 1, (const uint8_t *)slot0, length0, (const uint8_t *)slot1, length1,
                                     &saved);
    check_status(status, BG_OK, what);
    check(memcmp(&saved, &wanted, sizeof saved) == 0, what);
}

static void refuse_slots(uint32_t party, uint64_t id, uint32_t length, uint32_t rules, bg_status wanted,
                         const char *what) {
    bg_saved saved = {9, 9, 9, 9, 9, 9, {9, 9}};
    check_status(bg_slots_read(party, id, length, rules, BYTES(SAVED), NULL, 0, &saved), wanted, what);
    check(saved.found == 9 && saved.claim == 9, what);
}

static void check_saved(void) {
    bg_saved two = {1, 0, 2, 2, 0, 0, {0}}, none = {0}, claim = {1, 1, 3, 1, 2, 0, {0}};
    bg_saved two_in_one = {1, 1, 2, 2, 0, 2, {0}}, claim_in_zero = {1, 0, 3, 1, 2, 1, {0}};
    check_slots(0, SAVED, sizeof SAVED - 1, NULL, 0, two, "a save in slot 0");
    check_slots(0, SAVED_1, sizeof SAVED_1 - 1, "x", 1, two, "one of version 1, beside none");
    check_slots(0, SAVED, sizeof SAVED - 2, SAVED, sizeof SAVED - 1, two_in_one, "a save that is not in its slot");
    check_slots(0, NULL, 0, "BGS2", 4, none, "a first save that is torn");
    check_slots(1, NULL, 0, SAVED_CLAIM, sizeof SAVED_CLAIM - 1, claim, "a claim");
    check_slots(1, SAVED_CLAIM, sizeof SAVED_CLAIM - 1, "x", 1, claim_in_zero, "a claim that is not in its slot");
    refuse_slots(1, 1, 1, 1, BG_WRONG_MATCH, "another party's save");
    refuse_slots(0, 2, 1, 1, BG_WRONG_MATCH, "a save of another match");
    refuse_slots(0, 1, 2, 1, BG_WRONG_MATCH, "a save of another length");
    refuse_slots(0, 1, 1, 2, BG_WRONG_MATCH, "a save by other rules");
    refuse_slots(3, 1, 1, 1, BG_BAD_ARGUMENT, "a watcher has no slots");
    refuse_slots(256, 1, 1, 1, BG_BAD_ARGUMENT, "256 is no referee");
    refuse_slots(0, 1, 257, 1, BG_BAD_ARGUMENT, "257 is no length of 1");
    refuse_slots(0, 1, 1, 257, BG_BAD_ARGUMENT, "257 are no rules");
    refuse_slots(0, 1, 100, 1, BG_BAD_ARGUMENT, "a length of 100");
    refuse_slots(0, 1, 1, 3, BG_BAD_ARGUMENT, "rules of 3");
}

static void check_peeked(const char *text, size_t length, bg_peeked wanted, const char *what) {
    bg_peeked peeked;
    memset(&peeked, 0xA5, sizeof peeked);
    check_status(bg_saved_peek((const uint8_t *)text, length, &peeked), BG_OK, what);
    check(memcmp(&peeked, &wanted, sizeof peeked) == 0, what);
    memset(&peeked, 0xA5, sizeof peeked);
    check_status(bg_saved_peek((const uint8_t *)text, length - 1, &peeked), BG_NOT_A_SAVE, what);
    check(peeked.party == 0xA5A5A5A5u && peeked.reserved[3] == 0xA5A5A5A5u, what);
}

static void check_peeks(void) {
    check_peeked(SAVED, sizeof SAVED - 1, (bg_peeked){1, 0, 1, 1, 2, 2, 0, {0}}, "a save");
    check_peeked(SAVED_1, sizeof SAVED_1 - 1, (bg_peeked){1, 0, 1, 1, 2, 2, 0, {0}}, "a save of version 1");
    check_peeked(SAVED_CLAIM, sizeof SAVED_CLAIM - 1, (bg_peeked){1, 1, 1, 1, 3, 1, 2, {0}}, "a save with a claim");
}

/* Takes a packet, and compares the whole outcome. The answer goes nowhere but to `to`. */
static void takes(bg_party *party, const char *packet, size_t length, uint32_t word, bg_outcome wanted, uint32_t to,
                  const char *what) {
    bg_outcome outcome;
    bg_datagram answer;
    memset(&outcome, 0xA5, sizeof outcome);
    memset(&answer, 0xA5, sizeof answer);
    bg_status status = bg_party_take(party, (const uint8_t *)packet, length, word, &outcome, &answer);
    check_status(status, BG_OK, what);
    check_number(outcome.kind, wanted.kind, what);
    check_number(outcome.number, wanted.number, what);
    check_number(outcome.why, wanted.why, what);
    check(memcmp(outcome.reserved, wanted.reserved, sizeof outcome.reserved) == 0, what);
    check_number(answer.to, to, what);
    check((answer.length > 0) == (wanted.kind == BG_TOOK_ANSWERED), what);
    check(answer.length <= BG_LONGEST_PACKET && answer.bytes[answer.length] == 0 && answer.bytes[127] == 0, what);
    check(answer.reserved[0] == 0 && answer.reserved[1] == 0, what);
}
#define TAKES(party, packet, word, kind, number, why, to, what) \
    takes(party, packet, sizeof(packet) - 1, word, (bg_outcome){kind, number, why, {0}}, to, what)

static void check_referee(void) {
    bg_party referee = BG_PARTY_INIT;
    check_status(bg_party_resume(&referee, 0, 1, 1, 1, BYTES(SAVED), NULL, 0, &found), BG_OK, "the referee of save 2");
    TAKES(&referee, WANT_OTHER, 0, BG_TOOK_OTHER_MATCH, 0, 0, 0, "a packet of another match");
    TAKES(&referee, ENTRIES, 0, BG_TOOK_NOTHING, 0, 0, 0, "entries that come to the referee");
    TAKES(&referee, WANT, 0, BG_TOOK_ANSWERED, 0, 0, 3, "a watcher who holds nothing");
    TAKES(&referee, WANT_AHEAD, 0, BG_TOOK_AHEAD, 0, 0, 0, "a watcher who holds more");
    TAKES(&referee, CLAIM, 0, BG_TOOK_ANSWERED, 0, 0, 1, "a claim that has its answer");
    TAKES(&referee, CLAIM_AHEAD, 0, BG_TOOK_AHEAD, 0, 0, 0, "a claim of a number above the next one");
    TAKES(&referee, ROLL_OF_O, WITHOUT_DICE, BG_TOOK_WORD_REFUSED, 0, 0, 0, "a roll, and a word without dice");
    TAKES(&referee, ROLL_OF_O, THREE_ONE, BG_TOOK_ACCEPTED, 3, 0, 0, "a roll");
    TAKES(&referee, ROLL_OF_O, THREE_ONE, BG_TOOK_NOTHING, 0, 0, 0, "a roll that is not saved yet");
    check_number(entries_of(&referee), 3, "the entries of the referee");
    check_number(saved_of(&referee), 2, "those that are saved");
    check_number(told_of(&referee), 2, "those that it may show");
    bg_party_close(&referee);
}

static void check_refused_claims(void) {
    bg_party referee = BG_PARTY_INIT;
    uint32_t number = 9, actor = 9;
    check_status(bg_party_begin(&referee, 0, 1, 1, 1, NULL, 0, NULL, 0), BG_OK, "a fresh referee");
    check_status(bg_party_actor(&referee, &actor), BG_OK, "who acts");
    check_number(actor, 0, "the referee acts first");
    check_status(bg_referee_due(&referee, 4294967291u, &number), BG_WORD_REFUSED, "equal dice open no game");
    check_number(number, 9, "no number");
    check_status(bg_referee_due(&referee, THREE_ONE, &number), BG_OK, "the dice 3 1");
    check_status(bg_referee_due(&referee, THREE_ONE, &number), BG_NOT_DUE, "no game is to be opened");
    TAKES(&referee, CLAIM_OF_O, 0, BG_TOOK_NOT_YOUR_TURN, 0, 0, 0, "a claim of the other seat");
    TAKES(&referee, CLAIM_SHORT, 0, BG_TOOK_ILLEGAL, 0, BG_WHY_MORE_CAN_BE_PLAYED, 0, "a turn that leaves a die");
    check_status(bg_party_actor(&referee, &actor), BG_OK, "who acts");
    check_number(actor, 1, "X acts");
    bg_party_close(&referee);
}

static void check_follower(void) {
    bg_party watcher = BG_PARTY_INIT;
    check_status(bg_party_begin(&watcher, 3, 1, 1, 1, NULL, 0, NULL, 0), BG_OK, "a watcher");
    TAKES(&watcher, WANT, 0, BG_TOOK_NOTHING, 0, 0, 0, "a want that comes to a watcher");
    TAKES(&watcher, BEHIND, 0, BG_TOOK_GAP, 0, 0, 0, "entry 4 before the others");
    TAKES(&watcher, ENTRIES, 0, BG_TOOK_GREW, 2, 0, 0, "two entries");
    TAKES(&watcher, ENTRIES, 0, BG_TOOK_NOTHING, 0, 0, 0, "the same again");
    TAKES(&watcher, CONFLICT, 0, BG_TOOK_CONFLICT, 2, 0, 0, "another entry 2");
    TAKES(&watcher, INVALID, 0, BG_TOOK_INVALID, 3, 0, 0, "an entry 3 that does not follow");
    check_number(entries_of(&watcher), 2, "the entries of the watcher");
    check_number(saved_of(&watcher), 0, "a watcher saves nothing");
    check_number(told_of(&watcher), 2, "it may show all that it holds");
    bg_party_close(&watcher);
}

static void claims(bg_party *seat, const char *action, bg_status wanted, uint32_t wanted_why) {
    uint32_t number = 9, why = 99;
    check_status(bg_seat_choose(seat, (const uint8_t *)action, strlen(action), &number, &why), wanted, action);
    check_number(why, wanted == BG_ILLEGAL ? wanted_why : 99, action);
    check_number(number, wanted == BG_OK ? 2 : 9, action);
}

static void check_seats(void) {
    bg_party seat = BG_PARTY_INIT, other = BG_PARTY_INIT;
    check_status(bg_party_begin(&seat, 1, 1, 1, 1, NULL, 0, NULL, 0), BG_OK, "the seat of X");
    claims(&seat, "roll", BG_NOT_YOUR_TURN, 0);
    TAKES(&seat, "BG\2\3\0\0\0\0\0\0\0\1\1\0\0\0\1\1\1\3\1", 0, BG_TOOK_GREW, 1, 0, 0, "the opening");
    claims(&seat, "open 3 1", BG_NOT_AN_ACTION, 0);
    claims(&seat, "roll 3 1", BG_NOT_AN_ACTION, 0);
    claims(&seat, "move 8-5 6-5\n", BG_NOT_AN_ACTION, 0);
    claims(&seat, "roll", BG_ILLEGAL, BG_WHY_WRONG_PHASE);
    claims(&seat, "move 8-5", BG_ILLEGAL, BG_WHY_MORE_CAN_BE_PLAYED);
    claims(&seat, "move 8-6 6-5", BG_ILLEGAL, BG_WHY_STEP_1_ILLEGAL);
    claims(&seat, "move 8-5 6-4", BG_ILLEGAL, BG_WHY_STEP_2_ILLEGAL);
    claims(&seat, "move 8-5 6-5", BG_OK, 0);
    claims(&seat, "move 8-5 6-5", BG_ALREADY_CLAIMED, 0);
    check_status(bg_party_begin(&other, 2, 1, 1, 1, NULL, 0, NULL, 0), BG_OK, "the seat of O");
    TAKES(&other, ENTRIES, 0, BG_TOOK_GREW, 2, 0, 0, "the opening, and the move of X");
    uint32_t number = 0, why = 0;
    check_status(bg_seat_choose(&other, BYTES("double"), &number, &why), BG_ILLEGAL, "a double in the Crawford game");
    check_number(why, BG_WHY_NO_DOUBLE_CRAWFORD, "its reason");
    bg_party_close(&seat);
    bg_party_close(&other);
}

int main(void) {
    check_statuses();
    check_texts();
    check_packets();
    check_saved();
    check_peeks();
    check_referee();
    check_refused_claims();
    check_follower();
    check_seats();
    return checked();
}
