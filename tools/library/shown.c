/* What a host shows of a referee that holds more than it has saved: the lines of the entries that are told, and, as these
 * are a transcript behind the first line of its transcript, the board after them. And the numbers of a standing, as a
 * program in C reads them out of its struct. */
#include "bg_relay.h"
#include "checks.h"

#include <string.h>

#define BYTES(text) (const uint8_t *)(text), sizeof(text) - 1

enum { ROOM = 4096, THREE_ONE = 12 };

/* The seat of X claims that entry 2 of match 1 is the move 8-5 6-5. */
static const char CLAIM[] = "BG\2\2\0\0\0\0\0\0\0\1\1\1\0\0\0\2\6\2\10\5\6\5";

/* The entries 1 to 8 of match 1: X opens with 2 1 and plays 13-11 6-5, O rolls 4 3 and plays 24-20 24-21, which hits X's
 * point 5, X doubles, O takes, X rolls 6 5 and offers a gammon. */
static const char HIT[] = "BG\2\3\0\0\0\0\0\0\0\1\1\0\0\0\1\10\1\2\1\6\2\15\13\6\5\2\4\3\6\2\30\24\30\25\3\4\2\6"
                          "\5\7\2";

static uint8_t out[ROOM], shown[ROOM];
static size_t needed;

static void begin(bg_party *party, uint32_t number, uint32_t match_length) {
    check_status(bg_party_begin(party, number, 1, match_length, 1, NULL, 0, NULL, 0), BG_OK, "a party");
}

static void take(bg_party *party, const uint8_t *packet, size_t length, uint32_t wanted) {
    bg_outcome outcome = {0};
    bg_datagram answer = {0};
    check_status(bg_party_take(party, packet, length, 0, &outcome, &answer), BG_OK, "a packet");
    check_number(outcome.kind, wanted, "what becomes of it");
}

static void save(bg_party *party) {
    uint32_t slot = 9, number = 9;
    check_status(bg_party_to_save(party, &slot, &number, out, ROOM, &needed), BG_OK, "a save");
    check_status(bg_party_mark_saved(party, number), BG_OK, "it is marked");
}

/* Checks what is shown in one call, which has room for the transcript to the byte. */
static void check_at_once(const bg_party *party, const char *transcript, uint32_t entries, uint32_t held,
                          uint32_t actor) {
    bg_shown it;
    memset(&it, 0xA5, sizeof it);
    check_status(bg_party_shown(party, &it, out, strlen(transcript) - 1, &needed), BG_NO_ROOM, "too little room");
    check_number(it.entries, 0xA5A5A5A5, "what is not set");
    check_status(bg_party_shown(party, &it, out, strlen(transcript), &needed), BG_OK, "what is shown");
    check_text(out, needed, transcript, "the transcript of what is shown");
    check(it.entries == entries && it.held == held && it.reserved[0] == 0 && it.reserved[4] == 0, "its numbers");
    check_number(it.standing.actor, actor, "who acts by what is shown");
}

/* Checks the transcript of what a referee may show, and the last line of its board. */
static void check_shown(const bg_party *referee, const char *transcript, const char *last_line) {
    check_status(bg_party_transcript(referee, shown, ROOM, &needed), BG_OK, "the transcript");
    const uint8_t *end = memchr(shown, '\n', needed);
    size_t first = end == NULL ? 0 : (size_t)(end - shown) + 1;
    check_status(bg_party_entries_text(referee, 1, told_of(referee), shown + first, ROOM - first, &needed), BG_OK,
                 "the lines that are told");
    size_t length = first + needed;
    check_text(shown, length, transcript, "the transcript of what is told");
    check_status(bg_transcript_board(shown, length, out, ROOM, &needed), BG_OK, "the board of what is told");
    size_t last = strlen(last_line);
    check(needed > last, "the lines of the board");
    check_text(out + needed - last, last, last_line, "the last line of the board");
}

static void check_referee(void) {
    bg_party referee = BG_PARTY_INIT;
    uint32_t number = 9;
    begin(&referee, 0, 1);
    check_status(bg_referee_due(&referee, THREE_ONE, &number), BG_OK, "an opening");
    check_shown(&referee, "length 1\n", "opening\n");
    check_at_once(&referee, "length 1\n", 0, 1, 0);
    save(&referee);
    check_shown(&referee, "length 1\nopen 3 1\n", "X to move 3 1\n");
    check_at_once(&referee, "length 1\nopen 3 1\n", 1, 1, 1);
    take(&referee, BYTES(CLAIM), BG_TOOK_ACCEPTED);
    check_number(entries_of(&referee), 2, "the entries that it holds");
    check_shown(&referee, "length 1\nopen 3 1\n", "X to move 3 1\n");
    check_at_once(&referee, "length 1\nopen 3 1\n", 1, 2, 1);
    save(&referee);
    check_shown(&referee, "length 1\nopen 3 1\nX move 8-5 6-5\n", "O to roll\n");
    check_at_once(&referee, "length 1\nopen 3 1\nX move 8-5 6-5\n", 2, 2, 2);
    bg_party_close(&referee);
}

/* Checks the points that have checkers: all others of the 26 have none. */
static void check_checkers(const uint32_t *checkers, const uint32_t (*wanted)[2], size_t points, const char *what) {
    uint32_t all[26] = {0};
    for (size_t at = 0; at < points; at++) {
        all[wanted[at][0]] = wanted[at][1];
    }
    check(memcmp(checkers, all, sizeof all) == 0, what);
}

static void check_standing(void) {
    static const uint32_t X[][2] = {{6, 4}, {8, 3}, {11, 1}, {13, 4}, {24, 2}, {25, 1}};
    static const uint32_t O[][2] = {{4, 1}, {5, 1}, {12, 5}, {17, 3}, {19, 5}};
    bg_party watcher = BG_PARTY_INIT;
    bg_standing it;
    memset(&it, 0xA5, sizeof it);
    begin(&watcher, 3, 5);
    take(&watcher, BYTES(HIT), BG_TOOK_GREW);
    check_status(bg_party_standing(&watcher, &it), BG_OK, "a standing");
    check(it.match_length == 5 && it.rules == 1 && it.game == 1 && it.crawford == 0, "the match and the game");
    check(it.x_score == 0 && it.o_score == 0 && it.cube == 2 && it.cube_owner == 2, "the score and the cube");
    check(it.phase == BG_PHASE_RESIGNED && it.player == 1 && it.level == 2 && it.actor == 2, "the phase");
    check(it.dice[0] == 6 && it.dice[1] == 5, "the dice");
    check(it.x_pips == 184 && it.o_pips == 160, "the pip counts");
    check_checkers(it.x_checkers, X, sizeof X / sizeof *X, "the checkers of X");
    check_checkers(it.o_checkers, O, sizeof O / sizeof *O, "the checkers of O");
    for (size_t at = 0; at < sizeof it.reserved / sizeof *it.reserved; at++) {
        check_number(it.reserved[at], 0, "what is reserved");
    }
    bg_party_close(&watcher);
}

int main(void) {
    check_referee();
    check_standing();
    return checked();
}
