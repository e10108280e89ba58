/* What calls answer at the limits of the header: a record that is full, saves that are spent, and a transcript that is
 * as long as one may be, or longer. */
#include "bg_relay.h"
#include "checks.h"

#include <stdlib.h>
#include <string.h>

#define THREE_ONE 12u

enum { ROOM = 4096, OPENING = 3, OFFER = 2, HEAD = 24 };

/* The slot that a party saves first, but for the party and how many entries follow: of match 1, of length 99, by the
 * first rules, with save 4294967294 or 4294967295, and no claim. */
static const uint8_t LAST_BUT_ONE[] = "BGS2\0\0\0\0\0\0\0\0\1\143\1\377\377\377\376\0\0\0\0\0";
static const uint8_t LAST[] = "BGS2\0\0\0\0\0\0\0\0\1\143\1\377\377\377\377\0\0\0\0\0";

static uint8_t out[ROOM];
static size_t needed;
static bg_saved found;

static void check_saves(void) {
    bg_party referee = BG_PARTY_INIT;
    uint32_t save = 9, slot = 9, number = 9;
    check_status(bg_party_resume(&referee, 0, 1, 99, 1, LAST_BUT_ONE, HEAD, NULL, 0, &found), BG_OK,
                 "the last save but one");
    check_status(bg_referee_due(&referee, THREE_ONE, &number), BG_OK, "an opening");
    check_status(bg_party_to_save(&referee, &slot, &save, out, ROOM, &needed), BG_OK, "the last save");
    check_number(save, 4294967295u, "the number of the last save");
    check_number(slot, 1, "its slot");
    check_status(bg_party_mark_saved(&referee, save), BG_OK, "the last save is marked");
    check_number(saved_of(&referee), 1, "the opening is saved");
    save = slot = 9;
    needed = 99;
    check_status(bg_party_to_save(&referee, &slot, &save, out, ROOM, &needed), BG_SAVES_SPENT, "no save is left");
    check(save == 9 && slot == 9 && needed == 99, "what a save would set");
    check_status(bg_party_mark_saved(&referee, 4294967295u), BG_WRONG_SAVE, "no save is under way");
    bg_party_close(&referee);
    check_status(bg_party_resume(&referee, 0, 1, 99, 1, NULL, 0, LAST, HEAD, &found), BG_OK, "the last save");
    check_status(bg_party_to_save(&referee, &slot, &save, out, ROOM, &needed), BG_SAVES_SPENT, "none is left");
    bg_party_close(&referee);
}

/* Save 1 of a party whose record is full: an opening, offers to resign and their rejections, and an offer. */
static uint8_t *full_slot(unsigned party, size_t *length) {
    size_t rest = BG_MOST_ENTRIES - 1;
    *length = HEAD + OPENING + rest / 2 * (OFFER + 1) + OFFER;
    uint8_t *text = malloc(*length);
    if (text == NULL) abort();
    memcpy(text, "BGS2\0\0\0\0\0\0\0\0\1\143\1\0\0\0\1\0\0\17\102\100\1\3\1", HEAD + OPENING);
    text[4] = (uint8_t)party;
    uint8_t *at = text + HEAD + OPENING;
    for (size_t entry = 0; entry < rest; entry++) {
        if (entry % 2 == 0) {
            *at++ = 7;
            *at++ = 3;
        } else {
            *at++ = 9;
        }
    }
    check_number((uint64_t)(at - text), *length, "the length of a full slot");
    return text;
}

static void check_full_referee(void) {
    bg_party referee = BG_PARTY_INIT;
    size_t length;
    uint8_t *slot = full_slot(0, &length);
    uint32_t number = 9, save = 9, to = 9;
    check_status(bg_party_resume(&referee, 0, 1, 99, 1, NULL, 0, slot, length, &found), BG_OK, "a full record");
    check_number(entries_of(&referee), BG_MOST_ENTRIES, "its entries");
    check_number(saved_of(&referee), BG_MOST_ENTRIES, "those that are saved");
    check_status(bg_referee_due(&referee, THREE_ONE, &number), BG_NOT_DUE, "no entry has room");
    check_status(bg_party_board(&referee, out, ROOM, &needed), BG_OK, "its board");
    check_text(out + needed - strlen("X resigns backgammon\n"), strlen("X resigns backgammon\n"),
               "X resigns backgammon\n", "its last line");
    check_status(bg_party_entries_text(&referee, BG_MOST_ENTRIES, 4294967295u, out, ROOM, &needed), BG_OK,
                 "the last line");
    check_text(out, needed, "X resign backgammon\n", "the last line");
    check_status(bg_party_entries_text(&referee, BG_MOST_ENTRIES + 1, 1, out, ROOM, &needed), BG_OK, "no line");
    check_number(needed, 0, "the bytes of no line");
    uint8_t *text = malloc(BG_LONGEST_SAVED_TEXT);
    if (text == NULL) abort();
    check_status(bg_party_to_save(&referee, &to, &save, text, BG_LONGEST_SAVED_TEXT, &needed), BG_OK, "save 2");
    check(save == 2 && to == 0 && needed == length, "save 2 goes to slot 0");
    check(memcmp(text + HEAD, slot + HEAD, length - HEAD) == 0, "with the same entries");
    check_status(bg_party_transcript(&referee, NULL, 0, &needed), BG_NO_ROOM, "a transcript without room");
    check(needed < BG_LONGEST_TRANSCRIPT, "the transcript of a full record can be judged");
    free(text);
    free(slot);
    bg_party_close(&referee);
}

static void check_full_seat(void) {
    bg_party seat = BG_PARTY_INIT;
    size_t length;
    uint8_t *slot = full_slot(2, &length);
    uint32_t number = 9, why = 9;
    check_status(bg_party_resume(&seat, 2, 1, 99, 1, NULL, 0, slot, length, &found), BG_OK, "a full record of a seat");
    check_status(bg_seat_choose(&seat, (const uint8_t *)"reject", 6, &number, &why), BG_ILLEGAL, "no entry has room");
    check_number(why, BG_WHY_RECORD_FULL, "the record is full");
    check_number(number, 9, "no number");
    free(slot);
    bg_party_close(&seat);
}

static void check_transcript(size_t length, uint32_t kind, uint32_t number, const char *text, const char *what) {
    uint8_t *transcript = malloc(length);
    bg_verdict verdict = {9, 9, {9, 9}};
    if (transcript == NULL) abort();
    memset(transcript, '\n', length);
    memcpy(transcript, "length 1\n", strlen("length 1\n"));
    check_status(bg_judge(transcript, length, &verdict, out, ROOM, &needed), BG_OK, what);
    check_number(verdict.kind, kind, what);
    check_number(verdict.number, number, what);
    check(needed >= strlen(text), what);
    check_text(out + needed - strlen(text), strlen(text), text, what);
    check_status(bg_transcript_board(transcript, length, out, ROOM, &needed), BG_REFUSED, what);
    check_status(bg_transcript_turns(transcript, length, out, ROOM, &needed), BG_REFUSED, what);
    free(transcript);
}

int main(void) {
    check_saves();
    check_full_referee();
    check_full_seat();
    check_transcript(BG_LONGEST_TRANSCRIPT, 1, 2, "refused at line 2: not a line\n", "the longest transcript");
    check_transcript(BG_LONGEST_TRANSCRIPT + 1, 2, 0, "refused: input too long\n", "a longer one");
    return checked();
}
