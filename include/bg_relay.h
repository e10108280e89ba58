/* bg_relay: a proved backgammon match relay, as a library for C and for languages that call C.
 *
 * There are three kinds of calls: on texts, on the bytes of packets and of saved files, and on parties. A party is the
 * referee, a seat or a watcher of one match. The library opens nothing and waits for nothing: the program carries the
 * packets, keeps the slots and draws the random words. docs/USING.md, "From C and other languages", has the way from
 * here to a server.
 *
 * Memory.  It comes from the program's malloc, realloc and free, whose blocks are aligned to 16 bytes. A call that
 *   lacks it answers BG_MEMORY, and then everything is as before. No call ends the process.
 * Text out.  A call that writes a text takes `out` and `room`, and sets `*needed` to the bytes of the text. Where they
 *   are more than the room, the answer is BG_NO_ROOM and nothing is written: call again with more room. Where the
 *   answer is neither BG_OK nor BG_NO_ROOM, `*needed` and `out` are as before. `out` may be null where `room` is 0. A
 *   text is ASCII, its lines end with a line feed, and no zero byte follows it.
 * Text in.  A pointer and a length, and any bytes. The pointer may be null where the length is 0.
 * Numbers in.  Each is a uint32_t or a uint64_t, and BG_BAD_ARGUMENT is the answer where it is out of its range: a
 *   number that is too large is never taken for another one.
 * Structs.  What a call sets is initialised before it. `reserved` is 0, and it is where later versions put more: their
 *   structs have the same size. Buffers and structs of one call never overlap.
 * Handles.  A bg_party begins as BG_PARTY_INIT, or with all bytes zero, which is the same. Then bg_party_begin or
 *   bg_party_resume opens it. It stays where it is until it is closed: one that was copied or moved answers BG_COPIED,
 *   one that was closed BG_CLOSED, one that was never opened BG_NOT_OPEN, and nothing happens. A call that only reads
 *   takes a const handle.
 * Threads.  There is no global state. Calls on different parties, and calls without a party, may run at once, and a
 *   party may pass from thread to thread. It is in one call at a time: a second call, also one that only reads, answers
 *   BG_BUSY, and nothing happens. No call is made from a signal handler. A call takes less than 64 KB of stack.
 * Versions.  A program runs with each library of its BG_ABI, whose BG_VERSION is not less than that of its header:
 *   bg_abi() == BG_ABI && bg_version() >= BG_VERSION. The shared library is named by BG_ABI, as libbg_relay.so.2.
 *   Version 201 added bg_party_options, bg_party_claim and bg_party_try. Version 202 added bg_party_told,
 *   bg_party_entries_text and bg_party_standing. Version 203 added bg_party_take_from and bg_referee_heard,
 *   bg_party_shown, bg_parties_tick, bg_mat_import and bg_mat_export, bg_picture and bg_page, bg_position_id, bg_match_id and bg_xgid,
 *   and bg_check.
 * Many servers.  Several processes may run one party at once if their store takes a save only where its number (*save)
 *   is one more than that of the newest save of this party, in one statement with the text. After a refusal close the
 *   handle and resume the party from its slots; never call bg_party_mark_saved (docs/USING.md, "Many servers over one
 *   store").
 * Built for x86-64-v2 (SSE4.2) and the calling convention of System V.
 */
#ifndef BG_RELAY_H
#define BG_RELAY_H

#include <stddef.h>
#include <stdint.h>

#ifdef __cplusplus
extern "C" {
#endif

#define BG_ABI 2u                          /* of the calls and structs that are here: none of them changes */
#define BG_VERSION 203u                    /* 100 times BG_ABI, and one more each time that calls were added */
#define BG_VERSION_TEXT "2.3"              /* the same as a text */

/* What there is at most. A room of BG_LONGEST_SAVED_TEXT bytes takes each text that is to be saved, and a room of
 * BG_LONGEST_TRANSCRIPT each transcript; most texts are far shorter, so begin with 4096 bytes, and follow `*needed`. A
 * packet has at most BG_LONGEST_PACKET bytes, and a bg_datagram has room for BG_MOST_DATAGRAM_BYTES, so that a program
 * can put a tag of its own behind the packet. */
#define BG_SHORTEST_MATCH 1u               /* points */
#define BG_LONGEST_MATCH 99u
#define BG_LAST_WATCHER 255u               /* the party of the greatest number */
#define BG_MOST_ENTRIES 1000000u           /* of a match */
#define BG_MOST_ENTRIES_IN_PACKET 8u
#define BG_LONGEST_PACKET 98u              /* bytes */
#define BG_MOST_DATAGRAM_BYTES 128u
#define BG_LONGEST_SAVED_TEXT 10000038u    /* bytes */
#define BG_LONGEST_TRANSCRIPT 41943040u    /* bytes that bg_judge takes */

/* What a call answers. These numbers never change; new ones come behind them. */
typedef uint32_t bg_status;
enum {
    BG_OK = 0,
    BG_NO_ROOM = 1,            /* the text does not fit: *needed says how many bytes it has */
    BG_MEMORY = 2,             /* there was no memory: everything is as before */
    BG_BAD_ARGUMENT = 3,       /* an argument is out of its range */
    BG_NOT_OPEN = 4,           /* the handle was never opened */
    BG_WRONG_PARTY = 5,        /* the call is for a party of another role */
    BG_NOT_A_PACKET = 6,       /* the bytes are no packet: drop them */
    BG_NOT_AN_ACTION = 7,      /* the text is no action's */
    BG_DAMAGED = 8,            /* neither slot has a saved text, and slot 0 is not empty. Save 1 goes to slot 1, so
                                * something in slot 0 means that a save was completed once */
    BG_WRONG_MATCH = 9,        /* what the slots have saved is another party's, or of another match */
    BG_WRONG_SAVE = 10,        /* no save of this number is under way: begin again with bg_party_to_save */
    BG_SAVES_SPENT = 11,       /* 4294967295 saves were made */
    BG_NOT_YOUR_TURN = 12,     /* bg_seat_choose: another party acts, or nobody */
    BG_ALREADY_CLAIMED = 13,   /* bg_seat_choose: the last claim is not answered yet */
    BG_ILLEGAL = 14,           /* bg_seat_choose: the action does not follow the record, and `why` says why */
    BG_NOT_DUE = 15,           /* bg_referee_due: the referee has nothing to add, or the record is full */
    BG_WORD_REFUSED = 16,      /* bg_referee_due: the word opens no game: draw another */
    BG_NOT_TO_MOVE = 17,       /* no player is to move */
    BG_REFUSED = 18,           /* the transcript is one that bg_judge does not find fine */
    BG_NOT_EMPTY = 19,         /* bg_party_begin: a slot has something: read it, and go on by bg_party_resume */
    BG_NOTHING_SAVED = 20,     /* bg_party_resume: the slots restore nothing. Where no save was ever completed, begin
                                * anew by bg_party_begin with length 0 for both slots, whatever slot 1 has. Where a save
                                * was ever marked, these are not its slots */
    BG_NOT_A_SAVE = 21,        /* bg_saved_peek: the bytes are no saved text */
    BG_BUSY = 22,              /* another call is inside the handle */
    BG_CLOSED = 23,            /* the handle was closed */
    BG_COPIED = 24,            /* the handle is a copy of one that was opened, or was moved since */
    BG_OTHER_SENDER = 25,      /* bg_party_take_from: the packet says another sender than the program knows it to have */
    BG_NO_XGID = 26            /* bg_xgid: a game is to be opened, an offer to resign is open, or the match is over */
};
/* The name of a status, such as "BG_NO_ROOM": a constant string that ends with a zero byte, and is never null. */
const char *bg_status_name(bg_status status);
/* What a status says, in English. BG_BAD_ARGUMENT where there is no such status. */
bg_status bg_status_text(bg_status status, uint8_t *out, size_t room, size_t *needed);

/* Why an action or an entry does not follow. */
enum {
    BG_WHY_NONE = 0,
    BG_WHY_RECORD_FULL = 1,
    BG_WHY_MATCH_OVER = 2,
    BG_WHY_WRONG_PHASE = 3,
    BG_WHY_EQUAL_OPENING = 4,
    BG_WHY_MORE_CAN_BE_PLAYED = 5,
    BG_WHY_LARGER_MUST_BE_PLAYED = 6,
    BG_WHY_NO_DOUBLE_CRAWFORD = 7,
    BG_WHY_NO_DOUBLE_NOT_OWNER = 8,
    BG_WHY_NO_DOUBLE_AT_CAP = 9,
    BG_WHY_STEP_1_ILLEGAL = 11,
    BG_WHY_STEP_2_ILLEGAL = 12,
    BG_WHY_STEP_3_ILLEGAL = 13,
    BG_WHY_STEP_4_ILLEGAL = 14
};

/* Those of the library: BG_ABI, BG_VERSION and BG_VERSION_TEXT of its own header. */
uint32_t bg_abi(void);
uint32_t bg_version(void);
const char *bg_version_text(void);

/* ---- texts (docs/FORMATS.md) ---- */

typedef struct bg_verdict {
    uint32_t kind;             /* 0 fine, 1 refused, 2 longer than BG_LONGEST_TRANSCRIPT */
    uint32_t number;           /* of entries where it is fine, of the line (from 1) where it is refused; else 0 */
    uint32_t reserved[2];
} bg_verdict;
/* Judges a transcript: writes the board after its longest legal part, and the line of the verdict. The verdict is set
 * where the answer is BG_OK or BG_NO_ROOM. */
bg_status bg_judge(const uint8_t *transcript, size_t length, bg_verdict *verdict,
                   uint8_t *out, size_t room, size_t *needed);
/* The board after a transcript. BG_REFUSED where bg_judge does not find it fine. */
bg_status bg_transcript_board(const uint8_t *transcript, size_t length, uint8_t *out, size_t room, size_t *needed);
/* Each legal turn after a transcript, a line each, such as "move 8-5 6-5", as bg_party_turns writes them. BG_REFUSED
 * where bg_judge does not find it fine; BG_NOT_TO_MOVE where no player is to move, or the referee is to pass that turn
 * (by the rules 2). */
bg_status bg_transcript_turns(const uint8_t *transcript, size_t length, uint8_t *out, size_t room, size_t *needed);

/* Match files of other programs (.mat). The first call writes the transcript of the match that a file tells, whose rules
 * (1 or 2) the file does not say; the second writes the match file of a transcript, with X in the left column.
 *
 * The verdict is set where the answer is BG_OK, BG_NO_ROOM or BG_REFUSED: it counts the entries, or it has the line of
 * the file that is refused; where no line of it has content, that is the one behind the last. bg_check says why, in
 * words. Refused in this order: BG_BAD_ARGUMENT where there are no such rules; BG_REFUSED where the file gives no match
 * or is longer than BG_LONGEST_TRANSCRIPT, or where bg_judge does not find the transcript fine; BG_MEMORY. */
bg_status bg_mat_import(uint32_t rules, const uint8_t *file, size_t length, bg_verdict *verdict,
                        uint8_t *out, size_t room, size_t *needed);
bg_status bg_mat_export(const uint8_t *transcript, size_t length, uint8_t *out, size_t room, size_t *needed);
/* In whose numbers a picture has the points. */
enum {
    BG_NUMBERING_MOVER = 0,    /* of the player who rolls, answers a double, moves or resigns; X's where none does */
    BG_NUMBERING_X = 1
};
/* The position after a transcript as a picture (SVG), and the whole match as a page (HTML): the start of each game, each
 * entry and the result, with a title and the names of X and O, which may have no bytes. The page escapes them: they may
 * be any texts in UTF-8. Unless `seconds` is 0, a browser asks for a newer page after that many.
 *
 * Refused in this order: BG_BAD_ARGUMENT where there is no such numbering, where the title or a name is not UTF-8, or
 * where the seconds are more than 65535; BG_REFUSED where bg_judge does not find the transcript fine; BG_MEMORY. */
bg_status bg_picture(const uint8_t *transcript, size_t length, uint32_t numbering,
                     uint8_t *out, size_t room, size_t *needed);
bg_status bg_page(const uint8_t *transcript, size_t length, const uint8_t *title, size_t title_length,
                  const uint8_t *x, size_t x_length, const uint8_t *o, size_t o_length, uint32_t numbering,
                  uint32_t seconds, uint8_t *out, size_t room, size_t *needed);
/* What other programs call the position after a transcript, without a line feed: the Position ID of GNU Backgammon (the
 * board, 14 bytes), its Match ID (all else, 12 bytes), and the XGID of eXtreme Gammon (both, 47 to 55 bytes). BG_REFUSED
 * where bg_judge does not find the transcript fine; BG_NO_XGID where a game is to be opened, an offer to resign is to be
 * answered, or the match is over. */
bg_status bg_position_id(const uint8_t *transcript, size_t length, uint8_t *out, size_t room, size_t *needed);
bg_status bg_match_id(const uint8_t *transcript, size_t length, uint8_t *out, size_t room, size_t *needed);
bg_status bg_xgid(const uint8_t *transcript, size_t length, uint8_t *out, size_t room, size_t *needed);
/* The line that `bg_relay check` prints of a file: its name, the verdict in words, and the line that is refused. A file
 * is a match file where its first line with content is the length of a match, or where its name ends in ".mat" and it
 * does not begin as a transcript; else it is a transcript. Match files are read by the rules 1. The line fits a screen
 * of so many columns; 0 is no screen. The name is escaped, so that the line is harmless on a terminal. The verdict is
 * set where the answer is BG_OK or BG_NO_ROOM. BG_BAD_ARGUMENT where the name is not UTF-8. */
bg_status bg_check(const uint8_t *name, size_t name_length, const uint8_t *file, size_t length, uint32_t columns,
                   bg_verdict *verdict, uint8_t *out, size_t room, size_t *needed);

/* ---- bytes (docs/FORMATS.md) ---- */

typedef struct bg_packet {
    uint64_t id;               /* of the match */
    uint32_t rules;            /* of the match: 1 or 2 */
    uint32_t kind;             /* 1 a want, 2 a claim, 3 entries */
    uint32_t sender;           /* the party, from 1 to 255, that wants or claims; 0 where entries are told */
    uint32_t number;           /* of the held entries, of the claimed entry, or of the first entry that is told */
    uint32_t count;            /* of entries that are told; else 0 */
    uint32_t reserved[3];
} bg_packet;
/* Reads a packet, to route it: of which match it is, and from whom. BG_NOT_A_PACKET leaves *packet as it is. */
bg_status bg_packet_read(const uint8_t *bytes, size_t length, bg_packet *packet);

typedef struct bg_peeked {
    uint64_t id;               /* of the match */
    uint32_t party;            /* 0 the referee, 1 the seat of X, 2 that of O */
    uint32_t match_length;     /* points */
    uint32_t rules;            /* of the match: 1 or 2 */
    uint32_t save;             /* the number of the save */
    uint32_t entries;          /* how many it has */
    uint32_t claim;            /* the number of the last claim; 0 where there is none */
    uint32_t reserved[4];
} bg_peeked;
/* Reads a saved text, to find the match that it is of. BG_NOT_A_SAVE leaves *saved as it is. */
bg_status bg_saved_peek(const uint8_t *bytes, size_t length, bg_peeked *saved);

typedef struct bg_saved {
    uint32_t found;            /* 1 where something is saved; 0 where nothing is, and then the rest is 0 too */
    uint32_t slot;             /* the slot that has it: the next save goes to the other one */
    uint32_t save;             /* the number of the save */
    uint32_t entries;          /* how many it has */
    uint32_t claim;            /* the number of the last claim; 0 where there is none */
    uint32_t misplaced;        /* a warning, see below: 1 of slot 0, 2 of slot 1, 3 of both; 0 where all is well */
    uint32_t reserved[2];
} bg_saved;
/* What the two slots of the referee (party 0) or of a seat (1 X, 2 O) restore; a slot that was never written has length
 * 0. BG_BAD_ARGUMENT where there is no such party, no such length of a match or no such rules; BG_DAMAGED or
 * BG_WRONG_MATCH where the slots restore nothing to go on from. *saved is set where the answer is BG_OK.
 *
 * A save with an even number is in slot 0, and one with an odd number in slot 1. `misplaced` tells of which slot the
 * text is not so: the program did not write it to the slot that bg_party_to_save said, or it reads another one. A
 * program that goes on so writes over its only save, and a crash then loses the match: mend the program first. */
bg_status bg_slots_read(uint32_t party, uint64_t id, uint32_t match_length, uint32_t rules,
                        const uint8_t *slot0, size_t length0, const uint8_t *slot1, size_t length1, bg_saved *saved);

/* ---- parties (docs/PROTOCOL.md) ---- */

/* All of it is the library's. BG_PARTY_INIT initialises a handle where it is declared: it is a list in braces, and no
 * value that could be assigned. */
typedef struct bg_party {
    void *inner;
    uintptr_t place;
    uint32_t state;
    uint32_t reserved[3];
} bg_party;
#define BG_PARTY_INIT { 0, 0, 0, { 0, 0, 0 } }

/* Opens a party of a new match: number 0 is the referee, 1 and 2 are the seats of X and of O, 3 to 255 watch. Both
 * slots are handed in as the program finds them, and must be empty: BG_NOT_EMPTY where they are not, so that no match
 * is begun over a save. BG_BAD_ARGUMENT, which comes first, where there is no such party, no such length (1 to 99) or
 * no such rules (1 or 2). Where the answer is BG_OK, what an open handle held is let go; else the handle is as
 * before.
 *
 * After BG_NOT_EMPTY go on by bg_party_resume. A first save that was cut short has left something in slot 1, and then
 * that call answers BG_NOTHING_SAVED. Where no save was ever completed, begin anew: hand in length 0 for both slots,
 * whatever slot 1 has, and the next save writes over it. Where a save was ever marked, these are not its slots.
 *
 * The rules differ where a player who is to move has no legal step. By the rules 1 the player claims "move" without
 * steps, and may offer to resign instead. By the rules 2 no player acts there: bg_referee_due passes the turn. */
bg_status bg_party_begin(bg_party *party, uint32_t number, uint64_t id, uint32_t match_length, uint32_t rules,
                         const uint8_t *slot0, size_t length0, const uint8_t *slot1, size_t length1);
/* Opens the referee or a seat, which goes on with what its two slots restore, and sets *saved as bg_slots_read does:
 * look at `misplaced`. BG_NOTHING_SAVED where they restore nothing (see bg_party_begin); else it is refused as
 * bg_slots_read is. Where the answer is BG_OK, what an open handle held is let go; else the handle and *saved are as
 * before. */
bg_status bg_party_resume(bg_party *party, uint32_t number, uint64_t id, uint32_t match_length, uint32_t rules,
                          const uint8_t *slot0, size_t length0, const uint8_t *slot1, size_t length1,
                          bg_saved *saved);
/* Lets the party go: what is not saved is lost. The handle is closed then, and may be opened again. */
bg_status bg_party_close(bg_party *party);

/* How many entries the record of a party has. */
bg_status bg_party_entries(const bg_party *party, uint32_t *entries);
/* How many of them the referee has saved: it tells no others. 0 of another party. */
bg_status bg_party_saved(const bg_party *party, uint32_t *saved);
/* How many of its entries a party may show to others. Of the referee these are those that are saved: it tells no
 * others, which a crash may lose. Of a seat or a watcher they are all that it holds. A host that shows boards or
 * transcripts of a referee shows these alone.
 *
 * The calls that go by the record count all entries that a referee holds: bg_party_board, bg_party_transcript,
 * bg_party_turns, bg_party_actor, bg_party_standing, bg_party_options and bg_party_try. Show nobody what they tell of a
 * referee, unless this number is that of bg_party_entries. */
bg_status bg_party_told(const bg_party *party, uint32_t *entries);
/* The board and the transcript of the record; and each legal turn of the player to move, a line each, such as
 * "move 8-5 6-5", the greatest first: BG_NOT_TO_MOVE where no player is to move, or the referee is to
 * pass that turn (by the rules 2). Of a referee all three count entries that are not saved yet: see bg_party_told.
 *
 * By the rules 1 a player without a legal step has one turn, the line "move". The order compares two turns step by
 * step: by the point where the step begins, then by the one where it ends (docs/RULES.md, "A turn"). */
bg_status bg_party_board(const bg_party *party, uint8_t *out, size_t room, size_t *needed);
bg_status bg_party_transcript(const bg_party *party, uint8_t *out, size_t room, size_t *needed);
bg_status bg_party_turns(const bg_party *party, uint8_t *out, size_t room, size_t *needed);
/* The lines of at most `count` entries from the number `from` on, as far as the party holds them, as the transcript has
 * them below its first line. Entries are numbered from 1: BG_BAD_ARGUMENT where `from` is 0. The text has no bytes
 * where the party holds none of these. What a party may show are the lines from 1 on, as many as bg_party_told says;
 * behind the first line of its transcript they are a transcript too, of which bg_transcript_board makes the board. */
bg_status bg_party_entries_text(const bg_party *party, uint32_t from, uint32_t count, uint8_t *out, size_t room,
                                size_t *needed);
/* Who acts by the record: 0 the referee, 1 X, 2 O, 3 nobody, as the match is over. Of a referee it counts entries that
 * are not saved yet: see bg_party_told. */
bg_status bg_party_actor(const bg_party *party, uint32_t *actor);

/* What is to happen next in a match, and whose phase it is. */
enum {
    BG_PHASE_OPENING = 0,      /* a game is to be opened; no player's */
    BG_PHASE_TO_ACT = 1,       /* the player is to roll, or may double where the cube allows it */
    BG_PHASE_DOUBLED = 2,      /* the player is to answer a double */
    BG_PHASE_TO_MOVE = 3,      /* the player is to move the dice; or the referee to pass the turn, by the rules 2 */
    BG_PHASE_RESIGNED = 4,     /* the player has offered to resign, and the other one is to answer */
    BG_PHASE_OVER = 5          /* the player has won the match */
};
typedef struct bg_standing {
    uint32_t match_length;     /* points */
    uint32_t rules;            /* of the match: 1 or 2 */
    uint32_t game;             /* the number of the game, from 1 */
    uint32_t crawford;         /* 1 in the Crawford game, which is played without the cube; else 0 */
    uint32_t x_score;          /* points */
    uint32_t o_score;
    uint32_t cube;             /* what the cube shows, 1, 2, 4 and so on to 128; not doubled yet in BG_PHASE_DOUBLED */
    uint32_t cube_owner;       /* 1 X, 2 O; 0 where the cube is in the middle */
    uint32_t phase;            /* BG_PHASE_OPENING and so on */
    uint32_t player;           /* whose phase it is: 1 X, 2 O; 0 at an opening */
    uint32_t level;            /* of an offer to resign: 1 normal, 2 gammon, 3 backgammon; else 0 */
    uint32_t dice[2];          /* that are to be moved, as they were rolled, also while an offer is answered; else 0 */
    uint32_t actor;            /* as bg_party_actor sets it */
    uint32_t x_pips;           /* the pip counts: a checker on the bar counts 25 */
    uint32_t o_pips;
    uint32_t x_checkers[26];   /* of X: [0] off, [1] to [24] on the points as X numbers them, [25] on the bar */
    uint32_t o_checkers[26];   /* of O: [0] off, [1] to [24] on the same points of X, O's 24 to 1, [25] on the bar */
    uint32_t reserved[12];
} bg_standing;
/* Where the match stands by the record, by all entries that the party holds; after the match, as it ended. Of a referee
 * it counts entries that are not saved yet: see bg_party_told. */
bg_status bg_party_standing(const bg_party *party, bg_standing *standing);
typedef struct bg_shown {
    uint32_t entries;          /* that the party may show to others, as bg_party_told says */
    uint32_t held;             /* entries that it holds: where these are more, a referee has to save */
    uint32_t claim;            /* of a seat: the number of its last claim, which waits for its answer where that is more
                                * than `held`; 0 where there is none */
    uint32_t reserved[5];
    bg_standing standing;      /* where the match stands after the entries that the party may show */
} bg_shown;
/* What a party may show to others, in one call: its struct, and the transcript of the entries that are told. Nothing in
 * either counts an entry that a referee has not saved, but for `held`. *shown is set where the answer is BG_OK. */
bg_status bg_party_shown(const bg_party *party, bg_shown *shown, uint8_t *out, size_t room, size_t *needed);

typedef struct bg_datagram {
    uint32_t to;               /* the party that it goes to */
    uint32_t length;           /* of the packet; 0 where nothing is to be sent, and then `to` is 0 */
    uint32_t reserved[2];
    uint8_t bytes[BG_MOST_DATAGRAM_BYTES];     /* the packet is at the front, and 0 behind it */
} bg_datagram;

/* What a party made of a packet. */
enum {
    BG_TOOK_NOTHING = 0,       /* there is nothing to do, or nothing new */
    BG_TOOK_OTHER_MATCH = 1,   /* the packet is of another match */
    BG_TOOK_ANSWERED = 2,      /* the referee: `answer` is to be sent */
    BG_TOOK_ACCEPTED = 3,      /* the referee: what was claimed is entry `number` now: save */
    BG_TOOK_AHEAD = 4,         /* the referee: the party holds more than is saved, or claims too high a number */
    BG_TOOK_NOT_YOUR_TURN = 5, /* the referee: the seat does not act */
    BG_TOOK_ILLEGAL = 6,       /* the referee: what is claimed does not follow, and `why` says why */
    BG_TOOK_WORD_REFUSED = 7,  /* the referee: the word has no dice: take the packet again with another */
    BG_TOOK_GREW = 8,          /* a follower: it has learned so many entries: `number` */
    BG_TOOK_GAP = 9,           /* a follower: the packet begins behind the entry that comes next */
    BG_TOOK_CONFLICT = 10,     /* a follower: it holds another entry under `number` */
    BG_TOOK_INVALID = 11       /* a follower: the entry `number` does not follow */
};
typedef struct bg_outcome {
    uint32_t kind;
    uint32_t number;           /* 0 where the kind has none */
    uint32_t why;              /* BG_WHY_NONE unless the kind is BG_TOOK_ILLEGAL */
    uint32_t reserved[5];
} bg_outcome;

/* The referee adds what is its to add: it opens a game with the dice of a random word, or passes a turn without steps.
 * *number is that entry's where the answer is BG_OK, and else as before. Save after BG_OK. Hand in no word twice, to
 * whatever call: dice that somebody has seen would come again. */
bg_status bg_referee_due(bg_party *party, uint32_t word, uint32_t *number);
/* The party takes a packet. The random word, which no call had before, gives the dice where the referee accepts a roll;
 * followers do not read it. A word that may give dice is drawn for each packet, also for one that claims no roll, and
 * is used up by the call, whatever that answers. *outcome and *answer are set where the answer is BG_OK. A claim is
 * answered once its entry is saved, when the seat sends it again.
 *
 * The party believes the packet: a referee lets whoever says that he is the seat of X play for X. So a program hands in
 * what came over an authenticated connection alone, or sealed (docs/OPERATING.md); where it knows who that is, it calls
 * bg_party_take_from. */
bg_status bg_party_take(bg_party *party, const uint8_t *packet, size_t length, uint32_t word,
                        bg_outcome *outcome, bg_datagram *answer);
/* The same of a packet whose sender the program has authenticated: 1 to 255 at a referee, 0, which is the referee, at a
 * seat or a watcher. Want and claim say their sender, and entries are the referee's. Refused in this order, and then
 * everything is as before: BG_BAD_ARGUMENT where there is no party of this number; BG_NOT_A_PACKET where the bytes are
 * no packet; BG_OTHER_SENDER where the packet says another sender: drop it, and look at who sent it; BG_MEMORY. */
bg_status bg_party_take_from(bg_party *party, uint32_t sender, const uint8_t *packet, size_t length, uint32_t word,
                             bg_outcome *outcome, bg_datagram *answer);
/* A referee hears that a peer (1 to 255) is there, and holds so many entries (0 to 1000000): it does what it would do at
 * a want of that peer. Where the peer lacks saved entries, the kind of *outcome is BG_TOOK_ANSWERED, and *answer has the
 * first of them, at most 8, to be sent to it; where it has them all, BG_TOOK_NOTHING; where it says that it has more,
 * BG_TOOK_AHEAD: then the slots are not those of this match. After the first two, bg_party_tick sends the peer what is
 * saved later, without being asked.
 *
 * A referee that was opened again knows no peer until a packet of it comes: a program that knows who is connected names
 * each to it by this call, after bg_party_resume. Refused in this order: BG_BAD_ARGUMENT where there is no such peer or
 * no such number of entries; BG_WRONG_PARTY where the party is not the referee. */
bg_status bg_referee_heard(bg_party *party, uint32_t peer, uint32_t held, bg_outcome *outcome, bg_datagram *answer);
/* A seat claims an action, such as "roll" or "move 8-5 6-5". The text has no line feed: a line of bg_party_turns is an
 * action once its line feed is cut. *number is that of the entry that shall answer it where the answer is BG_OK; *why
 * is set where it is BG_ILLEGAL; else they are as before. Save after BG_OK: a claim is sent once it is saved.
 *
 * Refused in this order: BG_NOT_AN_ACTION where the text is no action's; BG_WRONG_PARTY where the party is no seat;
 * BG_NOT_YOUR_TURN where another party acts by its record, or nobody; BG_ALREADY_CLAIMED where its last claim is not
 * answered yet; BG_ILLEGAL where the action does not follow. */
bg_status bg_seat_choose(bg_party *party, const uint8_t *action, size_t length, uint32_t *number, uint32_t *why);
/* What the player who acts may claim, as bits, with the actions of each. */
enum {
    BG_MAY_ROLL = 1,           /* "roll" */
    BG_MAY_DOUBLE = 2,         /* "double" */
    BG_MAY_TAKE = 4,           /* "take" */
    BG_MAY_DROP = 8,           /* "drop" */
    BG_MAY_TURN = 16,          /* each turn of bg_party_turns, such as "move 8-5 6-5" */
    BG_MAY_RESIGN = 32,        /* at each level: "resign normal", "resign gammon", "resign backgammon" */
    BG_MAY_ACCEPT = 64,        /* "accept" */
    BG_MAY_REJECT = 128        /* "reject" */
};
/* Sets *options to these bits by the record of any party, also where the player's last claim is not answered yet. It is
 * 0 where the referee acts, or nobody, or where the record has all entries that it may have (1000000). Of a referee it
 * counts entries that are not saved yet: see bg_party_told. */
bg_status bg_party_options(const bg_party *party, uint32_t *options);
/* The last claim of a seat. The text is its action, as bg_seat_choose takes it. *number, from 1, is that of the entry
 * that answers it: the claim is answered once the record has so many entries (bg_party_entries). An answered claim is
 * still told here, until the next one. Without a claim, and for a party that is no seat, *number is 0, and the text has
 * no bytes. *number is set where the answer is BG_OK. */
bg_status bg_party_claim(const bg_party *party, uint32_t *number, uint8_t *out, size_t room, size_t *needed);
/* Whether a player (1 X, 2 O) could claim an action by the record of any party, and why not; nothing is claimed, and a
 * claim that is not answered yet is not looked at. BG_OK sets *number, from 1, to that of the entry that would answer
 * the action. Refused in this order: BG_BAD_ARGUMENT where there is no such player; BG_NOT_AN_ACTION where the text is
 * no action's; BG_NOT_YOUR_TURN where the player does not act; BG_ILLEGAL where the action does not follow, which sets
 * *why. Else *number and *why are as before. */
bg_status bg_party_try(const bg_party *party, uint32_t player, const uint8_t *action, size_t length, uint32_t *number,
                       uint32_t *why);
/* What is to be sent now, at most two packets; call it about once a second, and at once after bg_party_mark_saved. Both
 * are set where the answer is BG_OK. */
bg_status bg_party_tick(bg_party *party, bg_datagram *first, bg_datagram *second);
typedef struct bg_ticked {
    bg_status status;          /* what bg_party_tick answered of this party */
    uint32_t count;            /* how many packets it makes: 0, 1 or 2 */
    uint32_t reserved[2];
    bg_datagram packets[2];    /* those that are to be sent are in front; the others send nothing. Set with BG_OK */
} bg_ticked;
/* The same of many parties, one after the other: ticked[n] is of *parties[n]. A party that refuses the call, as BG_BUSY
 * where another thread is inside, has its status there and count 0, and its packets are as before; the others are
 * ticked all the same. Sets *sending to how many of them make packets, and always answers BG_OK.
 *
 * A referee whose tick makes no packet makes none until a call that changes it: bg_party_take, bg_party_take_from,
 * bg_referee_heard or bg_party_mark_saved. So a program ticks a referee after these until it makes none, and needs no
 * tick of one that is idle. A seat or a watcher counts its ticks, to ask again after 1, 2, 4 and at most 32 of them:
 * tick each, as long as the match goes on. */
bg_status bg_parties_tick(bg_party *const *parties, size_t count, bg_ticked *ticked, size_t *sending);

/* Begins the next save of a referee or a seat, and sets *slot and *save: write the text whole to slot *slot (0 or 1),
 * make sure that it is there, and then call bg_party_mark_saved with *save. What changes the record or the claim in
 * between ends the save: begin again. Where the answer is BG_NO_ROOM no save is under way, and *slot and *save are as
 * before; so are they with BG_WRONG_PARTY, as a watcher saves nothing, BG_SAVES_SPENT and BG_MEMORY. */
bg_status bg_party_to_save(bg_party *party, uint32_t *slot, uint32_t *save, uint8_t *out, size_t room, size_t *needed);
/* The save of this number was written. BG_WRONG_SAVE where it is not under way; a watcher has none. */
bg_status bg_party_mark_saved(bg_party *party, uint32_t save);

#ifdef __cplusplus
}
#endif
#endif
