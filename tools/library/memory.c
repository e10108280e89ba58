/* Want of memory: a run of calls, in which each request for memory is refused in turn. The call that lacks it answers
 * BG_MEMORY and sets nothing, and everything is as before: the same call again does what it does where memory is there.
 * At the end nothing is left of what was asked for. counting_heap.c stands in the place of include/heap.c. */
#include "bg_relay.h"
#include "checks.h"
#include "counting_heap.h"

#include <stdio.h>
#include <string.h>

#define BYTES(text) (const uint8_t *)(text), sizeof(text) - 1

enum { ROOM = 4096, UNTOUCHED = 0xA5, THREE_ONE = 12 };

static const char TRANSCRIPT[] = "length 1\nopen 3 1\nX move 8-5 6-5\nO roll 6 4\n";
static const char MATCH_FILE[] = " 1 point match\n\n Game 1\n A : 0   B : 0\n 1) 31: 8/5 6/5\n";

/* All that a call may set. */
struct answers {
    uint8_t out[ROOM];
    size_t needed;
    uint32_t number, other;
    bg_verdict verdict;
    bg_packet packet;
    bg_saved saved;
    bg_peeked peeked;
    bg_shown shown;
    bg_outcome outcome;
    bg_datagram first, second;
};

/* The parties, what the last call set, and what later calls are handed of it. */
struct run {
    bg_party referee, seat, watcher;
    struct answers now;
    bg_datagram sent;
    uint8_t saved_text[ROOM];
    size_t saved_length;
    uint32_t save;
};
static struct run run;

typedef bg_status (*step)(void);

static bg_status open_referee(void) {
    return bg_party_begin(&run.referee, 0, 1, 1, 1, NULL, 0, NULL, 0);
}
static bg_status open_seat(void) {
    return bg_party_begin(&run.seat, 1, 1, 1, 1, NULL, 0, NULL, 0);
}
static bg_status open_watcher(void) {
    return bg_party_begin(&run.watcher, 3, 1, 1, 1, NULL, 0, NULL, 0);
}
static bg_status due(void) {
    return bg_referee_due(&run.referee, THREE_ONE, &run.now.number);
}
static bg_status saves(bg_party *party) {
    return bg_party_to_save(party, &run.now.number, &run.now.other, run.now.out, ROOM, &run.now.needed);
}
static bg_status save_referee(void) {
    return saves(&run.referee);
}
static bg_status save_seat(void) {
    return saves(&run.seat);
}
static bg_status mark_referee(void) {
    return bg_party_mark_saved(&run.referee, run.save);
}
static bg_status mark_seat(void) {
    return bg_party_mark_saved(&run.seat, run.save);
}
static bg_status tick_seat(void) {
    return bg_party_tick(&run.seat, &run.now.first, &run.now.second);
}
static bg_status tick_watcher(void) {
    return bg_party_tick(&run.watcher, &run.now.first, &run.now.second);
}
static bg_status takes(bg_party *party) {
    return bg_party_take(party, run.sent.bytes, run.sent.length, THREE_ONE, &run.now.outcome, &run.now.first);
}
static bg_status referee_takes(void) {
    return takes(&run.referee);
}
static bg_status seat_takes(void) {
    return takes(&run.seat);
}
static bg_status watcher_takes(void) {
    return bg_party_take_from(&run.watcher, 0, run.sent.bytes, run.sent.length, 0, &run.now.outcome, &run.now.first);
}
static bg_status referee_hears(void) {
    return bg_referee_heard(&run.referee, 4, 1, &run.now.outcome, &run.now.first);
}
static bg_status choose(void) {
    return bg_seat_choose(&run.seat, BYTES("move 8-5 6-5"), &run.now.number, &run.now.other);
}
static bg_status turns(void) {
    return bg_party_turns(&run.seat, run.now.out, ROOM, &run.now.needed);
}
static bg_status board(void) {
    return bg_party_board(&run.watcher, run.now.out, ROOM, &run.now.needed);
}
static bg_status transcript(void) {
    return bg_party_transcript(&run.referee, run.now.out, ROOM, &run.now.needed);
}
static bg_status lines(void) {
    return bg_party_entries_text(&run.watcher, 1, 2, run.now.out, ROOM, &run.now.needed);
}
static bg_status show(void) {
    return bg_party_shown(&run.referee, &run.now.shown, run.now.out, ROOM, &run.now.needed);
}
static bg_status read_slots(void) {
    return bg_slots_read(1, 1, 1, 1, NULL, 0, run.saved_text, run.saved_length, &run.now.saved);
}
static bg_status open_again(void) {
    return bg_party_resume(&run.seat, 1, 1, 1, 1, NULL, 0, run.saved_text, run.saved_length, &run.now.saved);
}
static bg_status peek(void) {
    return bg_saved_peek(run.saved_text, run.saved_length, &run.now.peeked);
}
static bg_status claim(void) {
    return bg_party_claim(&run.seat, &run.now.number, run.now.out, ROOM, &run.now.needed);
}
static bg_status try_action(void) {
    bg_status status = bg_party_try(&run.watcher, 1, BYTES("roll"), &run.now.number, &run.now.other);
    return status == BG_NOT_YOUR_TURN ? BG_OK : status;
}
static bg_status judge(void) {
    return bg_judge(BYTES(TRANSCRIPT), &run.now.verdict, run.now.out, ROOM, &run.now.needed);
}
static bg_status judge_without_room(void) {
    return bg_judge(BYTES(TRANSCRIPT), &run.now.verdict, NULL, 0, &run.now.needed);
}
static bg_status transcript_board(void) {
    return bg_transcript_board(BYTES(TRANSCRIPT), run.now.out, ROOM, &run.now.needed);
}
static bg_status transcript_turns(void) {
    return bg_transcript_turns(BYTES(TRANSCRIPT), run.now.out, ROOM, &run.now.needed);
}
static bg_status import_file(void) {
    return bg_mat_import(1, BYTES(MATCH_FILE), &run.now.verdict, run.now.out, ROOM, &run.now.needed);
}
static bg_status export_file(void) {
    return bg_mat_export(BYTES(TRANSCRIPT), run.now.out, ROOM, &run.now.needed);
}
static bg_status position_id(void) {
    return bg_position_id(BYTES(TRANSCRIPT), run.now.out, ROOM, &run.now.needed);
}
static bg_status match_id(void) {
    return bg_match_id(BYTES(TRANSCRIPT), run.now.out, ROOM, &run.now.needed);
}
static bg_status xgid(void) {
    return bg_xgid(BYTES(TRANSCRIPT), run.now.out, ROOM, &run.now.needed);
}
static bg_status report(void) {
    return bg_check(BYTES("a"), BYTES(TRANSCRIPT), 80, &run.now.verdict, run.now.out, ROOM, &run.now.needed);
}
static bg_status picture_without_room(void) {
    return bg_picture(BYTES(TRANSCRIPT), BG_NUMBERING_MOVER, NULL, 0, &run.now.needed);
}
static bg_status page_without_room(void) {
    return bg_page(BYTES(TRANSCRIPT), BYTES("a"), NULL, 0, NULL, 0, BG_NUMBERING_X, 0, NULL, 0, &run.now.needed);
}
static bg_status packet_read(void) {
    return bg_packet_read(run.sent.bytes, run.sent.length, &run.now.packet);
}
static bg_status status_text(void) {
    return bg_status_text(BG_MEMORY, run.now.out, ROOM, &run.now.needed);
}

static const step STEPS[] = {
    open_referee, open_seat, open_watcher, due, save_referee, mark_referee, tick_seat, packet_read, referee_takes,
    seat_takes, turns, choose, claim, try_action, save_seat, mark_seat, read_slots, peek, tick_seat, referee_takes,
    save_referee, mark_referee,
    tick_watcher, referee_takes, watcher_takes, board, transcript, lines, show, referee_hears, open_again, turns, judge, judge_without_room,
    transcript_board, transcript_turns, import_file, export_file, position_id, match_id, xgid, report,
    picture_without_room, page_without_room, status_text,
};
enum { COUNT = sizeof STEPS / sizeof *STEPS };

static int has_room(step one) {
    return one != judge_without_room && one != picture_without_room && one != page_without_room;
}

/* What the run did where memory was there: the status of each step, and a digest of all that it set. */
static bg_status wanted[COUNT];
static uint64_t digests[COUNT];

static uint64_t digest_of(const void *start, size_t length) {
    const uint8_t *bytes = start;
    uint64_t digest = 14695981039346656037u;
    for (size_t at = 0; at < length; at++) {
        digest = (digest ^ bytes[at]) * 1099511628211u;
    }
    return digest;
}

/* What the records have. */
static uint64_t held(void) {
    bg_party *parties[] = {&run.referee, &run.seat, &run.watcher};
    uint8_t texts[3][ROOM] = {{0}};
    counting_heap.is_paused = 1;
    for (int at = 0; at < 3; at++) {
        size_t needed = 0;
        bg_party_transcript(parties[at], texts[at], ROOM - 8, &needed);
        texts[at][ROOM - 1] = (uint8_t)saved_of(parties[at]);
    }
    counting_heap.is_paused = 0;
    return digest_of(texts, sizeof texts);
}

/* What later steps are handed. */
static void keep(step done) {
    if (done == save_referee || done == save_seat) {
        run.save = run.now.other;
    }
    if (done == save_seat) {
        run.saved_length = run.now.needed;
        memcpy(run.saved_text, run.now.out, ROOM);
    }
    if (done == tick_seat || done == tick_watcher || done == referee_takes) {
        run.sent = run.now.first;
    }
}

/* Makes a call, and again where there was no memory. */
static bg_status try_step(int at, long *lacks) {
    uint64_t before = held();
    memset(&run.now, UNTOUCHED, sizeof run.now);
    uint64_t untouched = digest_of(&run.now, sizeof run.now);
    bg_status status = STEPS[at]();
    if (status == BG_MEMORY) {
        ++*lacks;
        check(digest_of(&run.now, sizeof run.now) == untouched, "a call that lacks memory sets nothing");
        check(held() == before, "a call that lacks memory changes no record");
        status = STEPS[at]();
    }
    return status;
}

/* The run, with one request refused; it returns how many there were. */
static long run_refusing(long refused, long *lacks) {
    memset(&run, 0, sizeof run);
    counting_heap.asked = 0;
    counting_heap.refused = refused;
    for (int at = 0; at < COUNT; at++) {
        bg_status status = try_step(at, lacks);
        uint64_t digest = digest_of(&run.now, sizeof run.now);
        if (refused == HEAP_REFUSES_NONE) {
            wanted[at] = status;
            digests[at] = digest;
        }
        check_status(status, wanted[at], "the status of a step");
        check(digest == digests[at], "what a step sets");
        keep(STEPS[at]);
    }
    bg_party_close(&run.referee);
    bg_party_close(&run.seat);
    bg_party_close(&run.watcher);
    check_number((uint64_t)counting_heap.live, 0, "the blocks that are left");
    return counting_heap.asked;
}

int main(void) {
    long lacks = 0;
    long requests = run_refusing(HEAP_REFUSES_NONE, &lacks);
    check(lacks == 0 && requests > 0, "memory is there");
    for (int at = 0; at < COUNT; at++) {
        check_status(wanted[at], has_room(STEPS[at]) ? BG_OK : BG_NO_ROOM, "a step of the run");
    }
    for (long refused = 0; refused < requests; refused++) {
        run_refusing(refused, &lacks);
    }
    check_number((uint64_t)lacks, (uint64_t)requests, "the answers BG_MEMORY, one for each request");
    printf("%ld requests for memory, each refused in turn\n", requests);
    return checked();
}
