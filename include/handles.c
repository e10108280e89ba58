/* The handles of the library: which call is inside one, and whether it is a copy. Nothing proves this file: it is
 * trusted. It stands in C since a contract speaks of a handle that one call has alone; that no second one has it can
 * be tested by an atomic exchange alone, of a word that both can reach.
 *
 * Each call on a party enters the handle, makes the call of the same name that is proved, bg_proved_.., and leaves it.
 * It changes nothing but `place` and `state`, and nothing else reads these. No function of the C library is called. */
#include "bg_relay.h"

#define BG_HIDDEN __attribute__((visibility("hidden")))

/* What the proved calls see of a handle: where it keeps the party. */
typedef struct bg_inner {
    void *inner;
} bg_inner;

/* The states of a handle. BG_PARTY_INIT is a fresh one. */
enum { FRESH = 0, OPEN = 1, INSIDE = 2, SHUT = 3 };

BG_HIDDEN bg_status bg_proved_party_begin(bg_inner *party, uint32_t number, uint64_t id, uint32_t match_length,
                                          uint32_t rules, const uint8_t *slot0, size_t length0, const uint8_t *slot1,
                                          size_t length1);
BG_HIDDEN bg_status bg_proved_party_resume(bg_inner *party, uint32_t number, uint64_t id, uint32_t match_length,
                                           uint32_t rules, const uint8_t *slot0, size_t length0, const uint8_t *slot1,
                                           size_t length1, bg_saved *saved);
BG_HIDDEN void bg_proved_party_close(bg_inner *party);
BG_HIDDEN bg_status bg_proved_party_entries(bg_inner *party, uint32_t *entries);
BG_HIDDEN bg_status bg_proved_party_saved(bg_inner *party, uint32_t *saved);
BG_HIDDEN bg_status bg_proved_party_told(bg_inner *party, uint32_t *entries);
BG_HIDDEN bg_status bg_proved_party_board(bg_inner *party, uint8_t *out, size_t room, size_t *needed);
BG_HIDDEN bg_status bg_proved_party_transcript(bg_inner *party, uint8_t *out, size_t room, size_t *needed);
BG_HIDDEN bg_status bg_proved_party_turns(bg_inner *party, uint8_t *out, size_t room, size_t *needed);
BG_HIDDEN bg_status bg_proved_party_entries_text(bg_inner *party, uint32_t from, uint32_t count, uint8_t *out,
                                                 size_t room, size_t *needed);
BG_HIDDEN bg_status bg_proved_party_actor(bg_inner *party, uint32_t *actor);
BG_HIDDEN bg_status bg_proved_party_standing(bg_inner *party, bg_standing *standing);
BG_HIDDEN bg_status bg_proved_party_shown(bg_inner *party, bg_shown *shown, uint8_t *out, size_t room, size_t *needed);
BG_HIDDEN bg_status bg_proved_referee_due(bg_inner *party, uint32_t word, uint32_t *number);
BG_HIDDEN bg_status bg_proved_party_take(bg_inner *party, const uint8_t *packet, size_t length, uint32_t word,
                                         bg_outcome *outcome, bg_datagram *answer);
BG_HIDDEN bg_status bg_proved_party_take_from(bg_inner *party, uint32_t sender, const uint8_t *packet, size_t length,
                                              uint32_t word, bg_outcome *outcome, bg_datagram *answer);
BG_HIDDEN bg_status bg_proved_referee_heard(bg_inner *party, uint32_t peer, uint32_t held, bg_outcome *outcome,
                                            bg_datagram *answer);
BG_HIDDEN bg_status bg_proved_seat_choose(bg_inner *party, const uint8_t *action, size_t length, uint32_t *number,
                                          uint32_t *why);
BG_HIDDEN bg_status bg_proved_party_options(bg_inner *party, uint32_t *options);
BG_HIDDEN bg_status bg_proved_party_claim(bg_inner *party, uint32_t *number, uint8_t *out, size_t room,
                                          size_t *needed);
BG_HIDDEN bg_status bg_proved_party_try(bg_inner *party, uint32_t player, const uint8_t *action, size_t length,
                                        uint32_t *number, uint32_t *why);
BG_HIDDEN bg_status bg_proved_party_tick(bg_inner *party, bg_datagram *first, bg_datagram *second);
BG_HIDDEN bg_status bg_proved_party_to_save(bg_inner *party, uint32_t *slot, uint32_t *save, uint8_t *out, size_t room,
                                            size_t *needed);
BG_HIDDEN bg_status bg_proved_party_mark_saved(bg_inner *party, uint32_t save);

/* Whether the handle stands where it was opened. A fresh one has no place yet. */
static int is_in_place(bg_party *party) {
    uintptr_t place = __atomic_load_n(&party->place, __ATOMIC_RELAXED);
    return place == 0 || place == (uintptr_t)party;
}

/* Why a call does not enter a handle in this state. */
static bg_status refusal(uint32_t state) {
    switch (state) {
    case FRESH:
        return BG_NOT_OPEN;
    case SHUT:
        return BG_CLOSED;
    default:
        return BG_BUSY;
    }
}

/* Enters a handle that is open. BG_OK where no other call is inside; then this one has it alone, until it leaves. */
static bg_status enter(bg_party *party) {
    uint32_t state = OPEN;
    if (!is_in_place(party)) {
        return BG_COPIED;
    }
    if (__atomic_compare_exchange_n(&party->state, &state, INSIDE, 0, __ATOMIC_SEQ_CST, __ATOMIC_SEQ_CST)) {
        return BG_OK;
    }
    return refusal(state);
}

static void leave(bg_party *party, uint32_t state) {
    __atomic_store_n(&party->state, state, __ATOMIC_SEQ_CST);
}

/* Enters a handle that is to be opened, whatever it was, and notes its state. */
static bg_status enter_anew(bg_party *party, uint32_t *before) {
    if (!is_in_place(party)) {
        return BG_COPIED;
    }
    *before = __atomic_load_n(&party->state, __ATOMIC_SEQ_CST);
    if (*before == INSIDE ||
        !__atomic_compare_exchange_n(&party->state, before, INSIDE, 0, __ATOMIC_SEQ_CST, __ATOMIC_SEQ_CST)) {
        return BG_BUSY;
    }
    return BG_OK;
}

/* Leaves a handle that was to be opened: where it was not, it is as before. */
static bg_status leave_anew(bg_party *party, uint32_t before, bg_status status) {
    if (status == BG_OK) {
        __atomic_store_n(&party->place, (uintptr_t)party, __ATOMIC_RELAXED);
    }
    leave(party, status == BG_OK ? OPEN : before);
    return status;
}

/* The proved calls see the front of a handle. */
static bg_inner *inner(bg_party *party) {
    return (bg_inner *)(void *)&party->inner;
}

/* Enters the handle, makes a call, and leaves the handle. */
#define WITHIN(party, call)                                                                                            \
    do {                                                                                                               \
        bg_status within = enter(party);                                                                               \
        if (within == BG_OK) {                                                                                         \
            within = (call);                                                                                           \
            leave(party, OPEN);                                                                                        \
        }                                                                                                              \
        return within;                                                                                                 \
    } while (0)

bg_status bg_party_begin(bg_party *party, uint32_t number, uint64_t id, uint32_t match_length, uint32_t rules,
                         const uint8_t *slot0, size_t length0, const uint8_t *slot1, size_t length1) {
    uint32_t before = FRESH;
    bg_status status = enter_anew(party, &before);
    if (status != BG_OK) {
        return status;
    }
    status = bg_proved_party_begin(inner(party), number, id, match_length, rules, slot0, length0, slot1, length1);
    return leave_anew(party, before, status);
}

bg_status bg_party_resume(bg_party *party, uint32_t number, uint64_t id, uint32_t match_length, uint32_t rules,
                          const uint8_t *slot0, size_t length0, const uint8_t *slot1, size_t length1,
                          bg_saved *saved) {
    uint32_t before = FRESH;
    bg_status status = enter_anew(party, &before);
    if (status != BG_OK) {
        return status;
    }
    status = bg_proved_party_resume(inner(party), number, id, match_length, rules, slot0, length0, slot1, length1,
                                    saved);
    return leave_anew(party, before, status);
}

bg_status bg_party_close(bg_party *party) {
    bg_status status = enter(party);
    if (status == BG_OK) {
        bg_proved_party_close(inner(party));
        leave(party, SHUT);
    }
    return status;
}

/* A call that only reads takes the party out of the handle and puts it back: the handle is written to, though nobody
 * who could see that is let in meanwhile. */
static bg_party *writable(const bg_party *party) {
    return (bg_party *)(uintptr_t)party;
}

bg_status bg_party_entries(const bg_party *party, uint32_t *entries) {
    bg_party *it = writable(party);
    WITHIN(it, bg_proved_party_entries(inner(it), entries));
}

bg_status bg_party_saved(const bg_party *party, uint32_t *saved) {
    bg_party *it = writable(party);
    WITHIN(it, bg_proved_party_saved(inner(it), saved));
}

bg_status bg_party_told(const bg_party *party, uint32_t *entries) {
    bg_party *it = writable(party);
    WITHIN(it, bg_proved_party_told(inner(it), entries));
}

bg_status bg_party_board(const bg_party *party, uint8_t *out, size_t room, size_t *needed) {
    bg_party *it = writable(party);
    WITHIN(it, bg_proved_party_board(inner(it), out, room, needed));
}

bg_status bg_party_transcript(const bg_party *party, uint8_t *out, size_t room, size_t *needed) {
    bg_party *it = writable(party);
    WITHIN(it, bg_proved_party_transcript(inner(it), out, room, needed));
}

bg_status bg_party_turns(const bg_party *party, uint8_t *out, size_t room, size_t *needed) {
    bg_party *it = writable(party);
    WITHIN(it, bg_proved_party_turns(inner(it), out, room, needed));
}

bg_status bg_party_entries_text(const bg_party *party, uint32_t from, uint32_t count, uint8_t *out, size_t room,
                                size_t *needed) {
    bg_party *it = writable(party);
    WITHIN(it, bg_proved_party_entries_text(inner(it), from, count, out, room, needed));
}

bg_status bg_party_actor(const bg_party *party, uint32_t *actor) {
    bg_party *it = writable(party);
    WITHIN(it, bg_proved_party_actor(inner(it), actor));
}

bg_status bg_party_standing(const bg_party *party, bg_standing *standing) {
    bg_party *it = writable(party);
    WITHIN(it, bg_proved_party_standing(inner(it), standing));
}

bg_status bg_party_shown(const bg_party *party, bg_shown *shown, uint8_t *out, size_t room, size_t *needed) {
    bg_party *it = writable(party);
    WITHIN(it, bg_proved_party_shown(inner(it), shown, out, room, needed));
}

bg_status bg_party_options(const bg_party *party, uint32_t *options) {
    bg_party *it = writable(party);
    WITHIN(it, bg_proved_party_options(inner(it), options));
}

bg_status bg_party_claim(const bg_party *party, uint32_t *number, uint8_t *out, size_t room, size_t *needed) {
    bg_party *it = writable(party);
    WITHIN(it, bg_proved_party_claim(inner(it), number, out, room, needed));
}

bg_status bg_party_try(const bg_party *party, uint32_t player, const uint8_t *action, size_t length, uint32_t *number,
                       uint32_t *why) {
    bg_party *it = writable(party);
    WITHIN(it, bg_proved_party_try(inner(it), player, action, length, number, why));
}

bg_status bg_referee_due(bg_party *party, uint32_t word, uint32_t *number) {
    WITHIN(party, bg_proved_referee_due(inner(party), word, number));
}

bg_status bg_party_take(bg_party *party, const uint8_t *packet, size_t length, uint32_t word, bg_outcome *outcome,
                        bg_datagram *answer) {
    WITHIN(party, bg_proved_party_take(inner(party), packet, length, word, outcome, answer));
}

bg_status bg_party_take_from(bg_party *party, uint32_t sender, const uint8_t *packet, size_t length, uint32_t word,
                             bg_outcome *outcome, bg_datagram *answer) {
    WITHIN(party, bg_proved_party_take_from(inner(party), sender, packet, length, word, outcome, answer));
}

bg_status bg_referee_heard(bg_party *party, uint32_t peer, uint32_t held, bg_outcome *outcome, bg_datagram *answer) {
    WITHIN(party, bg_proved_referee_heard(inner(party), peer, held, outcome, answer));
}

bg_status bg_seat_choose(bg_party *party, const uint8_t *action, size_t length, uint32_t *number, uint32_t *why) {
    WITHIN(party, bg_proved_seat_choose(inner(party), action, length, number, why));
}

bg_status bg_party_tick(bg_party *party, bg_datagram *first, bg_datagram *second) {
    WITHIN(party, bg_proved_party_tick(inner(party), first, second));
}

/* Ticks one of many parties. 1 where it makes a packet; the second one is never made alone. */
static size_t tick_one(bg_party *party, bg_ticked *it) {
    it->status = bg_party_tick(party, &it->packets[0], &it->packets[1]);
    it->count = 0;
    it->reserved[0] = it->reserved[1] = 0;
    for (int at = 0; at < 2 && it->status == BG_OK; at++) {
        it->count += it->packets[at].length != 0;
    }
    return it->count != 0;
}

bg_status bg_parties_tick(bg_party *const *parties, size_t count, bg_ticked *ticked, size_t *sending) {
    *sending = 0;
    for (size_t at = 0; at < count; at++) {
        *sending += tick_one(parties[at], &ticked[at]);
    }
    return BG_OK;
}

bg_status bg_party_to_save(bg_party *party, uint32_t *slot, uint32_t *save, uint8_t *out, size_t room,
                           size_t *needed) {
    WITHIN(party, bg_proved_party_to_save(inner(party), slot, save, out, room, needed));
}

bg_status bg_party_mark_saved(bg_party *party, uint32_t save) {
    WITHIN(party, bg_proved_party_mark_saved(inner(party), save));
}
