/* Threads: several judge at once, each has its own match, a party is opened in one thread, used in a second, and closed
 * in a third, two use one party at once, of which one is refused, and the calls take less than 64 KB of stack. */
#define _POSIX_C_SOURCE 200809L
#include "bg_relay.h"
#include "checks.h"

#include <pthread.h>
#include <stdio.h>
#include <stdlib.h>
#include <string.h>

#define BYTES(text) (const uint8_t *)(text), sizeof(text) - 1

enum { THREADS = 4, ROUNDS = 200, ROOM = 4096, THREE_ONE = 12 };
enum { SHARED_ROUNDS = 20000 };
enum { STACK = 512 * 1024, MOST_STACK = 64 * 1024, PAINT = 0xA5 };

static const char TRANSCRIPT[] = "length 1\nopen 3 1\nX move 8-5 6-5\nO roll 6 4\n";

static pthread_t begin(void *(*work)(void *), void *argument) {
    pthread_t thread;
    if (pthread_create(&thread, NULL, work, argument)) {
        fprintf(stderr, "threads: there is no thread\n");
        exit(1);
    }
    return thread;
}

static void *end(pthread_t thread) {
    void *result = NULL;
    pthread_join(thread, &result);
    return result;
}

/* Judges again and again; null where each answer was the same. */
static void *judge(void *argument) {
    uint8_t out[ROOM];
    (void)argument;
    for (int round = 0; round < ROUNDS; round++) {
        bg_verdict verdict = {9, 9, {9, 9}};
        size_t needed = 0;
        bg_status status = bg_judge(BYTES(TRANSCRIPT), &verdict, out, sizeof out, &needed);
        if (status != BG_OK || verdict.kind != 0 || verdict.number != 3 || memcmp(out + needed - 5, "ok 3\n", 5)) {
            return "a judgement";
        }
    }
    return NULL;
}

/* A referee of its own, opened, saved and closed again and again. */
static void *referee(void *argument) {
    uint8_t out[ROOM];
    (void)argument;
    for (int round = 0; round < ROUNDS; round++) {
        bg_party party = BG_PARTY_INIT;
        uint32_t number = 0, slot = 0, save = 0;
        size_t needed = 0;
        int failed = bg_party_begin(&party, 0, 1, 5, 1, NULL, 0, NULL, 0) != BG_OK;
        failed |= bg_referee_due(&party, THREE_ONE, &number) != BG_OK;
        failed |= bg_party_to_save(&party, &slot, &save, out, sizeof out, &needed) != BG_OK;
        failed |= bg_party_mark_saved(&party, save) != BG_OK;
        failed |= saved_of(&party) != 1;
        bg_party_close(&party);
        if (failed) {
            return "a referee of its own";
        }
    }
    return NULL;
}

static void check_at_once(void) {
    pthread_t threads[2 * THREADS];
    for (int at = 0; at < THREADS; at++) {
        threads[2 * at] = begin(judge, NULL);
        threads[2 * at + 1] = begin(referee, NULL);
    }
    for (int at = 0; at < 2 * THREADS; at++) {
        const char *failed = end(threads[at]);
        check(failed == NULL, failed ? failed : "a thread");
    }
}

static void *open_party(void *party) {
    return bg_party_begin(party, 0, 1, 5, 1, NULL, 0, NULL, 0) == BG_OK ? NULL : "an open";
}

static void *use_party(void *party) {
    uint32_t number = 0;
    return bg_referee_due(party, THREE_ONE, &number) == BG_OK ? NULL : "the opening of a game";
}

static void *close_party(void *party) {
    bg_party_close(party);
    return NULL;
}

static void check_passing(void) {
    bg_party party = BG_PARTY_INIT;
    check(end(begin(open_party, &party)) == NULL, "a party that another thread opens");
    check(end(begin(use_party, &party)) == NULL, "a party that a second one uses");
    check_number(entries_of(&party), 1, "its entries, seen from here");
    check(end(begin(close_party, &party)) == NULL, "a party that a third one closes");
    check_status(bg_party_close(&party), BG_CLOSED, "a party that is closed");
}

/* What two threads do with one party at once: each counts the calls that were let in, and those that were not. */
struct user {
    bg_party *party;
    unsigned rounds, done, busy, other;
    size_t length;
};

static void count(struct user *user, bg_status status) {
    user->done += status == BG_OK;
    user->busy += status == BG_BUSY;
    user->other += status != BG_OK && status != BG_BUSY;
}

/* Claims of the referee and its saves change the party; texts of it are whole, or there are none. A thread that is
 * stopped inside keeps the other one out for as long, so each goes on until one of its calls was let in. */
static void *use_at_once(void *argument) {
    struct user *user = argument;
    uint8_t out[ROOM];
    for (; user->rounds < SHARED_ROUNDS || user->done == 0; user->rounds++) {
        uint32_t number = 0, slot = 0, save = 0;
        size_t needed = 0;
        bg_status status = bg_party_board(user->party, out, sizeof out, &needed);
        count(user, status);
        user->other += status == BG_OK && needed != user->length;
        count(user, bg_party_to_save(user->party, &slot, &save, out, sizeof out, &needed));
        count(user, bg_party_entries(user->party, &number));
        user->other += number > 1;
    }
    return NULL;
}

static void check_shared(void) {
    bg_party party = BG_PARTY_INIT;
    uint8_t out[ROOM];
    struct user users[2] = {{.party = &party}, {.party = &party}};
    check(open_party(&party) == NULL && use_party(&party) == NULL, "a referee with its opening");
    check_status(bg_party_board(&party, out, sizeof out, &users[0].length), BG_OK, "its board");
    users[1].length = users[0].length;
    pthread_t one = begin(use_at_once, &users[0]), other = begin(use_at_once, &users[1]);
    end(one);
    end(other);
    for (int at = 0; at < 2; at++) {
        check(users[at].done > 0, "calls that were let in");
        check_number(users[at].other, 0, "other answers than BG_OK and BG_BUSY, and texts that are not whole");
        check_number(users[at].done + users[at].busy, 3 * users[at].rounds, "each call was answered");
    }
    printf("two threads on one party: %u calls let in, %u answered BG_BUSY\n", users[0].done + users[1].done,
           users[0].busy + users[1].busy);
    check_number(entries_of(&party), 1, "the entries of a party that two used");
    check_status(bg_party_close(&party), BG_OK, "a party that two used");
}

/* One call of each kind, in which nothing of this program takes much of the stack. */
static void *all_calls(void *argument) {
    static uint8_t out[1 << 16];
    static bg_datagram first, second;
    static bg_outcome outcome;
    static bg_verdict verdict;
    static bg_saved saved;
    bg_party *party = argument;
    uint32_t one = 0, two = 0;
    size_t needed = 0;
    int failed = bg_party_begin(party, 1, 1, 5, 1, NULL, 0, NULL, 0) != BG_OK;
    failed |= bg_party_take(party, BYTES("BG\2\3\0\0\0\0\0\0\0\1\1\0\0\0\1\1\1\3\1"), 0, &outcome, &first) != BG_OK;
    failed |= bg_party_turns(party, out, sizeof out, &needed) != BG_OK;
    failed |= bg_seat_choose(party, BYTES("move 8-5 6-5"), &one, &two) != BG_OK;
    failed |= bg_party_to_save(party, &one, &two, out, sizeof out, &needed) != BG_OK;
    failed |= bg_slots_read(1, 1, 5, 1, out, needed, NULL, 0, &saved) != BG_OK;
    failed |= bg_party_tick(party, &first, &second) != BG_OK;
    failed |= bg_party_board(party, out, sizeof out, &needed) != BG_OK;
    failed |= bg_party_transcript(party, out, sizeof out, &needed) != BG_OK;
    failed |= bg_party_begin(party, 0, 1, 5, 1, NULL, 0, NULL, 0) != BG_OK;
    failed |= bg_referee_due(party, THREE_ONE, &one) != BG_OK;
    failed |= bg_judge(BYTES(TRANSCRIPT), &verdict, out, sizeof out, &needed) != BG_OK;
    failed |= bg_transcript_turns(BYTES(TRANSCRIPT), out, sizeof out, &needed) != BG_OK;
    return failed ? "a call on a small stack" : NULL;
}

/* How much of a painted stack a thread of these calls uses. */
static void check_stack(void) {
    bg_party party = BG_PARTY_INIT;
    pthread_attr_t attributes;
    pthread_t thread;
    void *stack = NULL;
    if (posix_memalign(&stack, 4096, STACK)) {
        check(0, "there is no memory for a stack");
        return;
    }
    memset(stack, PAINT, STACK);
    pthread_attr_init(&attributes);
    check(pthread_attr_setstack(&attributes, stack, STACK) == 0, "a stack of its own");
    check(pthread_create(&thread, &attributes, all_calls, &party) == 0, "a thread with it");
    check(end(thread) == NULL, "the calls on it");
    size_t used = STACK;
    for (const uint8_t *byte = stack; used > 0 && *byte == PAINT; byte++) {
        used--;
    }
    check(used < MOST_STACK, "the stack that the calls take");
    printf("the calls took %zu bytes of stack, those of the thread itself among them\n", used);
    bg_party_close(&party);
    pthread_attr_destroy(&attributes);
    free(stack);
}

int main(void) {
    check_at_once();
    check_passing();
    check_shared();
    /* (valgrind takes the bytes of a stack that nothing uses any more for bytes that nobody may read) */
    if (!getenv("WITHOUT_STACK")) {
        check_stack();
    }
    return checked();
}
