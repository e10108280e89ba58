/* Plays a match through bytes: one process does what a server of the referee does, and what the programs of both
 * players do. Packets are lost on the way, and parties begin again from their slots, also where a crash has cut a save
 * short. It goes by words of its own in the place of random ones, so that it prints the same on each machine.
 *
 *   cc -std=c99 -I OUT relay.c slots.c calls.c OUT/libbg_relay.a -o relay
 *   ./relay LENGTH RULES FOLDER     (an empty folder, which then has the slots, and the transcript of the match)
 */
#include "bg_relay.h"
#include "calls.h"
#include "slots.h"

#include <stdio.h>
#include <stdlib.h>
#include <string.h>

enum { REFEREE = 0, SEAT_OF_X = 1, SEAT_OF_O = 2, PARTIES = 3, NOBODY = 3 };

struct table {
    bg_party parties[PARTIES];
    uint32_t length;
    uint32_t rules;
    const char *folder;
    uint64_t random;
    struct text text;
};

static const uint64_t MATCH = 7;

/* A word that is as good as random. A server draws its words from the system, and hands in each of them once. */
static uint32_t next_word(struct table *table) {
    table->random ^= table->random << 13;
    table->random ^= table->random >> 7;
    table->random ^= table->random << 17;
    return (uint32_t)(table->random >> 32);
}

static int happens(struct table *table, uint32_t one_in) {
    return next_word(table) % one_in == 0;
}

static void begin_party(struct table *table, unsigned number, const struct slot_text *zero,
                        const struct slot_text *one) {
    must(bg_party_begin(&table->parties[number], number, MATCH, table->length, table->rules,
                        zero->bytes, zero->length, one->bytes, one->length), "bg_party_begin");
}

/* Goes on with what the slots have. A first save that was cut short is none: nothing was told of what it had, so the
 * party begins as if its slots were empty. */
static void resume_party(struct table *table, unsigned number, const struct slot_text *zero,
                         const struct slot_text *one) {
    const struct slot_text empty = {0};
    bg_saved saved = {0};
    bg_status status = bg_party_resume(&table->parties[number], number, MATCH, table->length, table->rules,
                                       zero->bytes, zero->length, one->bytes, one->length, &saved);
    if (status == BG_NOTHING_SAVED) {
        begin_party(table, number, &empty, &empty);
        return;
    }
    must(status, "bg_party_resume");
    if (saved.misplaced) {
        stop("bg_party_resume", "a save was written to the wrong slot");
    }
}

/* Opens a party: it begins where its slots are empty, and else goes on. What it was before is let go. */
static void open_party(struct table *table, unsigned number) {
    struct slot_text zero, one;
    if (slot_read(table->folder, number, 0, &zero) || slot_read(table->folder, number, 1, &one)) {
        stop("slot_read", "a slot could not be read");
    }
    if (zero.length == 0 && one.length == 0) {
        begin_party(table, number, &zero, &one);
    } else {
        resume_party(table, number, &zero, &one);
    }
    free(zero.bytes);
    free(one.bytes);
}

/* Saves a party. Where the text is not written whole, here now and then on purpose, what the slots restore holds. */
static void save_party(struct table *table, unsigned number) {
    bg_party *party = &table->parties[number];
    struct text *text = &table->text;
    uint32_t slot = 0, save = 0;
    bg_status status;
    while ((status = bg_party_to_save(party, &slot, &save, text->bytes, text->room, &text->length)) == BG_NO_ROOM) {
        make_room(text);
    }
    must(status, "bg_party_to_save");
    int is_cut = happens(table, 64);
    size_t length = is_cut ? text->length / 2 : text->length;
    if (slot_write(table->folder, number, slot, text->bytes, length) || is_cut) {
        open_party(table, number);
    } else {
        must(bg_party_mark_saved(party, save), "bg_party_mark_saved");
    }
}

/* Carries a packet to its party, and then the answer; one in eight is lost. */
static void deliver(struct table *table, const bg_datagram *sent) {
    if (sent->length == 0 || happens(table, 8)) {
        return;
    }
    bg_outcome outcome = {0};
    bg_datagram answer = {0};
    bg_party *party = &table->parties[sent->to];
    do {
        must(bg_party_take(party, sent->bytes, sent->length, next_word(table), &outcome, &answer), "bg_party_take");
    } while (outcome.kind == BG_TOOK_WORD_REFUSED);
    if (outcome.kind == BG_TOOK_ACCEPTED) {
        save_party(table, sent->to);
    }
    deliver(table, &answer);
}

/* Claims an action. The answer is BG_OK, or says why there is no claim. */
static bg_status choose(struct table *table, unsigned seat, const void *action, size_t length) {
    uint32_t number = 0, why = BG_WHY_NONE;
    bg_status status = bg_seat_choose(&table->parties[seat], action, length, &number, &why);
    if (status != BG_ILLEGAL && status != BG_NOT_YOUR_TURN && status != BG_ALREADY_CLAIMED) {
        must(status, "bg_seat_choose");
    }
    return status;
}

/* Plays one of the legal turns, if the player is to move. */
static bg_status choose_turn(struct table *table, unsigned seat) {
    struct text *text = &table->text;
    bg_status status;
    while ((status = bg_party_turns(&table->parties[seat], text->bytes, text->room, &text->length)) == BG_NO_ROOM) {
        make_room(text);
    }
    if (status == BG_NOT_TO_MOVE) {
        return status;
    }
    must(status, "bg_party_turns");
    if (text->length == 0) {
        return BG_NOT_TO_MOVE;
    }
    const uint8_t *line = text->bytes, *end = text->bytes + text->length;
    for (uint32_t skip = next_word(table) % 32; skip > 0; skip--) {
        const uint8_t *feed = memchr(line, '\n', (size_t)(end - line));
        line = feed + 1 == end ? text->bytes : feed + 1;
    }
    const uint8_t *feed = memchr(line, '\n', (size_t)(end - line));
    return choose(table, seat, line, (size_t)(feed - line));
}

/* Acts for a player whose turn it is: tries one action after the other. */
static bg_status act(struct table *table, unsigned seat) {
    const char *const wishes[] = {
        happens(table, 256) ? "resign normal" : "roll",
        happens(table, 16) ? "double" : "roll",
        happens(table, 4) ? "drop" : "take",
        happens(table, 2) ? "accept" : "reject",
        "roll",
    };
    for (size_t at = 0; at < sizeof wishes / sizeof *wishes; at++) {
        bg_status status = choose(table, seat, wishes[at], strlen(wishes[at]));
        if (status != BG_ILLEGAL) {
            return status;
        }
    }
    return choose_turn(table, seat);
}

/* What a server does about once a second, and the programs of the players too. */
static void tick(struct table *table, unsigned number) {
    bg_datagram first = {0}, second = {0};
    must(bg_party_tick(&table->parties[number], &first, &second), "bg_party_tick");
    deliver(table, &first);
    deliver(table, &second);
}

/* The referee opens a game or passes a turn where that is due; a word that opens no game is followed by another. */
static void referee_adds(struct table *table) {
    uint32_t number = 0;
    bg_status status;
    do {
        status = bg_referee_due(&table->parties[REFEREE], next_word(table), &number);
    } while (status == BG_WORD_REFUSED);
    if (status != BG_NOT_DUE) {
        must(status, "bg_referee_due");
        save_party(table, REFEREE);
    }
}

static int is_over(struct table *table) {
    int over = 1;
    for (unsigned number = 0; number < PARTIES; number++) {
        uint32_t actor = 0;
        must(bg_party_actor(&table->parties[number], &actor), "bg_party_actor");
        over &= actor == NOBODY;
    }
    return over;
}

static void play(struct table *table) {
    while (!is_over(table)) {
        referee_adds(table);
        for (unsigned seat = SEAT_OF_X; seat <= SEAT_OF_O; seat++) {
            if (act(table, seat) == BG_OK) {
                save_party(table, seat);
            }
        }
        for (unsigned number = 0; number < PARTIES; number++) {
            tick(table, number);
        }
        if (happens(table, 64)) {
            open_party(table, next_word(table) % PARTIES);
        }
    }
}

/* Writes the transcript of the referee, and prints what the judge says of it. */
static void judge(struct table *table, struct text *transcript) {
    struct text *text = &table->text;
    bg_party *referee = &table->parties[REFEREE];
    bg_verdict verdict = {0};
    bg_status status;
    while ((status = bg_party_transcript(referee, transcript->bytes, transcript->room, &transcript->length))
           == BG_NO_ROOM) {
        make_room(transcript);
    }
    must(status, "bg_party_transcript");
    while ((status = bg_judge(transcript->bytes, transcript->length, &verdict, text->bytes, text->room,
                              &text->length)) == BG_NO_ROOM) {
        make_room(text);
    }
    must(status, "bg_judge");
    fwrite(text->bytes, 1, text->length, stdout);
}

/* How many entries each party holds, and how many of them the referee has saved. */
static void print_counts(struct table *table) {
    for (unsigned number = 0; number < PARTIES; number++) {
        printf("party %u: %u entries\n", number, (unsigned)entries_of(&table->parties[number]));
    }
    uint32_t saved = 0;
    must(bg_party_saved(&table->parties[REFEREE], &saved), "bg_party_saved");
    printf("saved: %u entries\n", (unsigned)saved);
}

static void write_transcript(const char *folder, const struct text *transcript) {
    char path[4096];
    snprintf(path, sizeof path, "%s/transcript", folder);
    FILE *file = fopen(path, "wb");
    if (!file || fwrite(transcript->bytes, 1, transcript->length, file) != transcript->length || fclose(file)) {
        stop(path, "it could not be written");
    }
}

int main(int count, char **arguments) {
    if (count != 4) {
        stop("usage", "relay LENGTH RULES FOLDER");
    }
    struct table table = {.random = 88172645463325252u, .folder = arguments[3]};
    struct text transcript = {0};
    table.length = (uint32_t)atoi(arguments[1]);
    table.rules = (uint32_t)atoi(arguments[2]);
    for (unsigned number = 0; number < PARTIES; number++) {
        open_party(&table, number);
    }
    play(&table);
    judge(&table, &transcript);
    print_counts(&table);
    write_transcript(table.folder, &transcript);
    for (unsigned number = 0; number < PARTIES; number++) {
        must(bg_party_close(&table.parties[number]), "bg_party_close");
    }
    free(table.text.bytes);
    free(transcript.bytes);
    return 0;
}
