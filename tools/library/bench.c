/* Prints how many nanoseconds a call takes, where few entries are held and where many are: the least of several runs.
 * The saved texts are those of a match to 99 points, which it plays in memory first. With a folder it keeps these
 * there, with the transcripts, for who measures the same elsewhere. */
#define _POSIX_C_SOURCE 200809L
#include "bg_relay.h"
#include "calls.h"
#include "played.h"

#include <stdio.h>
#include <stdlib.h>
#include <string.h>
#include <time.h>

enum { RUNS = 7, SIZES = 3 };

static const uint32_t ENTRIES[SIZES] = {10, 450, 5000};
static const uint8_t WANT[] = "BG\2\1\0\0\0\0\0\0\0\1\1\3\0\0\0\0";

static bg_party party;

/* What is timed. */
static void open_and_close(void) {
    bg_party own = BG_PARTY_INIT;
    resume_sample(&own);
    bg_party_close(&own);
}

static void to_save(void) {
    uint32_t slot = 0, number = 0;
    size_t needed = 0;
    must(bg_party_to_save(&party, &slot, &number, played_text, sizeof played_text, &needed), "bg_party_to_save");
}

static void take_want(void) {
    static bg_outcome outcome;
    static bg_datagram answer;
    must(bg_party_take(&party, WANT, sizeof WANT - 1, 0, &outcome, &answer), "bg_party_take");
}

static void tick(void) {
    static bg_datagram first, second;
    must(bg_party_tick(&party, &first, &second), "bg_party_tick");
}

static void entries(void) {
    if (entries_of(&party) == 0) {
        stop("bg_party_entries", "it holds nothing");
    }
}

static void judge(void) {
    static bg_verdict verdict;
    size_t needed = 0;
    must(bg_judge(sample.transcript, sample.transcript_length, &verdict, played_text, sizeof played_text, &needed),
         "bg_judge");
}

/* A request to a server that keeps nothing in memory, but for what its slots take. */
static void request(void) {
    bg_party own = BG_PARTY_INIT;
    bg_outcome outcome = {0};
    bg_datagram answer = {0};
    resume_sample(&own);
    must(bg_party_take(&own, WANT, sizeof WANT - 1, 0, &outcome, &answer), "bg_party_take");
    save_party(&own);
    bg_party_close(&own);
}

static const struct timed {
    const char *name;
    void (*call)(void);
} TIMED[] = {
    {"bg_party_resume, bg_party_close", open_and_close},
    {"bg_party_to_save", to_save},
    {"bg_party_take of a want", take_want},
    {"bg_party_tick", tick},
    {"bg_party_entries", entries},
    {"bg_judge", judge},
    {"resume, take, save, close", request},
};
enum { CALLS = sizeof TIMED / sizeof *TIMED };

static double now(void) {
    struct timespec time;
    clock_gettime(CLOCK_MONOTONIC, &time);
    return (double)time.tv_sec * 1e9 + (double)time.tv_nsec;
}

/* The least time of a call, in nanoseconds: a run has as many calls as take some 20 milliseconds. */
static double time_of(void (*call)(void)) {
    double least = 1e18;
    double start = now();
    call();
    long rounds = (long)(2e7 / (now() - start + 1)) + 1;
    for (int run = 0; run < RUNS; run++) {
        start = now();
        for (long round = 0; round < rounds; round++) {
            call();
        }
        double each = (now() - start) / (double)rounds;
        least = each < least ? each : least;
    }
    return least;
}

static void keep_file(const char *folder, const char *name, uint32_t count, const uint8_t *bytes, size_t length) {
    char path[4096];
    snprintf(path, sizeof path, "%s/%s-%u", folder, name, (unsigned)count);
    FILE *file = fopen(path, "wb");
    if (!file || fwrite(bytes, 1, length, file) != length || fclose(file)) {
        stop(path, "it could not be written");
    }
}

int main(int count, char **arguments) {
    double times[CALLS][SIZES];
    for (int size = 0; size < SIZES; size++) {
        play(ENTRIES[size]);
        if (count > 1) {
            keep_file(arguments[1], "saved", ENTRIES[size], sample.saved, sample.saved_length);
            keep_file(arguments[1], "transcript", ENTRIES[size], sample.transcript, sample.transcript_length);
        }
        resume_sample(&party);
        for (int call = 0; call < CALLS; call++) {
            times[call][size] = time_of(TIMED[call].call);
        }
        bg_party_close(&party);
        free(sample.saved);
        free(sample.transcript);
    }
    printf("%-30s %10u %10u %10u entries held\n", "nanoseconds", (unsigned)ENTRIES[0], (unsigned)ENTRIES[1],
           (unsigned)ENTRIES[2]);
    for (int call = 0; call < CALLS; call++) {
        printf("%-30s %10.0f %10.0f %10.0f\n", TIMED[call].name, times[call][0], times[call][1], times[call][2]);
    }
    return 0;
}
