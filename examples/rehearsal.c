/* A rehearsal: sets a cue in the middle of a show, plays three slots, returns to the cue and plays them again. Then more
   cues than a store holds.

     cc -Iinclude examples/rehearsal.c target/staticlib/libcrossbar.a -o target/rehearsal && target/rehearsal

   Three stage boxes play to desk 0. */
#include <inttypes.h>
#include <stdio.h>
#include <string.h>

#include "crossbar.h"

/* The show: each arrival with its slot. Box 0 can wait, box 1 goes first, box 2 next; in slot 1 box 0 has something
   urgent. */
static const struct {
    uint32_t slot, input, output, flow, rank, tag;
} show[] = {{0, 0, 0, 0, 9, 1}, {0, 1, 0, 0, 1, 2}, {0, 2, 0, 0, 2, 3}, {1, 0, 0, 1, 0, 4}};

static const char *const words[] = {
    [CROSSBAR_BROKEN_TABLE] = "broken table",
    [CROSSBAR_BAD_NAME] = "bad name",
    [CROSSBAR_CUES_FULL] = "cues full",
    [CROSSBAR_NO_SUCH_CUE] = "no such cue",
};

#define SHOW_LENGTH (sizeof show / sizeof *show)
#define TAKE 3 /* slots */

static uint8_t table[CROSSBAR_TABLE_BYTES], store[CROSSBAR_STORE_BYTES], tally[CROSSBAR_TALLY_BYTES];

/* All numbers are little-endian, whatever the machine. */
static void put32(uint8_t *bytes, uint32_t n) {
    for (int i = 0; i < 4; i++) bytes[i] = (uint8_t)(n >> (8 * i));
}

static uint32_t get32(const uint8_t *bytes) {
    uint32_t n = 0;
    for (int i = 3; i >= 0; i--) n = n << 8 | bytes[i];
    return n;
}

static uint64_t get64(const uint8_t *bytes) { return (uint64_t)get32(bytes + 4) << 32 | get32(bytes); }

/* Plays the slot of the show that is next by the clock, and prints what departs. Returns 0 if it ran. */
static int play(uint8_t *answer) {
    uint8_t arrivals[CROSSBAR_PORTS * CROSSBAR_ARRIVAL_BYTES], *at = arrivals;
    uint32_t number = get32(table + 12); /* the clock */
    for (size_t k = 0; k < SHOW_LENGTH; k++) {
        if (show[k].slot != number) continue;
        put32(at, show[k].input);
        put32(at + 4, show[k].output);
        put32(at + 8, show[k].flow);
        put32(at + 12, show[k].rank);
        put32(at + 16, show[k].tag);
        at += CROSSBAR_ARRIVAL_BYTES;
    }
    if (slot(table, sizeof table, arrivals, (size_t)(at - arrivals), answer, CROSSBAR_ANSWER_BYTES, tally, sizeof tally))
        return 1;
    const uint8_t *d = answer + CROSSBAR_DEPARTURE_AT(0);
    printf("slot %" PRIu32 ": output 0 sends tag %" PRIu32 " of input %" PRIu32 ", rank %" PRIu32 "\n", number,
           get32(d + 20), get32(d + 4), get32(d + 16));
    return 0;
}

static int play_take(uint8_t answers[TAKE][CROSSBAR_ANSWER_BYTES]) {
    for (int k = 0; k < TAKE; k++)
        if (play(answers[k]) != 0) return 1;
    printf("tally: %" PRIu64 " slots run, %" PRIu64 " refused, %" PRIu64 " cells in, %" PRIu64 " out\n", get64(tally),
           get64(tally + 8), get64(tally + 16), get64(tally + 24));
    return 0;
}

/* Prints what came of a call. */
static void tell(const char *call, const char *name, uint32_t result) {
    if (result == 0)
        printf("%s %s: done\n", call, name);
    else
        printf("%s %s: refused with %" PRIu32 ", %s\n", call, name, result, words[result]);
}

/* A name is lent by its letters alone, without the zero that ends a string. */
static void set(const char *name) {
    tell("set", name, cue_set(table, sizeof table, store, sizeof store, (const uint8_t *)name, strlen(name)));
}

static void drop(const char *name) {
    tell("drop", name, cue_drop(store, sizeof store, (const uint8_t *)name, strlen(name)));
}

static void return_to(const char *name) {
    tell("return to", name, cue_return(table, sizeof table, store, sizeof store, (const uint8_t *)name, strlen(name)));
}

int main(void) {
    static uint8_t opening[CROSSBAR_ANSWER_BYTES], first[TAKE][CROSSBAR_ANSWER_BYTES];
    static uint8_t second[TAKE][CROSSBAR_ANSWER_BYTES];

    if (start(3, 0, 0, table, sizeof table) != 0 || cue_start(store, sizeof store) != 0) return 1;
    if (play(opening) != 0) return 1;
    /* Two cells wait, and the cue holds them too. */
    set("verse");
    /* The tally is the host's: from here on it counts the takes. */
    memset(tally, 0, sizeof tally);
    if (play_take(first) != 0) return 1;
    return_to("verse");
    if (play_take(second) != 0) return 1;
    printf("answers: %s\n", memcmp(first, second, sizeof first) == 0 ? "the same" : "others");

    /* Four cues at most; a held name is replaced where it stands, a dropped one makes room. */
    set("bridge");
    set("chorus");
    set("outro");
    set("finale");
    set("chorus");
    drop("bridge");
    set("finale");
    return_to("bridge");
    return_to("Verse");
    return_to("verse");
    /* A store that was kept elsewhere is looked at before it is used again. */
    printf("check: %" PRIu32 "\n", cue_check(store, sizeof store));
    return 0;
}
