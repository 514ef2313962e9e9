/* A host of the crossbar: starts a switch, runs a short show on it and prints what departs and how crowded it was.

     cc -Iinclude examples/host.c target/staticlib/libcrossbar.a -o target/host && target/host

   Three stage boxes play to desk 0, and give each cell its rank. In slot 1 box 2 asks for something that the switch turns
   back. From slot 2 on boxes 0 and 1 play to desk 1, which is fair: they send weights, and the switch makes the ranks. */
#include <inttypes.h>
#include <stdio.h>
#include <string.h>

#include "crossbar.h"

/* The show: each arrival with its slot, and within a slot the inputs rising. */
static const struct {
    uint32_t slot, input, output, flow, rank, tag;
} show[] = {
    {0, 0, 0, 0, 9, 1},  /* box 0 can wait, */
    {0, 1, 0, 0, 1, 2},  /* box 1 goes first, */
    {0, 2, 0, 0, 2, 3},  /* box 2 next. */
    {1, 0, 0, 1, 0, 4},  /* Box 0 has something urgent, in a flow of its own; */
    {1, 2, 0, 0, 1, 5},  /* box 2 lets its rank fall below that of tag 3, which still waits in the same flow. */
    {2, 0, 1, 0, 2, 6},  /* At desk 1 box 0 has twice the weight */
    {2, 1, 1, 0, 1, 7},  /* of box 1; */
    {2, 2, 1, 0, 0, 8},  /* box 2 sends no weight. */
    {3, 0, 1, 0, 2, 9},  /* As long as both have cells waiting, */
    {3, 1, 1, 0, 1, 10}, /* box 0 gets two slots of three. */
    {4, 0, 1, 0, 2, 11},
    {5, 0, 1, 0, 2, 12},
};

static const char *const words[] = {
    [CROSSBAR_BROKEN_TABLE] = "broken table", [CROSSBAR_CLOCK_END] = "clock end",
    [CROSSBAR_NO_SUCH_PORT] = "no such port", [CROSSBAR_NO_SUCH_FLOW] = "no such flow",
    [CROSSBAR_INPUT_ORDER] = "out of turn",   [CROSSBAR_RANK_ORDER] = "falling rank",
    [CROSSBAR_FULL] = "full",                 [CROSSBAR_SHORT_BUFFER] = "short tray",
    [CROSSBAR_BAD_WEIGHT] = "bad weight",     [CROSSBAR_RANK_END] = "rank end",
};

#define SHOW_LENGTH (sizeof show / sizeof *show)
#define SLOTS 8

/* All numbers are little-endian, whatever the machine. */
static void put32(uint8_t *bytes, uint32_t n) {
    for (int i = 0; i < 4; i++) bytes[i] = (uint8_t)(n >> (8 * i));
}

static uint32_t get32(const uint8_t *bytes) {
    uint32_t n = 0;
    for (int i = 3; i >= 0; i--) n = n << 8 | bytes[i];
    return n;
}

static uint64_t get64(const uint8_t *bytes) { return (uint64_t)get32(bytes + 4) << 32 | get32(bytes); }

/* Writes the records of a slot's arrivals and returns how many bytes they are. */
static size_t write_arrivals(uint32_t number, uint8_t *arrivals) {
    uint8_t *at = arrivals;
    for (size_t k = 0; k < SHOW_LENGTH; k++) {
        if (show[k].slot != number) continue;
        put32(at, show[k].input);
        put32(at + 4, show[k].output);
        put32(at + 8, show[k].flow);
        put32(at + 12, show[k].rank);
        put32(at + 16, show[k].tag);
        at += CROSSBAR_ARRIVAL_BYTES;
    }
    return (size_t)(at - arrivals);
}

/* Takes one record out of the arrivals, its place counted from 1. */
static size_t leave_out(uint8_t *arrivals, size_t bytes, uint64_t place) {
    size_t end = (size_t)place * CROSSBAR_ARRIVAL_BYTES;
    memmove(arrivals + end - CROSSBAR_ARRIVAL_BYTES, arrivals + end, bytes - end);
    return bytes - CROSSBAR_ARRIVAL_BYTES;
}

static void print_answer(uint32_t number, const uint8_t *answer) {
    printf("slot %" PRIu32 ":", number);
    for (uint32_t output = 0; output < CROSSBAR_PORTS; output++) {
        const uint8_t *d = answer + CROSSBAR_DEPARTURE_AT(output);
        if (get32(d) == 0) continue; /* this output sends none, and its crosspoints were empty */
        uint32_t input = get32(d + 4), rank = get32(d + 16), tag = get32(d + 20);
        uint32_t first = get32(answer + CROSSBAR_OCCUPANCY_AT(0, output));
        uint32_t second = get32(answer + CROSSBAR_OCCUPANCY_AT(1, output));
        printf(" output %" PRIu32 " sends tag %" PRIu32 " of input %" PRIu32 ", rank %" PRIu32 ", ", output, tag, input,
               rank);
        printf("occupancies %" PRIu32 " and %" PRIu32 ";", first, second);
    }
    uint32_t first = get32(answer + CROSSBAR_PROPOSALS_AT(0)), second = get32(answer + CROSSBAR_PROPOSALS_AT(1));
    printf(" proposals %" PRIu32 " and %" PRIu32 "\n", first, second);
}

static void print_tally(const uint8_t *tally) {
    printf("tally: %" PRIu64 " slots run, %" PRIu64 " refused, %" PRIu64 " cells in, %" PRIu64 " out\n", get64(tally),
           get64(tally + 8), get64(tally + 16), get64(tally + 24));
}

int main(void) {
    /* Inputs rise, so no slot has more than one record for each port. */
    static uint8_t table[CROSSBAR_TABLE_BYTES], arrivals[CROSSBAR_PORTS * CROSSBAR_ARRIVAL_BYTES];
    static uint8_t answer[CROSSBAR_ANSWER_BYTES], tally[CROSSBAR_TALLY_BYTES];

    if (start(3, 0, CROSSBAR_FAIR(1), table, sizeof table) != 0) return 1;
    for (uint32_t number = 0; number < SLOTS; number++) {
        size_t bytes = write_arrivals(number, arrivals);
        uint64_t result;
        while ((result = slot(table, sizeof table, arrivals, bytes, answer, sizeof answer, tally, sizeof tally)) != 0) {
            uint32_t refusal = CROSSBAR_REFUSAL(result);
            uint64_t place = CROSSBAR_PLACE(result);
            printf("slot %" PRIu32 ": refused with %" PRIu32 ", %s, at record %" PRIu64 "\n", number, refusal,
                   words[refusal], place);
            /* A refused slot left the switch as it was. Where a record is at fault, go on without it. */
            if (place == 0) return 1;
            bytes = leave_out(arrivals, bytes, place);
        }
        print_answer(number, answer);
    }
    print_tally(tally);
    /* A table that was kept elsewhere is looked at before it is used again. */
    printf("check: %" PRIu32 "\n", check(table, sizeof table));
    return 0;
}
