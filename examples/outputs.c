/* A laptop model of the outputs: plays a short show and prints what each desk gets in which slot. With the crossbar of
   examples/host.c in its place the same cells depart.

     cc -Iinclude examples/outputs.c target/staticlib/liboq.a -o target/outputs && target/outputs

   Three stage boxes play to desks 0 and 1. In slot 1 box 2 asks for something that the switch turns back, and the host
   mends it. */
#include <inttypes.h>
#include <stdio.h>

#include "oq.h"

/* The show: each arrival with its slot, and within a slot the inputs rising. */
static const struct {
    uint32_t slot, input, output, flow, rank, tag;
} show[] = {
    {0, 0, 0, 0, 9, 1}, /* box 0 can wait, */
    {0, 1, 0, 0, 1, 2}, /* box 1 goes first, */
    {0, 2, 0, 0, 2, 3}, /* box 2 next. */
    {1, 0, 1, 0, 5, 4}, /* Box 0 plays to the other desk; */
    {1, 2, 0, 0, 1, 5}, /* box 2 lets its rank fall below that of tag 3, which still waits in the same flow. */
    {2, 1, 1, 0, 5, 6}, /* Equal ranks at desk 1: */
    {2, 2, 1, 0, 5, 7}, /* 2 mod 3 is 2, so box 2 goes before box 1. */
};

static const char *const words[] = {
    [OQ_BROKEN_TABLE] = "broken table", [OQ_CLOCK_END] = "clock end",
    [OQ_NO_SUCH_PORT] = "no such port", [OQ_NO_SUCH_FLOW] = "no such flow",
    [OQ_INPUT_ORDER] = "out of turn",   [OQ_RANK_ORDER] = "falling rank",
    [OQ_FULL] = "full",                 [OQ_SHORT_BUFFER] = "short tray",
    [OQ_BAD_WEIGHT] = "bad weight",     [OQ_RANK_END] = "rank end",
};

#define SHOW_LENGTH (sizeof show / sizeof *show)
#define SLOTS 5
#define DESKS 2

/* All numbers are little-endian, whatever the machine. */
static void put32(uint8_t *bytes, uint32_t n) {
    for (int i = 0; i < 4; i++) bytes[i] = (uint8_t)(n >> (8 * i));
}

static uint32_t get32(const uint8_t *bytes) {
    uint32_t n = 0;
    for (int i = 3; i >= 0; i--) n = n << 8 | bytes[i];
    return n;
}

static uint64_t get64(const uint8_t *bytes) { return (uint64_t)get32(bytes + 4) << 32 | get32(bytes); }

/* Writes the records of a slot's arrivals and returns how many bytes they are. */
static size_t write_arrivals(uint32_t number, uint8_t *arrivals) {
    uint8_t *at = arrivals;
    for (size_t k = 0; k < SHOW_LENGTH; k++) {
        if (show[k].slot != number) continue;
        put32(at, show[k].input);
        put32(at + 4, show[k].output);
        put32(at + 8, show[k].flow);
        put32(at + 12, show[k].rank);
        put32(at + 16, show[k].tag);
        at += OQ_ARRIVAL_BYTES;
    }
    return (size_t)(at - arrivals);
}

/* Mends a record that was refused, its place counted from 1: a cell whose rank falls goes into the next flow. Returns 0
   where that cannot help. */
static int mend(uint8_t *arrivals, uint32_t refusal, uint64_t place) {
    if (refusal != OQ_RANK_ORDER) return 0;
    uint8_t *flow = arrivals + (place - 1) * OQ_ARRIVAL_BYTES + 8;
    put32(flow, get32(flow) + 1);
    return 1;
}

static uint8_t table[OQ_TABLE_BYTES], tally[OQ_TALLY_BYTES];

/* What the desks get: a departure for each slot and output. */
static uint8_t answers[SLOTS][OQ_ANSWER_BYTES];

/* Plays a slot of the show and mends its arrivals where it is refused. Returns 0 if it ran. */
static int play(uint32_t number) {
    /* Inputs rise, so no slot has more than one record for each port. */
    uint8_t arrivals[OQ_PORTS * OQ_ARRIVAL_BYTES];
    size_t bytes = write_arrivals(number, arrivals);
    uint64_t result;
    while ((result = oq_slot(table, sizeof table, arrivals, bytes, answers[number], OQ_ANSWER_BYTES, tally,
                             sizeof tally)) != 0) {
        uint32_t refusal = OQ_REFUSAL(result);
        uint64_t place = OQ_PLACE(result);
        printf("slot %" PRIu32 ": refused with %" PRIu32 ", %s, at record %" PRIu64 "\n", number, refusal,
               words[refusal], place);
        /* A refused slot left the switch as it was, so the host may call again. */
        if (!mend(arrivals, refusal, place)) return 1;
    }
    return 0;
}

static void print_desk(uint32_t desk) {
    printf("desk %" PRIu32 ":", desk);
    for (uint32_t number = 0; number < SLOTS; number++) {
        const uint8_t *d = answers[number] + OQ_DEPARTURE_AT(desk);
        if (get32(d) == 0)
            printf(" slot %" PRIu32 " nothing;", number);
        else
            printf(" slot %" PRIu32 " tag %" PRIu32 " of box %" PRIu32 ";", number, get32(d + 20), get32(d + 4));
    }
    printf("\n");
}

int main(void) {
    /* No output is fair: each rank stands as it is sent. */
    if (oq_start(3, 0, 0, table, sizeof table) != 0) return 1;
    for (uint32_t number = 0; number < SLOTS; number++)
        if (play(number) != 0) return 1;
    for (uint32_t desk = 0; desk < DESKS; desk++) print_desk(desk);
    printf("tally: %" PRIu64 " slots run, %" PRIu64 " refused, %" PRIu64 " cells in, %" PRIu64 " out\n", get64(tally),
           get64(tally + 8), get64(tally + 16), get64(tally + 24));
    /* A table that was kept elsewhere is looked at before it is used again. */
    printf("check: %" PRIu32 "\n", oq_check(table, sizeof table));
    return 0;
}
