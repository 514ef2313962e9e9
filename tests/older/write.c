/* Writes the files of this folder, tables and cue stores of both switches in the layouts of version 2.3.0. It needs the
   headers and the static libraries of that version: write FOLDER. */
#include <stdio.h>
#include <stdlib.h>
#include <string.h>

#include "crossbar.h"
#include "oq.h"

static const char *folder;

static uint64_t seed = 88172645463325252u;

static uint32_t pick(uint32_t below) {
    seed ^= seed << 13;
    seed ^= seed >> 7;
    seed ^= seed << 17;
    return (uint32_t)(seed % below);
}

static uint32_t get32(const uint8_t *p) {
    return (uint32_t)p[0] | (uint32_t)p[1] << 8 | (uint32_t)p[2] << 16 | (uint32_t)p[3] << 24;
}

static void put32(uint8_t *p, uint32_t n) {
    for (int i = 0; i < 4; i++) p[i] = (uint8_t)(n >> (8 * i));
}

static void expect(int held, const char *what) {
    if (held) return;
    fprintf(stderr, "FAILED: %s\n", what);
    exit(1);
}

/* Bytes as text: how many, then each row of sixteen that is not all zero, where it begins and its bytes. */
static void write_file(const char *name, const uint8_t *bytes, size_t size) {
    static const uint8_t zeros[16];
    char path[256];
    snprintf(path, sizeof path, "%s/%s.txt", folder, name);
    FILE *file = fopen(path, "w");
    expect(file != NULL, path);
    fprintf(file, "%zu\n", size);
    for (size_t at = 0; at < size; at += 16) {
        size_t row = size - at < 16 ? size - at : 16;
        if (memcmp(bytes + at, zeros, row) == 0) continue;
        fprintf(file, "%zu ", at);
        for (size_t i = 0; i < row; i++) fprintf(file, "%02x", bytes[at + i]);
        fprintf(file, "\n");
    }
    expect(fclose(file) == 0, path);
}

/* Either switch: where the table of its cells begins, and its slot. */
struct engine {
    size_t table_bytes, at;
    uint64_t (*slot)(uint8_t *, size_t, const uint8_t *, size_t, uint8_t *, size_t, uint8_t *, size_t);
};

static const struct engine crossbar = {CROSSBAR_TABLE_BYTES, 0, slot};
static const struct engine oq = {OQ_TABLE_BYTES, 4, oq_slot};

static uint8_t answer[CROSSBAR_ANSWER_BYTES], tally[CROSSBAR_TALLY_BYTES];

/* One slot, in which each input with room sends a cell to a random one of so many outputs. Ranks rise with the clock, so
   that no flow's fall. */
static void run(const struct engine *e, uint8_t *table, uint32_t outputs, int loaded) {
    uint8_t arrivals[16 * CROSSBAR_ARRIVAL_BYTES];
    size_t size = 0;
    const uint8_t *core = table + e->at;
    uint32_t ports = get32(core + 4), clock = get32(core + 8);
    for (uint32_t input = 0; loaded && input < ports; input++) {
        if (core[16 + input] == CROSSBAR_CELLS) continue;
        uint8_t *a = arrivals + size;
        put32(a, input);
        put32(a + 4, pick(outputs));
        put32(a + 8, pick(8));
        put32(a + 12, 4 * clock + pick(4));
        put32(a + 16, pick(1000));
        size += CROSSBAR_ARRIVAL_BYTES;
    }
    expect(e->slot(table, e->table_bytes, arrivals, size, answer, sizeof answer, tally, sizeof tally) == 0, "a slot");
}

/* How many cells are in each place: 1 in lists, 2 at crosspoints, 3 in buffers. */
static void count(const uint8_t *core, uint32_t counts[4]) {
    memset(counts, 0, 4 * sizeof *counts);
    for (uint32_t input = 0; input < 16; input++)
        for (uint32_t k = 0; k < core[16 + input]; k++) counts[core[32 + 1024 * input + 16 * k + 2]]++;
}

/* A switch of four ports with cells in every place that it has. */
static void four_ports(const struct engine *e, uint8_t *table) {
    for (int slots = 0;; slots++) {
        uint32_t c[4];
        count(table + e->at, c);
        if (slots > 8 && c[3] && (e == &oq || (c[1] && c[2]))) return;
        run(e, table, 3, 1);
    }
}

/* As many cells as slots can leave: in each slot one leaves. It is put back, in its output's buffer, so that every input
   has 64; no slots lead there, but it is sound. */
static void sixteen_ports(const struct engine *e, uint8_t *table) {
    uint8_t *core = table + e->at;
    uint32_t c[4];
    do {
        run(e, table, 1, 1);
        count(core, c);
    } while (c[1] + c[2] + c[3] < 1023);
    uint32_t input = get32(answer + 4);
    uint8_t *record = core + 32 + 1024 * input + 16 * core[16 + input]++;
    record[0] = answer[8];
    record[1] = answer[12];
    record[2] = 3;
    memcpy(record + 4, answer + 16, 12);
}

static void tables(void) {
    static uint8_t table[CROSSBAR_TABLE_BYTES];
    expect(start(1, 0, table, sizeof table) == 0, "start");
    write_file("table-fresh-1", table, sizeof table);
    expect(start(16, 4294967295u, table, sizeof table) == 0, "start");
    write_file("table-fresh-16", table, sizeof table);
    expect(start(4, 70, table, sizeof table) == 0, "start");
    four_ports(&crossbar, table);
    write_file("table-cells", table, sizeof table);
    for (int i = 0; i < 3; i++) run(&crossbar, table, 1, 0);
    write_file("table-cells-later", table, sizeof table);
    expect(start(16, 0, table, sizeof table) == 0, "start");
    sixteen_ports(&crossbar, table);
    expect(check(table, sizeof table) == 0, "the full table");
    write_file("table-full", table, sizeof table);
}

static void stores(void) {
    static const char *const names[] = {"intro", "prologue", "a", "z"};
    static uint8_t table[CROSSBAR_TABLE_BYTES], store[CROSSBAR_STORE_BYTES];
    expect(cue_start(store, sizeof store) == 0, "cue_start");
    write_file("store-none", store, sizeof store);
    for (uint32_t k = 0; k < CROSSBAR_CUES; k++) {
        expect(start(k == 3 ? 16 : 1 + k, 100 * k, table, sizeof table) == 0, "start");
        for (int i = 0; i < 9; i++) run(&crossbar, table, 1, k > 0);
        const uint8_t *name = (const uint8_t *)names[k];
        expect(cue_set(table, sizeof table, store, sizeof store, name, strlen(names[k])) == 0, "cue_set");
        if (k == 0) write_file("store-one", store, sizeof store);
    }
    write_file("store-four", store, sizeof store);
    expect(cue_drop(store, sizeof store, (const uint8_t *)"prologue", 8) == 0, "cue_drop");
    expect(cue_check(store, sizeof store) == 0, "cue_check");
    write_file("store-dropped", store, sizeof store);
}

static void oq_tables(void) {
    static uint8_t table[OQ_TABLE_BYTES];
    expect(oq_start(3, 5, table, sizeof table) == 0, "oq_start");
    write_file("oq-fresh", table, sizeof table);
    expect(oq_start(4, 70, table, sizeof table) == 0, "oq_start");
    four_ports(&oq, table);
    write_file("oq-cells", table, sizeof table);
    for (int i = 0; i < 3; i++) run(&oq, table, 1, 0);
    write_file("oq-cells-later", table, sizeof table);
    expect(oq_start(16, 0, table, sizeof table) == 0, "oq_start");
    sixteen_ports(&oq, table);
    expect(oq_check(table, sizeof table) == 0, "the full table");
    write_file("oq-full", table, sizeof table);
}

int main(int count, char **words) {
    expect(count == 2, "usage: write FOLDER");
    folder = words[1];
    tables();
    stores();
    oq_tables();
    return 0;
}
