/* What the tests in C share: tables to try, a check of a table that is written from docs/LAYOUT.md and docs/SCOPE.md
   alone, and how a case is counted. */
#include <stdio.h>
#include <stdlib.h>
#include <string.h>

#include "crossbar.h"

static uint64_t seed = 88172645463325252u;

static inline uint32_t pick(uint32_t below) {
    seed ^= seed << 13;
    seed ^= seed >> 7;
    seed ^= seed << 17;
    return (uint32_t)(seed % below);
}

static inline uint32_t get32(const uint8_t *p) {
    return (uint32_t)p[0] | (uint32_t)p[1] << 8 | (uint32_t)p[2] << 16 | (uint32_t)p[3] << 24;
}

static inline void put32(uint8_t *p, uint32_t n) {
    for (int i = 0; i < 4; i++) p[i] = (uint8_t)(n >> (8 * i));
}

/* Where the memory of a table begins: the marks, then the ranks that left, then those given. */
#define MEMORY_AT (4 + CROSSBAR_OLD_TABLE_BYTES)

/* A record of an older table. */
static inline uint8_t *record_at(uint8_t *t, int input, int at) { return t + 32 + 1024 * input + 16 * at; }

/* Whether a leaves its output before b, both records of one input. */
static inline int before(const uint8_t *a, const uint8_t *b) {
    if (get32(a + 4) != get32(b + 4)) return get32(a + 4) < get32(b + 4);
    return get32(a + 12) < get32(b + 12);
}

/* The independent check of an older table, which is also that of a table's cells: every pair of entries is compared,
   nothing is kept. */
static inline int sound_cells(const uint8_t *t, size_t n) {
    if (n != CROSSBAR_OLD_TABLE_BYTES) return 0;
    uint32_t ports = get32(t + 4), clock = get32(t + 8);
    if (get32(t) != 1 || ports < 1 || ports > 16 || get32(t + 12) != 0) return 0;
    for (uint32_t input = 0; input < 16; input++) {
        const uint8_t *section = t + 32 + 1024 * input;
        uint32_t count = t[16 + input];
        if (count > 64 || (input >= ports && count != 0)) return 0;
        for (uint32_t i = 16 * count; i < 1024; i++)
            if (section[i] != 0) return 0;
        for (uint32_t i = 0; i < count; i++) {
            const uint8_t *a = section + 16 * i;
            if (a[0] >= ports || a[1] > 7 || a[2] < 1 || a[2] > 3 || a[3] != 0 || get32(a + 12) >= clock) return 0;
            for (uint32_t j = i + 1; j < count; j++) {
                const uint8_t *b = section + 16 * j;
                if (get32(a + 12) == get32(b + 12)) return 0;
                if (a[2] == 2 && b[2] == 2 && a[0] == b[0]) return 0;
                if (a[2] != 1 || b[2] != 1 || a[0] != b[0] || a[1] != b[1]) continue;
                /* Two cells of a flow in the list: in output priority, and nothing of another flow between. */
                if (!before(a, b)) return 0;
                for (uint32_t k = i + 1; k < j; k++) {
                    const uint8_t *c = section + 16 * k;
                    if (c[2] == 1 && (c[0] != a[0] || c[1] != a[1])) return 0;
                }
            }
        }
    }
    return 1;
}

/* The independent check of a table with this number: the cells, and marks only below the number of ports. */
static inline int sound_numbered(const uint8_t *t, size_t n, uint32_t number) {
    return n == CROSSBAR_TABLE_BYTES && get32(t) == number && sound_cells(t + 4, CROSSBAR_OLD_TABLE_BYTES) &&
           get32(t + MEMORY_AT) >> get32(t + 8) == 0;
}

static inline int sound(const uint8_t *t, size_t n) { return sound_numbered(t, n, 2); }

/* A sound older table with so many cells an input at most, the bytes past it untouched. */
static inline void fill_cells(uint8_t *t, uint32_t ports, uint32_t most) {
    memset(t, 0, CROSSBAR_OLD_TABLE_BYTES);
    put32(t, 1);
    put32(t + 4, ports);
    put32(t + 8, 100000 + pick(1000));
    for (uint32_t input = 0; input < ports; input++) {
        uint32_t crossed[16] = {0}, used[16][8] = {{0}}, slot = pick(500), count = 0;
        while (count < most) {
            uint32_t place = 1 + pick(3), output = pick(ports), flow = pick(8), run = 1;
            if (place == 2 && crossed[output]) continue;
            if (place == 2) crossed[output] = 1;
            if (place == 1) {
                if (used[output][flow]) {
                    if (count + 1 == most) break;
                    place = 3;
                } else {
                    used[output][flow] = 1;
                    run = 1 + pick(4);
                }
            }
            uint32_t rank = pick(1000000);
            for (uint32_t i = 0; i < run && count < most; i++) {
                uint8_t *r = record_at(t, (int)input, (int)count++);
                slot += 1 + pick(100);
                r[0] = (uint8_t)output;
                r[1] = (uint8_t)flow;
                r[2] = (uint8_t)place;
                put32(r + 4, rank);
                put32(r + 8, pick(1u << 31));
                put32(r + 12, slot);
                rank += pick(3);
            }
        }
        t[16 + input] = (uint8_t)count;
    }
}

/* A table with this number, these cells, and any marks and ranks. */
static inline void fill_memory(uint8_t *t, uint32_t number, uint32_t ports) {
    put32(t, number);
    put32(t + MEMORY_AT, pick(1u << ports));
    for (size_t i = MEMORY_AT + 4; i < CROSSBAR_TABLE_BYTES; i++) t[i] = (uint8_t)(pick(4) ? 0 : pick(256));
}

/* A sound table with so many cells an input at most, the bytes past it untouched. */
static inline void fill(uint8_t *t, uint32_t ports, uint32_t most) {
    fill_cells(t + 4, ports, most);
    fill_memory(t, 2, ports);
}

/* Two entries of an input of a table made alike in one field or exchanged. */
static inline void change_entries(uint8_t *t, uint32_t ports) {
    static const int fields[][2] = {{0, 1}, {1, 1}, {2, 1}, {4, 4}, {12, 4}, {0, 16}, {0, 2}};
    uint32_t input = pick(ports), count = t[20 + input];
    if (count == 0) return;
    uint8_t *a = record_at(t + 4, (int)input, (int)pick(count)), *b = record_at(t + 4, (int)input, (int)pick(count));
    const int *f = fields[pick(7)];
    uint8_t held[16];
    memcpy(held, a, 16);
    memcpy(a + f[0], b + f[0], (size_t)f[1]);
    if (pick(2)) memcpy(b + f[0], held + f[0], (size_t)f[1]);
}

static unsigned long cases;

static inline void fail(const char *what, long where) {
    printf("FAILED: %s (%ld)\n", what, where);
    exit(1);
}

static inline void expect(int held, const char *what, long where) {
    if (!held) fail(what, where);
    cases++;
}

/* Marks to try: each bit alone, none, and several. */
#define MARKS 38
static inline uint32_t marks_at(int k) {
    static const uint32_t several[MARKS - 32] = {0, 3, 0x7fff, 0xffff, 0x10001, 0xffffffff};
    return k < 32 ? 1u << k : several[k - 32];
}

/* What a start of this size, with these marks and into so many bytes, has to say, of a switch whose tables have so many. */
static inline uint32_t start_refusal(uint32_t ports, uint32_t fair, size_t bytes) {
    if (ports < 1 || ports > 16) return 1;
    return fair >> ports != 0 ? 4 : bytes < CROSSBAR_TABLE_BYTES ? 10 : 0;
}

/* The table of a fresh switch. */
static inline void fresh(uint8_t *t, uint32_t number, uint32_t ports, uint32_t first, uint32_t fair) {
    memset(t, 0, CROSSBAR_TABLE_BYTES);
    put32(t, number);
    put32(t + 4, 1);
    put32(t + 8, ports);
    put32(t + 12, first);
    put32(t + MEMORY_AT, fair);
}

/* A converter, and the size of what it writes. It writes want, refuses a short buffer with 10, and keeps all else; where
   want is null, old is refused with 2 whatever the room. */
static inline void test_converter(uint32_t (*converter)(const uint8_t *, size_t, uint8_t *, size_t), size_t size,
                                  const uint8_t *old, size_t old_bytes, const uint8_t *want, long where) {
    static uint8_t buffer[CROSSBAR_STORE_BYTES + 64], kept[CROSSBAR_STORE_BYTES + 64];
    const size_t rooms[] = {size, size - 1, size + 64, 0};
    memset(kept, 7, sizeof kept);
    for (size_t k = 0; k < sizeof rooms / sizeof *rooms; k++) {
        memset(buffer, 7, sizeof buffer);
        uint32_t result = converter(old, old_bytes, buffer, rooms[k]);
        expect(result == (want == NULL ? 2 : rooms[k] < size ? 10u : 0u), "the result of a converter", where);
        int written = result == 0;
        expect(memcmp(buffer, written ? want : kept, written ? size : sizeof buffer) == 0, "what it writes", where);
        expect(memcmp(buffer + size, kept, sizeof buffer - size) == 0, "the bytes behind", where);
    }
}
