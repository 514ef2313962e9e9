/* Tests oq_start, oq_check and oq_convert through the static library, against a check of a table that is written here;
   and all four calls with null for no bytes. Prints one line and ends with 0 if all agree. */
#include "tables.h"

#include "oq.h"

/* Whether every cell is in a buffer, in a table or an older one. */
static int buffered(const uint8_t *t) {
    for (int input = 0; input < 16; input++)
        for (int at = 0; at < t[20 + input]; at++)
            if (t[36 + 1024 * input + 16 * at + 2] != 3) return 0;
    return 1;
}

/* The independent checks: the number, sound cells behind it, and every cell in a buffer. */
static int sound_oq(const uint8_t *t, size_t n) { return sound_numbered(t, n, 102) && buffered(t); }

static int sound_old(const uint8_t *t, size_t n) {
    return n == OQ_OLD_TABLE_BYTES && get32(t) == 101 && sound_cells(t + 4, n - 4) && buffered(t);
}

/* A sound older table with so many cells an input at most. */
static void fill_old(uint8_t *t, uint32_t ports, uint32_t most) {
    put32(t, 101);
    fill_cells(t + 4, ports, most);
    for (uint32_t input = 0; input < ports; input++)
        for (int at = 0; at < t[20 + input]; at++) record_at(t + 4, (int)input, at)[2] = 3;
}

/* A sound table with so many cells an input at most, and any marks and ranks. */
static void fill_oq(uint8_t *t, uint32_t ports, uint32_t most) {
    fill_old(t, ports, most);
    fill_memory(t, 102, ports);
}

static void test_start(void) {
    static const uint32_t firsts[] = {0, 1, 255, 256, 65535, 16777216, 4294967294u, 4294967295u};
    static const size_t sizes[] = {0, 7, OQ_OLD_TABLE_BYTES, OQ_TABLE_BYTES - 1, OQ_TABLE_BYTES, OQ_TABLE_BYTES + 64};
    static uint8_t buffer[OQ_TABLE_BYTES + 64], old[OQ_TABLE_BYTES + 64];
    for (uint32_t ports = 0; ports <= 17; ports++)
        for (int k = 0; k < MARKS; k++)
            for (size_t s = 0; s < sizeof sizes / sizeof *sizes; s++) {
                uint32_t first = firsts[pick(sizeof firsts / sizeof *firsts)], fair = marks_at(k);
                for (size_t i = 0; i < sizeof buffer; i++) buffer[i] = old[i] = (uint8_t)pick(256);
                uint32_t r = oq_start(ports, first, fair, buffer, sizes[s]);
                expect(r == start_refusal(ports, fair, sizes[s]), "the result of oq_start", (long)ports);
                if (r == 0) fresh(old, 102, ports, first, fair);
                expect(memcmp(buffer, old, sizeof buffer) == 0, "the buffer of oq_start", (long)ports);
            }
}

static void same(const uint8_t *t, size_t n, const char *what, long where) {
    expect(oq_check(t, n) == (sound_oq(t, n) ? 0u : 2u), what, where);
}

static void test_check(void) {
    static uint8_t table[OQ_TABLE_BYTES + 1], copy[OQ_TABLE_BYTES];
    static const uint32_t sizes[][2] = {{1, 64}, {2, 5}, {5, 17}, {16, 64}};
    for (size_t s = 0; s < sizeof sizes / sizeof *sizes; s++) {
        fill_oq(table, sizes[s][0], sizes[s][1]);
        expect(sound_oq(table, OQ_TABLE_BYTES), "a table made here is not sound", (long)s);
        for (size_t n = 0; n <= sizeof table; n += n < 40 || n > sizeof table - 1100 ? 1 : 1009)
            same(table, n, "length", (long)n);
        /* Every byte changed to several values, one at a time; of the ranks remembered, which are any, to one. */
        for (size_t i = 0; i < OQ_TABLE_BYTES; i++) {
            uint8_t kept = table[i];
            uint8_t values[] = {(uint8_t)(kept + 1), (uint8_t)(kept - 1), 0, 1, 2, 16, 64, 255};
            for (size_t v = 0; v < (i < MEMORY_AT + 4 ? sizeof values : 1); v++) {
                table[i] = values[v];
                same(table, OQ_TABLE_BYTES, "one byte changed", (long)i);
            }
            table[i] = kept;
        }
        for (int k = 0; k < 20000; k++) {
            memcpy(copy, table, sizeof copy);
            change_entries(copy, sizes[s][0]);
            same(copy, OQ_TABLE_BYTES, "two entries", k);
        }
        /* The crossbar's tables, with their number and with this switch's. */
        for (int k = 0; k < 200; k++) {
            fill(copy, sizes[s][0], pick(1 + sizes[s][1]));
            expect(oq_check(copy, CROSSBAR_TABLE_BYTES) == OQ_BROKEN_TABLE, "a table of the crossbar", k);
            put32(copy, 102);
            same(copy, OQ_TABLE_BYTES, "a table of the crossbar with another number", k);
        }
    }
}

/* Older tables, sound and with a byte changed: they are written in the new layout, no output fair, or refused, as the
   check says; every other call refuses them. */
static void test_convert(void) {
    static uint8_t old[OQ_OLD_TABLE_BYTES + 1], want[OQ_TABLE_BYTES], new[OQ_TABLE_BYTES];
    static uint8_t answer[OQ_ANSWER_BYTES], tally[OQ_TALLY_BYTES];
    static const uint32_t sizes[][2] = {{1, 64}, {2, 5}, {5, 17}, {16, 64}};
    for (size_t s = 0; s < sizeof sizes / sizeof *sizes; s++) {
        fill_old(old, sizes[s][0], sizes[s][1]);
        for (size_t i = 0; i < OQ_OLD_TABLE_BYTES; i += i < 64 ? 1 : 13) {
            uint8_t kept = old[i];
            if (i > 0) old[i] = (uint8_t)(kept + 1 + pick(255));
            memset(want, 0, sizeof want);
            memcpy(want, old, OQ_OLD_TABLE_BYTES);
            put32(want, 102);
            int is_sound = sound_old(old, OQ_OLD_TABLE_BYTES);
            test_converter(oq_convert, sizeof want, old, OQ_OLD_TABLE_BYTES, is_sound ? want : NULL, (long)i);
            old[i] = kept;
        }
        for (size_t n = 0; n <= sizeof old; n += n < 40 || n > sizeof old - 40 ? 1 : 1009)
            if (n != OQ_OLD_TABLE_BYTES) test_converter(oq_convert, sizeof want, old, n, NULL, (long)n);
        fill_oq(new, sizes[s][0], sizes[s][1]);
        test_converter(oq_convert, sizeof want, new, sizeof new, NULL, 0);
        same(old, OQ_OLD_TABLE_BYTES, "an older table", (long)s);
        uint64_t r = oq_slot(old, OQ_OLD_TABLE_BYTES, NULL, 0, answer, sizeof answer, tally, sizeof tally);
        expect(r == OQ_BROKEN_TABLE, "a slot of an older table", (long)s);
        /* The crossbar's older tables, and those with this switch's older number before them. */
        for (int k = 0; k < 100; k++) {
            put32(old, 101);
            fill_cells(old + 4, sizes[s][0], pick(1 + sizes[s][1]));
            test_converter(oq_convert, sizeof want, old + 4, CROSSBAR_OLD_TABLE_BYTES, NULL, k);
            memset(want, 0, sizeof want);
            memcpy(want, old, OQ_OLD_TABLE_BYTES);
            put32(want, 102);
            int is_sound = sound_old(old, OQ_OLD_TABLE_BYTES);
            test_converter(oq_convert, sizeof want, old, OQ_OLD_TABLE_BYTES, is_sound ? want : NULL, k);
        }
    }
}

/* A pointer to no bytes may be null: the call answers as it does for any other pointer to no bytes. */
static void test_null(void) {
    static uint8_t table[OQ_TABLE_BYTES], other[OQ_TABLE_BYTES], arrival[OQ_ARRIVAL_BYTES], none[1];
    static uint8_t answer[OQ_ANSWER_BYTES], same_answer[OQ_ANSWER_BYTES];
    static uint8_t tally[OQ_TALLY_BYTES], same_tally[OQ_TALLY_BYTES];
    uint64_t ran;
    expect(oq_start(2, 0, 0, NULL, 0) == OQ_SHORT_BUFFER, "start in null", 0);
    expect(oq_start(0, 0, 1, NULL, 0) == OQ_BAD_SIZE, "start of no ports in null", 0);
    expect(oq_start(2, 0, OQ_FAIR(2), NULL, 0) == OQ_NO_SUCH_PORT, "start with a mark at a third port", 0);
    expect(oq_check(NULL, 0) == OQ_BROKEN_TABLE, "check of null", 0);
    expect(oq_convert(NULL, 0, NULL, 0) == OQ_BROKEN_TABLE, "convert of null", 0);
    fill_old(other, 2, 3);
    expect(oq_convert(other, OQ_OLD_TABLE_BYTES, NULL, 0) == OQ_SHORT_BUFFER, "convert into null", 0);
    expect(oq_start(2, 7, 0, table, sizeof table) == 0, "start", 0);
    put32(arrival + 12, 5);
    ran = oq_slot(table, sizeof table, arrival, sizeof arrival, answer, sizeof answer, tally, sizeof tally);
    expect(ran == 0, "slot", 0);
    for (int i = 0; i < 3; i++) {
        memcpy(other, table, sizeof table);
        memcpy(same_answer, answer, sizeof answer);
        memcpy(same_tally, tally, sizeof tally);
        ran = oq_slot(table, sizeof table, NULL, 0, answer, sizeof answer, tally, sizeof tally);
        expect(ran == 0, "an empty slot", i);
        ran = oq_slot(other, sizeof other, none, 0, same_answer, sizeof answer, same_tally, sizeof tally);
        expect(ran == 0, "its like", i);
        expect(memcmp(table, other, sizeof table) == 0, "the table of an empty slot", i);
        expect(memcmp(answer, same_answer, sizeof answer) == 0, "the answer of an empty slot", i);
        expect(memcmp(tally, same_tally, sizeof tally) == 0, "the tally of an empty slot", i);
    }
    memcpy(other, table, sizeof table);
    expect(oq_slot(NULL, 0, NULL, 0, answer, sizeof answer, tally, sizeof tally) == OQ_BROKEN_TABLE, "no table", 0);
    expect(oq_slot(table, sizeof table, NULL, 0, NULL, 0, tally, sizeof tally) == OQ_SHORT_BUFFER, "no answer", 0);
    expect(oq_slot(table, sizeof table, NULL, 0, answer, sizeof answer, NULL, 0) == OQ_BROKEN_TABLE, "no tally", 0);
    expect(oq_slot(NULL, 0, NULL, 0, NULL, 0, NULL, 0) == OQ_BROKEN_TABLE, "nothing", 0);
    expect(get32(tally) == 4 && get32(tally + 8) == 2, "slots run and refused", 0);
    expect(memcmp(table, other, sizeof table) == 0, "the table of refused slots", 0);
}

int main(void) {
    test_start();
    test_check();
    test_convert();
    test_null();
    printf("oq_start, oq_check, oq_convert and null: %lu cases agree\n", cases);
    return 0;
}
