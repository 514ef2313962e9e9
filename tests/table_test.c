/* Tests start, check and convert through the static library, against the check of a table in tables.h; and all four calls
   with null for no bytes. Prints one line and ends with 0 if all agree. */
#include "tables.h"

static void test_start(void) {
    static const uint32_t firsts[] = {0, 1, 255, 256, 65535, 16777216, 4294967294u, 4294967295u};
    static const size_t sizes[] = {0, 7, CROSSBAR_TABLE_BYTES - 1, CROSSBAR_TABLE_BYTES, CROSSBAR_TABLE_BYTES + 64};
    static uint8_t buffer[CROSSBAR_TABLE_BYTES + 64], old[CROSSBAR_TABLE_BYTES + 64];
    for (uint32_t ports = 0; ports <= 17; ports++)
        for (int k = 0; k < MARKS; k++)
            for (size_t s = 0; s < sizeof sizes / sizeof *sizes; s++) {
                uint32_t first = firsts[pick(sizeof firsts / sizeof *firsts)], fair = marks_at(k);
                for (size_t i = 0; i < sizeof buffer; i++) buffer[i] = old[i] = (uint8_t)pick(256);
                uint32_t r = start(ports, first, fair, buffer, sizes[s]);
                expect(r == start_refusal(ports, fair, sizes[s]), "start's result", (long)ports);
                if (r == 0) fresh(old, 2, ports, first, fair);
                expect(memcmp(buffer, old, sizeof buffer) == 0, "start's buffer", (long)ports);
            }
}

static void same(const uint8_t *t, size_t n, const char *what, long where) {
    uint32_t r = check(t, n);
    if (r != (sound(t, n) ? 0u : 2u)) fail(what, where);
    cases++;
}

static void test_check(void) {
    static uint8_t table[CROSSBAR_TABLE_BYTES + 1];
    static const uint32_t sizes[][2] = {{1, 64}, {2, 5}, {5, 17}, {16, 64}};
    for (size_t s = 0; s < sizeof sizes / sizeof *sizes; s++) {
        fill(table, sizes[s][0], sizes[s][1]);
        if (!sound(table, CROSSBAR_TABLE_BYTES)) fail("a table made here is not sound", (long)s);
        for (size_t n = 0; n <= sizeof table; n += n < 40 || n > sizeof table - 1100 ? 1 : 1009)
            same(table, n, "length", (long)n);
        /* Every byte changed to several values, one at a time; of the ranks remembered, which are any, to one. */
        for (size_t i = 0; i < CROSSBAR_TABLE_BYTES; i++) {
            uint8_t kept = table[i];
            uint8_t values[] = {(uint8_t)(kept + 1), (uint8_t)(kept - 1), 0, 1, 3, 16, 64, 255};
            for (size_t v = 0; v < (i < MEMORY_AT + 4 ? sizeof values : 1); v++) {
                table[i] = values[v];
                same(table, CROSSBAR_TABLE_BYTES, "one byte changed", (long)i);
            }
            table[i] = kept;
        }
        for (int k = 0; k < 20000; k++) {
            static uint8_t copy[CROSSBAR_TABLE_BYTES];
            memcpy(copy, table, sizeof copy);
            change_entries(copy, sizes[s][0]);
            same(copy, CROSSBAR_TABLE_BYTES, "two entries", k);
        }
    }
}

/* Older tables, sound and with a byte changed: they are written in the new layout, no output fair, or refused, as the
   check says; every other call refuses them. */
static void test_convert(void) {
    static uint8_t old[CROSSBAR_OLD_TABLE_BYTES + 1], want[CROSSBAR_TABLE_BYTES], new[CROSSBAR_TABLE_BYTES];
    static uint8_t answer[CROSSBAR_ANSWER_BYTES], tally[CROSSBAR_TALLY_BYTES];
    static const uint32_t sizes[][2] = {{1, 64}, {2, 5}, {5, 17}, {16, 64}};
    for (size_t s = 0; s < sizeof sizes / sizeof *sizes; s++) {
        fill_cells(old, sizes[s][0], sizes[s][1]);
        for (size_t i = 0; i < CROSSBAR_OLD_TABLE_BYTES; i += i < 64 ? 1 : 13) {
            uint8_t kept = old[i];
            if (i > 0) old[i] = (uint8_t)(kept + 1 + pick(255));
            memset(want, 0, sizeof want);
            put32(want, 2);
            memcpy(want + 4, old, CROSSBAR_OLD_TABLE_BYTES);
            int is_sound = sound_cells(old, CROSSBAR_OLD_TABLE_BYTES);
            test_converter(convert, sizeof want, old, CROSSBAR_OLD_TABLE_BYTES, is_sound ? want : NULL, (long)i);
            old[i] = kept;
        }
        for (size_t n = 0; n <= sizeof old; n += n < 40 || n > sizeof old - 40 ? 1 : 1009)
            if (n != CROSSBAR_OLD_TABLE_BYTES) test_converter(convert, sizeof want, old, n, NULL, (long)n);
        fill(new, sizes[s][0], sizes[s][1]);
        test_converter(convert, sizeof want, new, sizeof new, NULL, 0);
        same(old, CROSSBAR_OLD_TABLE_BYTES, "an older table", (long)s);
        uint64_t r = slot(old, CROSSBAR_OLD_TABLE_BYTES, NULL, 0, answer, sizeof answer, tally, sizeof tally);
        expect(r == CROSSBAR_BROKEN_TABLE, "a slot of an older table", (long)s);
    }
}

/* A pointer to no bytes may be null: the call answers as it does for any other pointer to no bytes. */
static void test_null(void) {
    static uint8_t table[CROSSBAR_TABLE_BYTES], other[CROSSBAR_TABLE_BYTES], arrival[CROSSBAR_ARRIVAL_BYTES];
    static uint8_t answer[CROSSBAR_ANSWER_BYTES], same_answer[CROSSBAR_ANSWER_BYTES], none[1];
    static uint8_t tally[CROSSBAR_TALLY_BYTES], same_tally[CROSSBAR_TALLY_BYTES];
    expect(start(2, 0, 0, NULL, 0) == CROSSBAR_SHORT_BUFFER, "start in null", 0);
    expect(start(0, 0, 1, NULL, 0) == CROSSBAR_BAD_SIZE, "start of no ports in null", 0);
    expect(start(2, 0, CROSSBAR_FAIR(2), NULL, 0) == CROSSBAR_NO_SUCH_PORT, "start with a mark at a third port", 0);
    expect(check(NULL, 0) == CROSSBAR_BROKEN_TABLE, "check of null", 0);
    expect(convert(NULL, 0, NULL, 0) == CROSSBAR_BROKEN_TABLE, "convert of null", 0);
    expect(convert(NULL, 0, table, sizeof table) == CROSSBAR_BROKEN_TABLE, "convert of null into a table", 0);
    expect(start(2, 7, 0, table, sizeof table) == 0, "start", 0);
    expect(convert(table + 4, CROSSBAR_OLD_TABLE_BYTES, NULL, 0) == CROSSBAR_SHORT_BUFFER, "convert into null", 0);
    put32(arrival + 12, 5);
    expect(slot(table, sizeof table, arrival, sizeof arrival, answer, sizeof answer, tally, sizeof tally) == 0, "slot", 0);
    for (int i = 0; i < 3; i++) {
        memcpy(other, table, sizeof table);
        memcpy(same_answer, answer, sizeof answer);
        memcpy(same_tally, tally, sizeof tally);
        expect(slot(table, sizeof table, NULL, 0, answer, sizeof answer, tally, sizeof tally) == 0, "an empty slot", i);
        expect(slot(other, sizeof other, none, 0, same_answer, sizeof answer, same_tally, sizeof tally) == 0, "its like", i);
        expect(memcmp(table, other, sizeof table) == 0, "the table of an empty slot", i);
        expect(memcmp(answer, same_answer, sizeof answer) == 0, "the answer of an empty slot", i);
        expect(memcmp(tally, same_tally, sizeof tally) == 0, "the tally of an empty slot", i);
    }
    memcpy(other, table, sizeof table);
    expect(slot(NULL, 0, NULL, 0, answer, sizeof answer, tally, sizeof tally) == CROSSBAR_BROKEN_TABLE, "no table", 0);
    expect(slot(table, sizeof table, NULL, 0, NULL, 0, tally, sizeof tally) == CROSSBAR_SHORT_BUFFER, "no answer", 0);
    expect(slot(table, sizeof table, NULL, 0, answer, sizeof answer, NULL, 0) == CROSSBAR_BROKEN_TABLE, "no tally", 0);
    expect(slot(NULL, 0, NULL, 0, NULL, 0, NULL, 0) == CROSSBAR_BROKEN_TABLE, "nothing", 0);
    expect(get32(tally) == 4 && get32(tally + 8) == 2, "slots run and refused", 0);
    expect(memcmp(table, other, sizeof table) == 0, "the table of refused slots", 0);
}

int main(void) {
    test_start();
    test_check();
    test_convert();
    test_null();
    printf("start, check, convert and null: %lu cases agree\n", cases);
    return 0;
}
