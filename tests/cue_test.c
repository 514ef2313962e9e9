/* Tests the calls of cues through the static library: the check of a store against one that is written here from
   docs/LAYOUT.md alone, random settings, drops and returns against four places kept here, the converter of older stores,
   and every call with null for no bytes. Prints one line and ends with 0 if all agree. */
#include "tables.h"

#define PLACES CROSSBAR_CUES
#define PLACE_BYTES (CROSSBAR_NAME_BYTES + CROSSBAR_TABLE_BYTES)
#define OLD_PLACE_BYTES (CROSSBAR_NAME_BYTES + CROSSBAR_OLD_TABLE_BYTES)

static uint8_t *place_at(uint8_t *store, uint32_t k) { return store + 16 + PLACE_BYTES * k; }

static int zeros(const uint8_t *bytes, size_t n) {
    for (size_t i = 0; i < n; i++)
        if (bytes[i] != 0) return 0;
    return 1;
}

static int letters(const uint8_t *bytes, size_t n) {
    for (size_t i = 0; i < n; i++)
        if (bytes[i] < 'a' || bytes[i] > 'z') return 0;
    return 1;
}

/* Whether eight bytes are letters, at least one, then zeros. */
static int padded_name(const uint8_t *name) {
    for (size_t n = 1; n <= CROSSBAR_NAME_BYTES; n++)
        if (letters(name, n) && zeros(name + n, CROSSBAR_NAME_BYTES - n)) return 1;
    return 0;
}

/* The independent check of a store with this number, whose tables have so many bytes and this check. */
static int sound_places(const uint8_t *store, uint32_t number, size_t table_bytes,
                        int (*sound_table)(const uint8_t *, size_t)) {
    size_t place_bytes = CROSSBAR_NAME_BYTES + table_bytes;
    if (get32(store) != number || !zeros(store + 4, 12)) return 0;
    for (uint32_t k = 0; k < PLACES; k++) {
        const uint8_t *place = store + 16 + place_bytes * k;
        if (zeros(place, place_bytes)) continue;
        if (!padded_name(place) || !sound_table(place + CROSSBAR_NAME_BYTES, table_bytes)) return 0;
        for (uint32_t j = 0; j < k; j++)
            if (memcmp(store + 16 + place_bytes * j, place, CROSSBAR_NAME_BYTES) == 0) return 0;
    }
    return 1;
}

static int sound_store(const uint8_t *store, size_t n) {
    return n == CROSSBAR_STORE_BYTES && sound_places(store, 2, CROSSBAR_TABLE_BYTES, sound);
}

static int sound_old_store(const uint8_t *store, size_t n) {
    return n == CROSSBAR_OLD_STORE_BYTES && sound_places(store, 1, CROSSBAR_OLD_TABLE_BYTES, sound_cells);
}

static void same_store(uint8_t *store, size_t n, const char *what, long where) {
    expect(cue_check(store, n) == (sound_store(store, n) ? 0u : 2u), what, where);
}

static void test_start(void) {
    static const size_t sizes[] = {0, 7, CROSSBAR_STORE_BYTES - 1, CROSSBAR_STORE_BYTES, CROSSBAR_STORE_BYTES + 64};
    static uint8_t buffer[CROSSBAR_STORE_BYTES + 64], old[CROSSBAR_STORE_BYTES + 64];
    for (size_t s = 0; s < sizeof sizes / sizeof *sizes; s++) {
        for (size_t i = 0; i < sizeof buffer; i++) buffer[i] = old[i] = (uint8_t)pick(256);
        uint32_t result = cue_start(buffer, sizes[s]);
        expect(result == (sizes[s] < CROSSBAR_STORE_BYTES ? 10u : 0u), "start's result", (long)s);
        if (result == 0) {
            memset(old, 0, CROSSBAR_STORE_BYTES);
            old[0] = 2;
        }
        expect(memcmp(buffer, old, sizeof buffer) == 0, "start's buffer", (long)s);
    }
}

static void put_cue(uint8_t *store, uint32_t k, const char *name, uint32_t ports, uint32_t most) {
    memcpy(place_at(store, k), name, strlen(name));
    fill(place_at(store, k) + CROSSBAR_NAME_BYTES, ports, most);
}

/* Stores with one, three and four cues: every length near its own, and every byte changed. */
static void test_check(void) {
    static const uint8_t held[] = {1, 11, 15}; /* a bit for each place */
    static const char *const names[] = {"a", "prologue", "zz", "prologus"};
    static uint8_t store[CROSSBAR_STORE_BYTES + 1];
    for (size_t s = 0; s < sizeof held; s++) {
        memset(store, 0, sizeof store);
        store[0] = 2;
        for (uint32_t k = 0; k < PLACES; k++)
            if (held[s] >> k & 1) put_cue(store, k, names[k], 1 + 5 * k, 3);
        if (!sound_store(store, CROSSBAR_STORE_BYTES)) fail("a store made here is not sound", (long)s);
        for (size_t n = 0; n <= sizeof store; n += n < 40 || n > sizeof store - 1100 ? 1 : 1009)
            same_store(store, n, "length", (long)n);
        for (size_t i = 0; i < CROSSBAR_STORE_BYTES; i++) {
            uint8_t kept = store[i], other = (uint8_t)(kept + 1 + pick(255));
            store[i] = other;
            same_store(store, CROSSBAR_STORE_BYTES, "one byte changed", (long)i);
            store[i] = kept;
        }
        /* The bytes of two names made alike, or exchanged. */
        for (int n = 0; n < 1000; n++) {
            static uint8_t copy[CROSSBAR_STORE_BYTES];
            memcpy(copy, store, sizeof copy);
            uint8_t *a = place_at(copy, pick(PLACES)), *b = place_at(copy, pick(PLACES)), name[CROSSBAR_NAME_BYTES];
            size_t from = pick(CROSSBAR_NAME_BYTES), size = 1 + pick((uint32_t)(CROSSBAR_NAME_BYTES - from));
            memcpy(name, a, sizeof name);
            memcpy(a + from, b + from, size);
            if (pick(2)) memcpy(b + from, name + from, size);
            same_store(copy, sizeof copy, "two names", n);
        }
    }
}

/* An older store in the new layout, each table with its number before it and without marks and ranks behind it. */
static void convert_here(const uint8_t *old, uint8_t *store) {
    memset(store, 0, CROSSBAR_STORE_BYTES);
    store[0] = 2;
    for (uint32_t k = 0; k < PLACES; k++) {
        const uint8_t *from = old + 16 + OLD_PLACE_BYTES * k;
        uint8_t *place = place_at(store, k);
        if (zeros(from, OLD_PLACE_BYTES)) continue;
        memcpy(place, from, CROSSBAR_NAME_BYTES);
        put32(place + CROSSBAR_NAME_BYTES, 2);
        memcpy(place + CROSSBAR_NAME_BYTES + 4, from + CROSSBAR_NAME_BYTES, CROSSBAR_OLD_TABLE_BYTES);
    }
}

/* Older stores with none to four cues, sound and with bytes changed: they are written in the new layout, or refused, as
   the check says; every other call refuses them. */
static void test_convert(void) {
    static const uint8_t held[] = {0, 1, 11, 15}; /* a bit for each place */
    static const char *const names[] = {"a", "prologue", "zz", "prologus"};
    static uint8_t old[CROSSBAR_OLD_STORE_BYTES + 1], want[CROSSBAR_STORE_BYTES], table[CROSSBAR_TABLE_BYTES];
    fill(table, 3, 9);
    for (size_t s = 0; s < sizeof held; s++) {
        memset(old, 0, sizeof old);
        old[0] = 1;
        for (uint32_t k = 0; k < PLACES; k++) {
            if (!(held[s] >> k & 1)) continue;
            memcpy(old + 16 + OLD_PLACE_BYTES * k, names[k], strlen(names[k]));
            fill_cells(old + 16 + OLD_PLACE_BYTES * k + CROSSBAR_NAME_BYTES, 1 + 5 * k, 3);
        }
        expect(sound_old_store(old, CROSSBAR_OLD_STORE_BYTES), "a store made here is not sound", (long)s);
        for (size_t i = 0; i < CROSSBAR_OLD_STORE_BYTES; i++) {
            /* the header, the names, the first bytes of each table, and some of the others */
            if (i >= 16 && (i - 16) % OLD_PLACE_BYTES >= 64 && i % 61 != 0) continue;
            uint8_t kept = old[i];
            if (i > 0) old[i] = (uint8_t)(pick(3) ? kept + 1 + pick(255) : 'a' + pick(26));
            int is_sound = sound_old_store(old, CROSSBAR_OLD_STORE_BYTES);
            convert_here(old, want);
            test_converter(convert_cues, sizeof want, old, CROSSBAR_OLD_STORE_BYTES, is_sound ? want : NULL, (long)i);
            old[i] = kept;
        }
        for (size_t n = 0; n <= sizeof old; n += n < 40 || n > sizeof old - 40 ? 1 : 10007)
            if (n != CROSSBAR_OLD_STORE_BYTES) test_converter(convert_cues, sizeof want, old, n, NULL, (long)n);
        convert_here(old, want);
        test_converter(convert_cues, sizeof want, want, sizeof want, NULL, 0);
        const uint8_t *name = (const uint8_t *)"a";
        size_t size = CROSSBAR_OLD_STORE_BYTES;
        expect(cue_check(old, size) == CROSSBAR_BROKEN_TABLE, "an older store", (long)s);
        expect(cue_set(table, sizeof table, old, size, name, 1) == CROSSBAR_BROKEN_TABLE, "set in it", (long)s);
        expect(cue_drop(old, size, name, 1) == CROSSBAR_BROKEN_TABLE, "drop in it", (long)s);
        expect(cue_return(table, sizeof table, old, size, name, 1) == CROSSBAR_BROKEN_TABLE, "return in it", (long)s);
    }
}

/* Random settings, drops and returns on a store, and on four places kept here in the bytes that a store is to have. */
static void test_calls(void) {
    static const char *const names[] = {"a", "b", "verse", "verses", "interval", "intervae", "", "Verse", "interlude"};
    static uint8_t store[CROSSBAR_STORE_BYTES], want[CROSSBAR_STORE_BYTES];
    static uint8_t table[CROSSBAR_TABLE_BYTES], want_table[CROSSBAR_TABLE_BYTES];
    uint32_t met[14] = {0};
    expect(cue_start(store, sizeof store) == 0 && cue_start(want, sizeof want) == 0, "start", 0);
    fill(table, 4, 8);
    for (int n = 0; n < 5000; n++) {
        const char *name = names[pick(sizeof names / sizeof *names)];
        size_t size = strlen(name);
        const uint8_t *lent = (const uint8_t *)name;
        uint8_t padded[CROSSBAR_NAME_BYTES] = {0}, *held = NULL, *empty = NULL;
        if (size <= sizeof padded) memcpy(padded, name, size);
        for (uint32_t k = PLACES; k-- > 0;) {
            uint8_t *place = place_at(want, k);
            if (place[0] == 0)
                empty = place;
            else if (memcmp(place, padded, sizeof padded) == 0)
                held = place;
        }
        uint32_t bad = padded_name(padded) && size <= sizeof padded ? 0 : 11, result, expected;
        if (pick(3) == 0) fill(table, 1 + pick(16), pick(8));
        memcpy(want_table, table, sizeof table);
        switch (pick(4)) {
        case 0:
            result = cue_drop(store, sizeof store, lent, size);
            expected = bad ? bad : held ? 0 : 13;
            if (expected == 0) memset(held, 0, PLACE_BYTES);
            break;
        case 1:
            result = cue_return(table, sizeof table, store, sizeof store, lent, size);
            expected = bad ? bad : held ? 0 : 13;
            if (expected == 0) memcpy(want_table, held + CROSSBAR_NAME_BYTES, sizeof table);
            break;
        default:
            result = cue_set(table, sizeof table, store, sizeof store, lent, size);
            if (!held) held = empty;
            expected = bad ? bad : held ? 0 : 12;
            if (expected == 0) {
                memcpy(held, padded, sizeof padded);
                memcpy(held + CROSSBAR_NAME_BYTES, table, sizeof table);
            }
        }
        expect(result == expected, "the result of a call", n);
        expect(memcmp(store, want, sizeof store) == 0, "the store after a call", n);
        expect(memcmp(table, want_table, sizeof table) == 0, "the table after a call", n);
        met[result]++;
    }
    expect(met[0] && met[11] && met[12] && met[13], "some result never came", 0);
}

/* A pointer to no bytes may be null: the call answers as it does for any other pointer to no bytes. */
static void test_null(void) {
    static uint8_t table[CROSSBAR_TABLE_BYTES], store[CROSSBAR_STORE_BYTES], old[CROSSBAR_STORE_BYTES];
    const uint8_t *name = (const uint8_t *)"verse";
    expect(cue_start(NULL, 0) == CROSSBAR_SHORT_BUFFER, "start in null", 0);
    expect(cue_check(NULL, 0) == CROSSBAR_BROKEN_TABLE, "check of null", 0);
    expect(start(2, 7, 1, table, sizeof table) == 0 && cue_start(store, sizeof store) == 0, "start", 0);
    expect(convert_cues(NULL, 0, NULL, 0) == CROSSBAR_BROKEN_TABLE, "convert of null", 0);
    expect(cue_set(table, sizeof table, store, sizeof store, name, 5) == 0, "set", 0);
    memcpy(old, store, sizeof store);
    expect(cue_set(table, sizeof table, store, sizeof store, NULL, 0) == CROSSBAR_BAD_NAME, "set of no name", 0);
    expect(cue_drop(store, sizeof store, NULL, 0) == CROSSBAR_BAD_NAME, "drop of no name", 0);
    expect(cue_return(table, sizeof table, store, sizeof store, NULL, 0) == CROSSBAR_BAD_NAME, "return to no name", 0);
    expect(cue_set(NULL, 0, store, sizeof store, name, 5) == CROSSBAR_BROKEN_TABLE, "set of no table", 0);
    expect(cue_set(table, sizeof table, NULL, 0, name, 5) == CROSSBAR_BROKEN_TABLE, "set in no store", 0);
    expect(cue_drop(NULL, 0, name, 5) == CROSSBAR_BROKEN_TABLE, "drop in no store", 0);
    expect(cue_return(NULL, 0, store, sizeof store, name, 5) == CROSSBAR_BROKEN_TABLE, "return of no table", 0);
    expect(cue_return(table, sizeof table, NULL, 0, name, 5) == CROSSBAR_BROKEN_TABLE, "return in no store", 0);
    expect(cue_set(NULL, 0, NULL, 0, NULL, 0) == CROSSBAR_BROKEN_TABLE, "set of nothing", 0);
    expect(cue_drop(NULL, 0, NULL, 0) == CROSSBAR_BROKEN_TABLE, "drop of nothing", 0);
    expect(cue_return(NULL, 0, NULL, 0, NULL, 0) == CROSSBAR_BROKEN_TABLE, "return of nothing", 0);
    expect(memcmp(store, old, sizeof store) == 0, "the store of refused calls", 0);
    expect(check(table, sizeof table) == 0 && get32(table + 12) == 7, "the table of refused calls", 0);
}

int main(void) {
    test_start();
    test_check();
    test_calls();
    test_convert();
    test_null();
    printf("cues: %lu cases agree\n", cases);
    return 0;
}
