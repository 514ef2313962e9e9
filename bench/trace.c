/* How fast the proved reader goes through a whole valid trace, beside a reader written here for speed, in one run. The two are
   first compared on damaged texts. A time is processor time, the best of many rounds in which both read the text, which is in
   memory, one after the other. Prints a line a figure, its fields parted by tabs. */
#include <stdbool.h>
#include <stdint.h>
#include <stdio.h>
#include <stdlib.h>
#include <string.h>
#include <time.h>

#define TEXT_BYTES ((size_t)1 << 20)
#define ROUNDS 500
#define SHORT_TEXT_BYTES ((size_t)6000)
#define DAMAGED_TEXTS 20000

/* What a text is worth that is not valid; the others are worth their number of slots. */
#define NOT_VALID ((uint64_t)1 << 32)

typedef uint64_t reader(const uint8_t *text, size_t bytes);

/* The proved one. */
reader crossbar_trace_slots;

/* Whether a text begins with this key. A key has its `=`. */
static inline bool begins(const uint8_t *at, const uint8_t *end, const char *key, size_t length) {
    return (size_t)(end - at) >= length && memcmp(at, key, length) == 0;
}

/* The text behind a number and its line feed; null if there is none. */
static const uint8_t *read_number(const uint8_t *at, const uint8_t *end, uint32_t *number) {
    if (at == end || (unsigned)(*at - '0') > 9) return NULL;
    uint64_t n = *at++ - '0';
    for (bool zero = n == 0; at != end; at++) {
        unsigned digit = (unsigned)(*at - '0');
        if (digit > 9) {
            *number = (uint32_t)n;
            return *at == '\n' ? at + 1 : NULL;
        }
        n = 10 * n + digit;
        if (zero || n > UINT32_MAX) return NULL;
    }
    return NULL;
}

#define BEGINS(key) begins(at, end, key, sizeof key - 1)
#define LINE(key, number) (BEGINS(key) && (at = read_number(at + sizeof key - 1, end, number)) != NULL)

/* The plain one. */
static uint64_t plain_slots(const uint8_t *at, size_t bytes) {
    const uint8_t *end = at + bytes;
    uint32_t ports, first, number;
    if (!LINE("ports=", &ports) || ports < 1 || ports > 16 || !LINE("first=", &first)) return NOT_VALID;
    for (uint64_t clock = first;; clock++) {
        if (BEGINS("end=")) return LINE("end=", &number) && number == clock && at == end ? clock - first : NOT_VALID;
        if (!LINE("slot=", &number) || number != clock) return NOT_VALID;
        for (int k = 0; k < 16 && BEGINS("in="); k++) {
            uint32_t cell[5];
            if (!LINE("in=", cell) || !LINE("out=", cell + 1) || !LINE("flow=", cell + 2) || !LINE("rank=", cell + 3) ||
                !LINE("tag=", cell + 4))
                return NOT_VALID;
        }
    }
}

static uint32_t random_below(uint32_t n) {
    static uint64_t x = 88172645463325252;
    x ^= x << 13;
    x ^= x >> 7;
    x ^= x << 17;
    return (uint32_t)((x >> 11) % n);
}

/* Makes a valid text with so many arrivals a slot, rank and tag below a bound; a block has less than 2,048 bytes. */
static size_t make(uint8_t *text, size_t most, int arrivals, uint32_t bound) {
    size_t at = (size_t)sprintf((char *)text, "ports=16\nfirst=0\n");
    uint32_t clock = 0;
    for (; at + 2048 < most; clock++) {
        at += (size_t)sprintf((char *)text + at, "slot=%u\n", clock);
        for (int i = 0; i < arrivals; i++)
            at += (size_t)sprintf((char *)text + at, "in=%d\nout=%u\nflow=%u\nrank=%u\ntag=%u\n", i, random_below(16),
                                  random_below(8), random_below(bound), random_below(bound));
    }
    return at + (size_t)sprintf((char *)text + at, "end=%u\n", clock);
}

static void expect_same(const uint8_t *text, size_t bytes) {
    if (crossbar_trace_slots(text, bytes) != plain_slots(text, bytes)) {
        printf("FAILED: the readers part\n");
        exit(1);
    }
}

/* Compares the two on short texts in which a byte was changed, left out or put twice, or whose end is lost. */
static void compare_damaged(void) {
    static uint8_t text[SHORT_TEXT_BYTES + 1];
    static const char bytes_of_lines[] = "0123456789=\ninoutflowranktagslotend ";
    for (int k = 0; k < DAMAGED_TEXTS; k++) {
        size_t bytes = make(text, SHORT_TEXT_BYTES, k % 18, k % 2 ? 3 : UINT32_MAX), at = random_below((uint32_t)bytes);
        expect_same(text, bytes);
        switch (random_below(4)) {
        case 0: text[at] = (uint8_t)bytes_of_lines[random_below(sizeof bytes_of_lines - 1)]; break;
        case 1: memmove(text + at, text + at + 1, --bytes - at); break;
        case 2: memmove(text + at + 1, text + at, bytes++ - at); break;
        case 3: bytes = at; break;
        }
        expect_same(text, bytes);
    }
}

static double processor_seconds(void) {
    struct timespec t;
    clock_gettime(CLOCK_PROCESS_CPUTIME_ID, &t);
    return (double)t.tv_sec + 1e-9 * (double)t.tv_nsec;
}

/* Reads a text once more and keeps the least time. */
static void improve(double *best, reader *read, const uint8_t *text, size_t bytes) {
    double from = processor_seconds();
    if (read(text, bytes) == NOT_VALID) {
        printf("FAILED: a valid text is not accepted\n");
        exit(1);
    }
    double took = processor_seconds() - from;
    if (took < *best) *best = took;
}

/* A text to be timed: its arrivals a slot, the bound of their ranks and tags, and the best times so far. */
struct timed {
    int arrivals;
    uint32_t bound;
    uint8_t *text;
    size_t bytes;
    double proved, plain;
};

static double megabytes_a_second(const struct timed *t, double seconds) { return 1e-6 * (double)t->bytes / seconds; }

int main(void) {
    struct timed texts[] = {{.bound = 1}, {1, .bound = 100000}, {16, .bound = 100}, {16, .bound = UINT32_MAX}};
    const struct timed *end = texts + sizeof texts / sizeof *texts;
    for (struct timed *t = texts; t != end; t++) {
        t->text = malloc(TEXT_BYTES);
        t->bytes = make(t->text, TEXT_BYTES, t->arrivals, t->bound);
        t->proved = t->plain = 1e9;
    }
    compare_damaged();
    /* round by round, so that a slow spell of the machine spoils no line */
    for (int k = 0; k < ROUNDS; k++)
        for (struct timed *t = texts; t != end; t++) {
            improve(&t->proved, crossbar_trace_slots, t->text, t->bytes);
            improve(&t->plain, plain_slots, t->text, t->bytes);
        }
    printf("# The trace reader, megabytes a second and the ratio of the times, best of %d.\n", ROUNDS);
    printf("# A text has so many arrivals a slot, their rank and tag below a bound.\n#\tarrived\tproved\tplain C\tratio\tbound\n");
    for (const struct timed *t = texts; t != end; t++)
        printf("reader\t%d\t%.0f\t%.0f\t%.2f\t%u\n", t->arrivals, megabytes_a_second(t, t->proved),
               megabytes_a_second(t, t->plain), t->proved / t->plain, t->bound);
    return 0;
}
