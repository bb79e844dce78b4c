/* How long the soundness test takes, on programs of 512 words, beside a plain loop over the same words that tests the same, and beside
 * the library of another state where one is linked under the name before_sound. bench/sound builds and runs it.
 */
#include <stdio.h>
#include <stdlib.h>
#include <time.h>

#include "tokenmarsh.h"

#ifdef BEFORE
uint32_t before_sound(const uint64_t *program, size_t program_len);
#endif

enum { WORDS = 512, ROUNDS = 51, TURNS = 2000, SIDES = 3 };

static uint64_t word(uint64_t kind, uint64_t first, uint64_t second) { return kind | first << 8 | second << 24; }

/* Whether one word is proper: its fields, and what Req 08 asks of them. */
static int proper(uint64_t w)
{
    uint64_t a = w >> 8 & 0xFFFF, b = w >> 24;
    switch (w & 0xFF) {
    case 0:
        return a <= 255 && b == 0;
    case 1:
    case 2:
        return b <= 255 && (a & ~b) == 0;
    case 3:
        return a != 0 && b == 0;
    case 4:
        return b <= 0xFFFF && a <= b;
    case 5:
        return a == 0 && b == 0;
    case 6:
        return b == 0;
    case 7:
        return a != 0 && a <= 255 && b == 0;
    default:
        return 0;
    }
}

/* The yardstick: one loop, with the ends of the alternation and of the branch that it is in. */
__attribute__((noinline)) static uint32_t plain_sound(const uint64_t *program, size_t n)
{
    size_t alternation = 0, branch = 0;
    if (n > WORDS)
        return 0;
    for (size_t i = 0; i < n; i++) {
        uint64_t w = program[i], kind = w & 0xFF;
        if (!proper(w))
            return 0;
        if (i < branch) {
            if (kind == 4 || kind > 5)
                return 0;
        } else if (i < alternation) {
            branch = i + 1 + (w >> 8);
            if (kind != 7 || branch > alternation)
                return 0;
        } else if (kind == 6) {
            alternation = i + 1 + (w >> 8);
            if (w >> 8 == 0 || alternation > n)
                return 0;
        } else if (kind == 7) {
            return 0;
        }
    }
    return 1;
}

static uint64_t random_below(uint64_t n)
{
    static uint64_t state = 1;
    state = state * 6364136223846793005u + 1442695040888963407u;
    return (state >> 33) % n;
}

/* A byte, a masked byte or one of these negated. */
static uint64_t one(void)
{
    uint64_t b = random_below(256);
    switch (random_below(4)) {
    case 0:
        return word(1, b & 0xF0, 0xF0);
    case 1:
        return word(2, b & 0x0F, 0x0F);
    default:
        return word(0, b, 0);
    }
}

static void bytes(uint64_t *program)
{
    for (size_t i = 0; i < WORDS; i++)
        program[i] = one();
}

static void jumps(uint64_t *program)
{
    for (size_t i = 0; i < WORDS; i++)
        program[i] = word(3, 1 + random_below(65535), 0);
}

/* Alternations of branches of one, two and three nodes, and bytes to the end. */
static void alternations(uint64_t *program)
{
    size_t at = 0;
    while (at + 10 <= WORDS) {
        program[at++] = word(6, 9, 0);
        for (uint64_t n = 1; n <= 3; n++) {
            program[at++] = word(7, n, 0);
            for (uint64_t i = 0; i < n; i++)
                program[at++] = i == 2 ? word(3, 5, 0) : one();
        }
    }
    while (at < WORDS)
        program[at++] = one();
}

static double now(void)
{
    struct timespec t;
    clock_gettime(CLOCK_THREAD_CPUTIME_ID, &t);
    return 1e9 * (double)t.tv_sec + (double)t.tv_nsec;
}

typedef uint32_t test(const uint64_t *, size_t);

/* Nanoseconds for one call. */
static double timed(test *sound, const uint64_t *program)
{
    double from = now();
    for (int i = 0; i < TURNS; i++) {
        if (sound(program, WORDS) != 1) {
            fprintf(stderr, "not sound\n");
            exit(1);
        }
        /* So that no call is left out. */
        __asm__ volatile("" ::: "memory");
    }
    return (now() - from) / TURNS;
}

static int less(const void *a, const void *b)
{
    double x = *(const double *)a, y = *(const double *)b;
    return (x > y) - (x < y);
}

static double median(double *values)
{
    qsort(values, ROUNDS, sizeof *values, less);
    return values[ROUNDS / 2];
}

/* Rounds of all sides in turn, the first changing, so that a disturbance meets all. */
static void measure(const char *name, void (*fill)(uint64_t *))
{
    static test *const sides[SIDES] = {
        tm_sound,
        plain_sound,
#ifdef BEFORE
        before_sound,
#endif
    };
    static double times[SIDES][ROUNDS], ratios[SIDES][ROUNDS];
    static uint64_t program[WORDS];
    fill(program);
    for (int round = 0; round < ROUNDS; round++) {
        for (int i = 0; i < SIDES; i++) {
            int side = (round + i) % SIDES;
            if (sides[side])
                times[side][round] = timed(sides[side], program);
        }
        for (int side = 1; side < SIDES; side++)
            ratios[side][round] = times[0][round] / times[side][round];
    }
    printf("| %s | %.2f | %.2f |", name, median(times[0]) / WORDS, median(ratios[1]));
    if (sides[2]) {
        double middle = median(ratios[2]), least = times[0][0], before;
        qsort(times[2], ROUNDS, sizeof *times[2], less);
        before = times[2][0];
        printf(" %.2f | %.2f to %.2f | %.2f |", middle, ratios[2][0], ratios[2][ROUNDS - 1], least / before);
    }
    printf("\n");
}

int main(void)
{
    printf("The soundness test of %d words: median of %d rounds of %d calls, all sides in turn\n\n", WORDS, ROUNDS, TURNS);
#ifdef BEFORE
    printf("| program | ns for a word | to a plain loop | to the state before | lowest to highest | of the best |\n|---|---|---|---|---|---|\n");
#else
    printf("| program | ns for a word | to a plain loop |\n|---|---|---|\n");
#endif
    measure("bytes, masks and negated ones", bytes);
    measure("jumps", jumps);
    measure("alternations of three branches", alternations);
    return 0;
}
