/* How long picking literals takes: the slowest families known, and a search for slower texts.
 *
 *     make && cc -O2 -Iinclude bench/literals.c target/staticlib/libtokenmarsh.a -o target/literals
 *     target/literals                the families
 *     target/literals SEED ROUNDS    a search: among random pieces repeated to the limits; then, from the slowest, pieces are put in,
 *                                    taken out, repeated and changed, and what is slower is kept
 */
#include <stdio.h>
#include <stdlib.h>
#include <string.h>
#include <time.h>

#include "tokenmarsh.h"

static uint8_t bytes[TM_LITERAL_BYTES];
static uint16_t lengths[TM_LITERALS];

static double now(void)
{
    struct timespec t;
    clock_gettime(CLOCK_THREAD_CPUTIME_ID, &t);
    return 1e6 * (double)t.tv_sec + 1e-3 * (double)t.tv_nsec;
}

/* Microseconds, the least of some calls. */
static double timed(const char *text, int calls, tm_literals_result *r)
{
    double least = 1e18;
    while (calls-- > 0) {
        double from = now();
        *r = tm_literals((const uint8_t *)text, strlen(text), bytes, sizeof bytes, lengths, TM_LITERALS);
        double took = now() - from;
        least = took < least ? took : least;
    }
    return least;
}

static void told(const char *text, const char *name)
{
    tm_literals_result r;
    double took = timed(text, 9, &r);
    printf("%9.1f us  %4zu signs, refusal %u, rank %u, %u literals: %s\n", took, strlen(text), r.refusal, r.rank, (unsigned)r.count, name);
}

/* A text of `head`, n times `body`, and `tail`. */
static void family(const char *name, const char *head, const char *body, int n, const char *tail)
{
    static char text[1 << 16];
    char *at = text + sprintf(text, "{%s", head);
    while (n-- > 0)
        at += sprintf(at, "%s", body);
    sprintf(at, "%s}", tail);
    told(text, name);
}

/* z bytes 00, one of n branches, z bytes 00, and then so many runs that tie with it. */
static void branches(int z, int n, int runs)
{
    static char text[1 << 16];
    char name[99];
    char *at = text + sprintf(text, "{00 ?" "?");
    for (int i = 0; i < z; i++)
        at += sprintf(at, "00");
    at += sprintf(at, "(41");
    for (int i = 1; i < n; i++)
        at += sprintf(at, "|42");
    at += sprintf(at, ")");
    for (int i = 0; i < z; i++)
        at += sprintf(at, "00");
    for (int i = 0; i < runs; i++)
        at += sprintf(at, "?" "?410042");
    sprintf(at, "}");
    sprintf(name, "%d bytes, %d branches, %d bytes; %d runs of the same rank", z, n, z, runs);
    told(text, name);
}

static void families(void)
{
    family("~41 all along", "", "~41", 512, "");
    family("~41 00 (41) 00 all along", "", "~4100(41)00", 102, "");
    family("(41) F? all along", "", "(41)F?", 170, "");
    family("00 F? all along", "", "00F?", 256, "");
    family("F? F? all along", "", "F?F?", 256, "");
    family("?F ?E 00 (41) 00 all along", "", "?F?E00(41)00", 85, "");
    family("F? ?F 41 all along", "", "F??F41", 170, "");
    family("F? F? 41 in runs", "", "F?F?41?" "?", 127, "41");
    family("F? F? (41) 00 (41) in runs", "", "F?F?(41)00(41)?" "?", 63, "41");
    family("(41) all along", "", "(41)", 256, "");
    family("(41|42|43) all along", "", "(41|42|43)", 128, "");
    family("(41|42|43|44) all along", "", "(41|42|43|44)", 102, "");
    branches(127, 254, 0);
    branches(25, 250, 52);
    branches(50, 150, 64);
}

enum { PIECES = 600, KINDS = 24 };
static const char *const kinds[KINDS] = {
    "00", "41", "?" "?", "~41", "~00", "?1", "?F", "F?", "1?", "~?1", "~F?", "(41)", "(00)", "(41|42)", "(41|42|43)", "(41|00 00)", "(F?)",
    "(~41)", "(41|?1)", "(41|42|43|44|45|46|47|48|49|4A|4B|4C|4D|4E|4F|50)", "(00 00 00 00|41 41)", "00 00 00", "[1-2]", "(00|F?)",
};
static unsigned char best[PIECES], next[PIECES];
static size_t held, size;
static char spelt[1 << 16];

static void spell(const unsigned char *pieces, size_t n)
{
    char *at = spelt + sprintf(spelt, "{41");
    for (size_t i = 0; i < n; i++)
        at += sprintf(at, "%s", kinds[pieces[i]]);
    sprintf(at, "41}");
}

static size_t below(size_t n) { return (size_t)rand() % n; }

/* The best text with one stretch of it taken out, put in, repeated or changed. */
static void change(void)
{
    memcpy(next, best, sizeof next);
    size = held;
    size_t at = size ? below(size) : 0, n = 1 + below(1 + below(8));
    switch (below(4)) {
    case 0:
        n = n < size - at ? n : size - at;
        memmove(next + at, next + at + n, size - at - n);
        size -= n;
        return;
    case 1:
        if (size == 0)
            return;
        for (size_t i = 0; i < n; i++)
            next[below(size)] = (unsigned char)below(KINDS);
        return;
    default: {
        size_t times = 1 + below(1 + below(60)), from = size ? below(size) : 0;
        n = size ? (n < size - from ? n : size - from) : 1;
        unsigned char part[8];
        for (size_t i = 0; i < n; i++)
            part[i] = size && below(4) ? best[from + i] : (unsigned char)below(KINDS);
        while (times-- > 0 && size + n <= PIECES) {
            memmove(next + at + n, next + at, size - at);
            memcpy(next + at, part, n);
            size += n;
        }
    }
    }
}

/* Up to six random pieces, repeated as often as the limits let them. */
static void repeat(void)
{
    static uint32_t pool[TM_TOKEN_POOL];
    size_t period = 1 + below(6);
    for (size_t i = 0; i < PIECES; i++)
        next[i] = i < period ? (unsigned char)below(KINDS) : next[i - period];
    for (size = PIECES; size > 0; size--) {
        spell(next, size);
        if (tm_read((const uint8_t *)spelt, strlen(spelt), pool, TM_TOKEN_POOL).refusal == 0)
            return;
    }
}

static void search(unsigned seed, long rounds)
{
    double worst = 0;
    srand(seed);
    for (long i = 0; i < rounds; i++) {
        tm_literals_result r;
        if (2 * i < rounds)
            repeat();
        else
            change();
        spell(next, size);
        if (strlen(spelt) > TM_TEXT_LIMIT)
            continue;
        double took = timed(spelt, 1, &r);
        if (took > worst && (took = timed(spelt, 2, &r)) > worst) {
            worst = took;
            held = size;
            memcpy(best, next, sizeof best);
        }
    }
    spell(best, held);
    told(spelt, "the slowest found");
    printf("%s\n", spelt);
}

int main(int argc, char **argv)
{
    if (argc < 3)
        families();
    else
        search((unsigned)atoi(argv[1]), atol(argv[2]));
    return 0;
}
