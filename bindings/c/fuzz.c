/* Calls every door for answers that are known in full, and then with buffers between guards: of every length from none to one past its need, and of
 * lengths around it on random and damaged inputs. Nothing outside a lent buffer may change, every answer must be one that the header names, and of
 * programs just those are refused that a second reading of the header finds unsound. Prints the count of calls by answer, and of programs that the
 * second reading looked at by their first fault; exits 1 at the first fault of the library.
 *
 *     fuzz SEED ROUNDS
 */
#include <inttypes.h>
#include <stdio.h>
#include <stdlib.h>
#include <string.h>

#include "tokenmarsh.h"

static uint64_t state;
static uint64_t answers[20];

static uint32_t below(uint32_t n)
{
    state ^= state << 13;
    state ^= state >> 7;
    state ^= state << 17;
    return n == 0 ? 0 : (uint32_t)((state >> 11) % n);
}

static void fault(const char *what)
{
    printf("fault: %s\n", what);
    exit(1);
}

static void answered(uint32_t refusal, const char *door, uint64_t allowed)
{
    if (refusal > 19 || (refusal != 0 && !(allowed >> refusal & 1)))
        fault(door);
    answers[refusal]++;
}

/* A buffer of n bytes between two guards of 64. */
enum { GUARD = 64 };

typedef struct {
    uint8_t *all, *lent;
    size_t n;
} guarded;

static guarded lend(size_t n)
{
    guarded g = {malloc(n + 2 * GUARD), NULL, n};
    memset(g.all, 0xA5, n + 2 * GUARD);
    g.lent = g.all + GUARD;
    return g;
}

static void back(guarded g, const char *door)
{
    for (size_t i = 0; i < GUARD; i++)
        if (g.all[i] != 0xA5 || g.lent[g.n + i] != 0xA5)
            fault(door);
    free(g.all);
}

/* The words from `from` on are as lent. */
static void same(guarded g, size_t from, const char *door)
{
    for (size_t i = from; i < g.n; i++)
        if (g.lent[i] != 0xA5)
            fault(door);
}

static void zero(guarded g, size_t from, size_t to, const char *door)
{
    for (size_t i = from; i < to; i++)
        if (g.lent[i] != 0)
            fault(door);
}

/* A node word by its kind and fields, and the longest jump. */
#define WORD(kind, first, second) ((uint64_t)(kind) + ((uint64_t)(first) << 8) + ((uint64_t)(second) << 24))
enum { LONGEST = 65535 };

/* What is wrong with a program, as the header has it at tm_sound: nothing, one of the nodes that can't have been meant, or something else. */
enum { SOUND, VALUE, JUMP, BRANCH, ELSE, VERDICTS };

static uint64_t verdicts[VERDICTS];

/* Of a word that is neither an alternation nor a branch. */
static int node_verdict(uint64_t word, int in_branch)
{
    uint64_t first = word >> 8 & 65535, second = word >> 24;

    switch (word & 255) {
    case 0: return first > 255 || second != 0 ? ELSE : SOUND;
    case 1:
    case 2: return first > 255 || second > 255 ? ELSE : (first & ~second) != 0 ? VALUE : SOUND;
    case 3: return second != 0 ? ELSE : first == 0 ? JUMP : SOUND;
    case 4: return in_branch || second > LONGEST || first > second ? ELSE : SOUND;
    case 5: return first != 0 || second != 0 ? ELSE : SOUND;
    default: return ELSE;
    }
}

/* Of the branches that fill so many words. */
static int branches_verdict(const uint64_t *branch, size_t words)
{
    int verdict = words == 0 ? ELSE : SOUND;

    while (verdict == SOUND && words > 0) {
        size_t nodes = *branch >> 8 & 65535;
        if ((*branch & 255) != 7 || *branch >> 24 != 0 || nodes > 255 || nodes >= words)
            return ELSE;
        if (nodes == 0)
            return BRANCH;
        for (size_t k = 1; verdict == SOUND && k <= nodes; k++)
            verdict = node_verdict(branch[k], 1);
        branch += 1 + nodes, words -= 1 + nodes;
    }
    return verdict;
}

static int verdict_of(const uint64_t *program, size_t words)
{
    int verdict = words > TM_NODE_POOL ? ELSE : SOUND;

    while (verdict == SOUND && words > 0) {
        size_t inside = (*program & 255) == 6 ? *program >> 8 & 65535 : 0;
        if (inside >= words || ((*program & 255) == 6 && *program >> 24 != 0))
            return ELSE;
        verdict = (*program & 255) == 6 ? branches_verdict(program + 1, inside) : node_verdict(*program, 0);
        program += 1 + inside, words -= 1 + inside;
    }
    return verdict;
}

/* By what a program is refused, if the window is none and the pool long enough. tm_sound has to say the same. */
static uint32_t refused_by(const uint64_t *program, size_t words)
{
    int verdict = verdict_of(program, words);

    verdicts[verdict]++;
    if (tm_sound(program, words) != (verdict == SOUND))
        fault("tm_sound: another verdict");
    return words > TM_NODE_POOL ? 13 : verdict == SOUND ? 0 : 15;
}

/* The same of a program and of its mirror, which has as many words. */
static uint32_t either_refused_by(const uint64_t *program, size_t words)
{
    static uint64_t pool[TM_NODE_POOL];
    uint32_t due = refused_by(program, words);
    tm_mirror_result m = tm_mirror(program, words, pool, TM_NODE_POOL);

    if (m.refusal != due || m.words != (due == 0 ? words : 0) || (due == 0 && refused_by(pool, words) != 0))
        fault("tm_mirror: of a sound program or of none");
    return due;
}

static const char *const pieces[] = {"{", "}", "(", ")", "|", "[", "]", "-", "~", "?", " ", "\n", "00", "4F", "a?", "?b", "??", "[2]", "[1-3]", "[4-]", "[0-255]", "(41|42 43)",
                                     "( 41 [2] 43 | ~42 )", "[4294967296]", "[3-2]", "\xff", "[256]", "[65535]", "[65536]"};

static size_t put(uint8_t *t, size_t n, const char *what, uint32_t times)
{
    for (uint32_t i = 0; i < times; i++, n += strlen(what))
        memcpy(t + n, what, strlen(what));
    return n;
}

/* About one of the limits: levels, tokens, a branch's nodes, all nodes. */
static size_t limit(uint8_t *t)
{
    uint32_t kind = below(4), many = (kind == 0 ? 6 : kind == 1 ? 509 : kind == 2 ? 252 : 168) + below(6);
    size_t n = put(t, 0, kind == 0 ? "{41" : kind == 2 ? "{(" : "{", 1);
    n = put(t, n, kind == 0 ? "(" : kind == 3 ? "(41)" : "41", many);
    if (kind == 0)
        n = put(t, put(t, n, "41", 1), ")", many);
    return put(t, n, kind == 2 ? ")}" : "}", 1);
}

/* Mostly a pattern, sometimes one with faults. */
static size_t text(uint8_t *t)
{
    size_t n = 0;
    if (below(16) == 0)
        return limit(t);
    uint32_t tokens = below(40), wild = below(4) == 0 ? 1 : 0;
    if (below(64) != 0)
        t[n++] = '{';
    /* a byte at either bound, where a jump may not stand */
    if (!wild) {
        memcpy(t + n, "41", 2);
        n += 2;
    }
    for (uint32_t i = 0; i < tokens; i++) {
        const char *p = wild ? pieces[below(sizeof pieces / sizeof *pieces)] : pieces[10 + below(13)];
        /* seldom, since no window here is as long; and no wide range, for several of them multiply a check's time */
        if (!wild && below(64) == 0)
            p = "[65535]";
        memcpy(t + n, p, strlen(p));
        n += strlen(p);
        if (below(2))
            t[n++] = ' ';
    }
    if (!wild) {
        memcpy(t + n, "42", 2);
        n += 2;
    }
    if (below(16) != 0)
        t[n++] = '}';
    if (below(64) == 0)
        while (n < 4090 + below(12))
            t[n++] = ' ';
    return n;
}

static const uint64_t TEXT = 0xFFE; /* 1 to 11 */

static size_t around(size_t need)
{
    switch (below(4)) {
    case 0: return below((uint32_t)need + 2);
    case 1: return need - (need > 0);
    case 2: return need;
    default: return need + 1;
    }
}

/* Where the reading of a text ends. */
static uint64_t read_to(const uint8_t *t, size_t n)
{
    static uint32_t pool[TM_TOKEN_POOL];
    return tm_read(t, n, pool, TM_TOKEN_POOL).reached;
}

/* Into a pool of so many words. */
static void reading(const uint8_t *t, size_t n, size_t lent)
{
    guarded pool = lend(4 * lent);
    tm_read_result r = tm_read(t, n, (uint32_t *)pool.lent, pool.n / 4);
    answered(r.refusal, "tm_read", TEXT | 1u << 18);
    if ((pool.n / 4 < TM_TOKEN_POOL) != (r.refusal == 18))
        fault("tm_read: 18");
    if (r.refusal == 18)
        same(pool, 0, "tm_read: 18 changed the pool");
    else {
        zero(pool, 4 * r.words, 4 * TM_TOKEN_POOL, "tm_read: words not zeroed");
        same(pool, 4 * TM_TOKEN_POOL, "tm_read: words beyond changed");
        if (r.refusal == 0 && (r.words > 4092 || r.reached == 0 || r.reached > n))
            fault("tm_read: bounds");
    }
    if (r.refusal == 0 || r.refusal == 18 ? r.place != 0 : r.place > n)
        fault("tm_read: place");
    if (r.refusal != 0 && (r.words != 0 || r.reached != 0))
        fault("tm_read: a refusal has no words");
    back(pool, "tm_read: guard");
}

static void compiling(const uint8_t *t, size_t n, size_t forward, size_t reverse, uint64_t *program, size_t *words)
{
    guarded f = lend(8 * forward), b = lend(8 * reverse);
    tm_compile_result r = tm_compile(t, n, (uint64_t *)f.lent, f.n / 8, (uint64_t *)b.lent, b.n / 8);
    answered(r.refusal, "tm_compile", TEXT | 1u << 12 | 1u << 13 | 1u << 14 | 1u << 18);
    if ((f.n / 8 < TM_NODE_POOL || b.n / 8 < TM_NODE_POOL) != (r.refusal == 18))
        fault("tm_compile: 18");
    if (r.refusal == 18) {
        same(f, 0, "tm_compile: 18 changed a pool");
        same(b, 0, "tm_compile: 18 changed a pool");
    } else {
        zero(f, 8 * r.forward, 8 * TM_NODE_POOL, "tm_compile: words not zeroed");
        zero(b, 8 * r.reverse, 8 * TM_NODE_POOL, "tm_compile: words not zeroed");
        same(f, 8 * TM_NODE_POOL, "tm_compile: words beyond changed");
        same(b, 8 * TM_NODE_POOL, "tm_compile: words beyond changed");
        if (r.refusal == 0) {
            if (either_refused_by((uint64_t *)f.lent, r.forward) != 0 || either_refused_by((uint64_t *)b.lent, r.reverse) != 0)
                fault("tm_compile: unsound");
            memcpy(program, f.lent, 8 * r.forward);
            *words = r.forward;
        }
    }
    if (r.refusal == 0 || r.refusal > 11 ? r.place != 0 : r.place > n)
        fault("tm_compile: place");
    if (r.refusal == 0 ? r.reached == 0 || r.reached > n || r.reached != read_to(t, n) : r.reached != 0)
        fault("tm_compile: reached");
    if (r.refusal != 0 && (r.forward != 0 || r.reverse != 0))
        fault("tm_compile: a refusal has no words");
    back(f, "tm_compile: guard");
    back(b, "tm_compile: guard");
}

/* Into so many bytes and lengths; what is written is added up in `need`, bytes and then lengths. */
static uint32_t picking(const uint8_t *t, size_t n, size_t room, size_t count, size_t need[2])
{
    guarded bytes = lend(room), lengths = lend(2 * count);
    tm_literals_result r = tm_literals(t, n, bytes.lent, room, (uint16_t *)lengths.lent, count);
    answered(r.refusal, "tm_literals", TEXT | 1u << 17 | 1u << 18 | 1u << 19);
    size_t total = 0;
    if (r.refusal == 0 && r.count > count)
        fault("tm_literals: more than lent");
    for (size_t i = 0; r.refusal == 0 && i < r.count; i++)
        total += ((uint16_t *)lengths.lent)[i];
    same(bytes, total, "tm_literals: bytes changed");
    same(lengths, r.refusal == 0 ? 2 * r.count : 0, "tm_literals: lengths changed");
    if (r.refusal == 0 && (r.rank > 80 || r.count > TM_LITERALS || total > room))
        fault("tm_literals: bounds");
    if (r.refusal == 0 || r.refusal > 11 ? r.place != 0 : r.place > n)
        fault("tm_literals: place");
    if (r.refusal == 0 ? r.reached == 0 || r.reached > n || r.reached != read_to(t, n) : r.reached != 0)
        fault("tm_literals: reached");
    if (r.refusal != 0 && (r.rank != 0 || r.count != 0))
        fault("tm_literals: a refusal has no count");
    back(bytes, "tm_literals: guard");
    back(lengths, "tm_literals: guard");
    need[0] = total;
    need[1] = r.refusal == 0 ? r.count : 0;
    return r.refusal;
}

/* With just the room that the literals need, and around it: 18 exactly if it is too little. */
static void rooms(const uint8_t *t, size_t n, int every)
{
    size_t need[2], got[2];
    uint32_t due = picking(t, n, TM_LITERAL_BYTES, TM_LITERALS, need);
    if (due == 18)
        fault("tm_literals: this room is always enough");
    for (size_t k = 0; k < (every ? need[0] + need[1] + 4 : 4); k++) {
        size_t room = every ? (k < need[0] + 2 ? k : need[0]) : around(need[0]);
        size_t count = every ? (k < need[0] + 2 ? need[1] : k - need[0] - 2) : around(need[1]);
        uint32_t refusal = picking(t, n, room, count, got);
        if (refusal != (due == 0 && (room < need[0] || count < need[1]) ? 18 : due))
            fault("tm_literals: 18");
        if (refusal == 0 && (got[0] != need[0] || got[1] != need[1]))
            fault("tm_literals: another count");
    }
}

static void checking(const uint64_t *program, size_t words, size_t bytes, size_t start, size_t end)
{
    guarded hay = lend(bytes);
    for (size_t i = 0; i < hay.n; i++)
        hay.lent[i] = (uint8_t)(below(2) ? 0x41 + below(3) : below(256));
    tm_check_result f = tm_forward(program, words, hay.lent, hay.n, start, end), b = tm_reverse(program, words, hay.lent, hay.n, start, end);
    tm_tail_result tail = tm_tail(program, words, hay.lent, hay.n, start, end);
    answered(f.refusal, "tm_forward", 1u << 13 | 1u << 15 | 1u << 16);
    answered(b.refusal, "tm_reverse", 1u << 13 | 1u << 15 | 1u << 16);
    uint32_t due = refused_by(program, words);
    if (start > end || end > hay.n)
        due = 16;
    if (f.refusal != due || b.refusal != due)
        fault("checks: 16, 13, 15");
    if ((f.found && (f.offset < start || f.offset > end)) || (b.found && (b.offset < start || b.offset > end)))
        fault("checks: outside the window");
    if (f.found > 1 || b.found > 1 || (!f.found && f.offset != 0) || (!b.found && b.offset != 0) || (f.refusal != 0 && f.found) || (b.refusal != 0 && b.found))
        fault("checks: no match has no offset");
    if (f.found ? tail.offset != f.offset || tail.length != end - f.offset : tail.offset != 0 || tail.length != 0)
        fault("tm_tail");
    back(hay, "checks: guard");
}

/* A haystack and a window, mostly inside it. */
static void somewhere(const uint64_t *program, size_t words)
{
    size_t bytes = below(64), start = below((uint32_t)bytes + 2);
    checking(program, words, bytes, start, below(16) ? start + below((uint32_t)bytes + 2) : below(2) ? SIZE_MAX : 0);
}

/* A word that is no alternation, no branch and, in a branch, no range; seldom one that can't have been meant. */
static uint64_t some_node(int in_branch)
{
    uint64_t mask = below(256), value = below(12) ? mask & below(256) : below(256);

    switch (below(in_branch ? 6 : 7)) {
    case 0: return WORD(0, 0x41 + below(3), 0);
    case 1: return WORD(1, value, mask);
    case 2: return WORD(2, value, mask);
    case 3: return WORD(3, below(12) ? 1 + below(4) : 0, 0);
    case 4: return WORD(5, 0, 0);
    case 5: return WORD(0, below(256), 0);
    default: return WORD(4, below(2), 1 + below(2));
    }
}

/* A program as one may be laid by hand, mostly a sound one: up to eight items. */
static size_t some_program(uint64_t *program)
{
    size_t words = 0;

    for (uint32_t items = below(9); items > 0; items--) {
        if (below(4) != 0) {
            program[words++] = some_node(0);
            continue;
        }
        size_t alternation = words++;
        for (uint32_t branches = 1 + below(3); branches > 0; branches--) {
            size_t branch = words++;
            for (uint32_t nodes = below(12) ? 1 + below(3) : 0; nodes > 0; nodes--)
                program[words++] = some_node(1);
            program[branch] = WORD(7, words - branch - 1, 0);
        }
        program[alternation] = WORD(6, words - alternation - 1, 0);
    }
    return words;
}

static void mirroring(const uint64_t *program, size_t words, size_t lent)
{
    guarded pool = lend(8 * lent);
    tm_mirror_result r = tm_mirror(program, words, (uint64_t *)pool.lent, pool.n / 8);
    answered(r.refusal, "tm_mirror", 1u << 13 | 1u << 15 | 1u << 18);
    uint32_t due = refused_by(program, words);
    if (r.refusal != (pool.n / 8 < TM_NODE_POOL ? 18 : due))
        fault("tm_mirror: 18, 13, 15");
    if (r.refusal == 18)
        same(pool, 0, "tm_mirror: 18 changed the pool");
    else {
        zero(pool, 8 * r.words, 8 * TM_NODE_POOL, "tm_mirror: words not zeroed");
        same(pool, 8 * TM_NODE_POOL, "tm_mirror: words beyond changed");
        if (r.refusal == 0 && (r.words != words || refused_by((uint64_t *)pool.lent, r.words) != 0))
            fault("tm_mirror: not a mirror");
    }
    if (r.refusal != 0 && r.words != 0)
        fault("tm_mirror: a refusal has no words");
    back(pool, "tm_mirror: guard");
}

/* Texts that compile, that read, that end before the last brace, that are refused at once and late, and that are too long. */
static const char *const texts[] = {"{ 41 [0-2] ( 42 | 43 44 ) }", "{ 41 [2-] 42 }", "{ 01 02 ?3 04 }", "{ ( 41 | ?? ) }", "{ ?? }", "{ 4D 5A } 90 00 }", "x", "{ 41 42 [0] 43 }", NULL};

static void every_length(void)
{
    static uint8_t spaces[4097];
    static uint64_t program[600];
    size_t words = 0;

    memset(spaces, ' ', sizeof spaces);
    for (size_t k = 0; k < sizeof texts / sizeof *texts; k++) {
        const uint8_t *t = texts[k] ? (const uint8_t *)texts[k] : spaces;
        size_t n = texts[k] ? strlen(texts[k]) : sizeof spaces;
        for (size_t lent = 0; lent <= TM_TOKEN_POOL + 1; lent++)
            reading(t, n, lent);
        for (size_t lent = 0; lent <= TM_NODE_POOL + 1; lent++) {
            compiling(t, n, lent, TM_NODE_POOL, program, &words);
            compiling(t, n, TM_NODE_POOL, lent, program, &words);
            compiling(t, n, lent, lent, program, &words);
        }
        rooms(t, n, 1);
    }
    /* a program, its first word alone, none, an unsound one and one that is too long */
    for (size_t lent = 0; lent <= TM_NODE_POOL + 1; lent++) {
        const uint64_t branch = 7;
        mirroring(program, words, lent);
        mirroring(program, 1, lent);
        mirroring(NULL, 0, lent);
        mirroring(&branch, 1, lent);
        mirroring(program, 600, lent);
    }
    for (size_t bytes = 0; bytes <= 12; bytes++)
        for (size_t start = 0; start <= bytes + 1; start++)
            for (size_t end = 0; end <= bytes + 1; end++)
                checking(program, words, bytes, start, end);
}

/* A null pointer where nothing is lent. */
static void nulls(void)
{
    static uint32_t tokens[TM_TOKEN_POOL];
    static uint64_t pool[TM_NODE_POOL], other[TM_NODE_POOL];
    static const uint8_t any[] = {'{', '?', '?', '}'};
    tm_check_result f = tm_forward(NULL, 0, NULL, 0, 0, 0), b = tm_reverse(NULL, 0, NULL, 0, 0, 0);
    tm_tail_result tail = tm_tail(NULL, 0, NULL, 0, 0, 0);

    if (tm_read(NULL, 0, NULL, 0).refusal != 18 || tm_read(NULL, 0, tokens, TM_TOKEN_POOL).refusal != 2)
        fault("tm_read: null");
    if (tm_compile(NULL, 0, NULL, 0, NULL, 0).refusal != 18 || tm_compile(NULL, 0, pool, TM_NODE_POOL, other, TM_NODE_POOL).refusal != 2)
        fault("tm_compile: null");
    if (tm_literals(NULL, 0, NULL, 0, NULL, 0).refusal != 2 || tm_literals(any, sizeof any, NULL, 0, NULL, 0).refusal != 0)
        fault("tm_literals: null");
    if (f.refusal != 0 || f.found != 1 || f.offset != 0 || b.refusal != 0 || b.found != 1 || b.offset != 0 || tail.offset != 0 || tail.length != 0)
        fault("checks: null");
    if (tm_mirror(NULL, 0, NULL, 0).refusal != 18 || tm_mirror(NULL, 0, pool, TM_NODE_POOL).refusal != 0 || tm_sound(NULL, 0) != 1)
        fault("tm_mirror, tm_sound: null");
}

/* So many bytes of a pool hold the words due, and 0 after them. */
static void holds(const void *pool, size_t pool_size, const void *due, size_t size, const char *door)
{
    if (memcmp(pool, due, size) != 0)
        fault(door);
    for (size_t i = size; i < pool_size; i++)
        if (((const uint8_t *)pool)[i] != 0)
            fault(door);
}

/* Answers that are known in full. The library is proved by the names of its fields and parameters, and would be proved as well with two of them in
 * each other's place (bindings/c/swaps tries them all): so no number here could pass for another of its answer or call, nor a buffer for another.
 * Only the two counts of tm_compile are equal, and they are for every text. */
static void known(void)
{
    static const char tokens[] = "{ AB ~?c [4-] ( 01 | 2? [1] ) 03 } zz", nodes[] = "{ 41 [0-2] ( 42 | 43 44 ) }", picks[] = "{ 01 02 ?3 04 }", empty[] = "{ AB [0] CD }";
    static const uint32_t entries[] = {0, 0xAB, 0, 0, 3, 0xC, 0, 0, 4, 4, 0, 0, 5, 2, 5, 0, 6, 1, 1, 0, 0, 1, 0, 0, 6, 2, 2, 0, 2, 2, 1, 0, 2, 0, 2, 0, 0, 3, 0, 0};
    static const uint64_t ahead[] = {0x4100, 0x2000004, 0x506, 0x107, 0x4200, 0x207, 0x4300, 0x4400}, behind[] = {0x506, 0x107, 0x4200, 0x207, 0x4400, 0x4300, 0x2000004, 0x4100};
    static const uint64_t branch = 7, gap[] = {0x6100, 0x2000004, 0x6300}, gap_behind[] = {0x6300, 0x2000004, 0x6100};
    static const uint8_t hay[] = {'x', 'x', 'a', 'b', 'c', 'x', 'a', 'c', 'y', 'y'};
    static uint32_t token_pool[TM_TOKEN_POOL];
    static uint64_t pool[TM_NODE_POOL], other[TM_NODE_POOL + 1];
    static uint8_t bytes[TM_LITERAL_BYTES];
    static uint16_t lengths[TM_LITERALS];

    tm_read_result r = tm_read((const uint8_t *)tokens, sizeof tokens - 1, token_pool, TM_TOKEN_POOL);
    if (r.refusal != 0 || r.place != 0 || r.reached != 35 || r.words != 40)
        fault("tm_read: a known answer");
    holds(token_pool, sizeof token_pool, entries, sizeof entries, "tm_read: known words");
    r = tm_read((const uint8_t *)empty, sizeof empty - 1, token_pool, TM_TOKEN_POOL);
    if (r.refusal != 4 || r.place != 5 || r.reached != 0 || r.words != 0)
        fault("tm_read: a known refusal");

    tm_compile_result c = tm_compile((const uint8_t *)nodes, sizeof nodes - 1, pool, TM_NODE_POOL, other, TM_NODE_POOL + 1);
    if (c.refusal != 0 || c.place != 0 || c.reached != 27 || c.forward != 8 || c.reverse != 8)
        fault("tm_compile: a known answer");
    holds(pool, sizeof pool, ahead, sizeof ahead, "tm_compile: known forward words");
    holds(other, sizeof other, behind, sizeof behind, "tm_compile: known reverse words");
    c = tm_compile((const uint8_t *)empty, sizeof empty - 1, pool, TM_NODE_POOL, other, TM_NODE_POOL + 1);
    if (c.refusal != 4 || c.place != 5 || c.reached != 0 || c.forward != 0 || c.reverse != 0)
        fault("tm_compile: a known refusal");

    tm_literals_result l = tm_literals((const uint8_t *)picks, sizeof picks - 1, bytes, TM_LITERAL_BYTES, lengths, TM_LITERALS);
    if (l.refusal != 0 || l.rank != 70 || l.place != 0 || l.reached != 15 || l.count != 16)
        fault("tm_literals: a known answer");
    for (size_t i = 0; i < 16; i++) {
        const uint8_t due[] = {0x01, 0x02, (uint8_t)(16 * i + 3), 0x04};
        if (lengths[i] != sizeof due || memcmp(bytes + 4 * i, due, sizeof due) != 0)
            fault("tm_literals: known literals");
    }
    l = tm_literals((const uint8_t *)empty, sizeof empty - 1, bytes, TM_LITERAL_BYTES, lengths, TM_LITERALS);
    if (l.refusal != 4 || l.rank != 0 || l.place != 5 || l.reached != 0 || l.count != 0)
        fault("tm_literals: a known refusal");

    tm_check_result f = tm_forward(gap, 3, hay, sizeof hay, 2, 8), b = tm_reverse(gap_behind, 3, hay, sizeof hay, 2, 8);
    if (f.refusal != 0 || f.found != 1 || f.offset != 5)
        fault("tm_forward: a known answer");
    if (b.refusal != 0 || b.found != 1 || b.offset != 6)
        fault("tm_reverse: a known answer");
    f = tm_forward(gap, 3, hay, sizeof hay, 8, 2), b = tm_reverse(gap_behind, 3, hay, sizeof hay, 8, 2);
    if (f.refusal != 16 || f.found != 0 || f.offset != 0 || b.refusal != 16 || b.found != 0 || b.offset != 0)
        fault("tm_forward, tm_reverse: a known refusal");
    tm_tail_result tail = tm_tail(gap, 3, hay, sizeof hay, 2, 8);
    if (tail.offset != 5 || tail.length != 3)
        fault("tm_tail: a known answer");

    tm_mirror_result m = tm_mirror(ahead, 8, pool, TM_NODE_POOL);
    if (m.refusal != 0 || m.words != 8)
        fault("tm_mirror: a known answer");
    holds(pool, sizeof pool, behind, sizeof behind, "tm_mirror: known words");
    m = tm_mirror(&branch, 1, pool, TM_NODE_POOL);
    if (m.refusal != 15 || m.words != 0)
        fault("tm_mirror: a known refusal");
    if (tm_sound(ahead, 8) != 1 || tm_sound(&branch, 1) != 0)
        fault("tm_sound: a known answer");
}

/* A text compiles to these words. */
static void compiles(const char *text, const uint64_t *ahead, const uint64_t *behind, size_t words)
{
    static uint64_t forward[TM_NODE_POOL], reverse[TM_NODE_POOL];
    tm_compile_result r = tm_compile((const uint8_t *)text, strlen(text), forward, TM_NODE_POOL, reverse, TM_NODE_POOL);

    if (r.refusal != 0 || r.forward != words || r.reverse != words)
        fault(text);
    holds(forward, sizeof forward, ahead, 8 * words, text);
    holds(reverse, sizeof reverse, behind, 8 * words, text);
}

/* Every door says that these words are no sound program. */
static void unsound(const uint64_t *program, size_t words, const char *why)
{
    static const uint8_t hay[] = {'A', 'A'};
    static uint64_t pool[TM_NODE_POOL];

    if (tm_sound(program, words) != 0 || tm_forward(program, words, hay, 2, 0, 2).refusal != 15 || tm_reverse(program, words, hay, 2, 0, 2).refusal != 15 ||
        tm_mirror(program, words, pool, TM_NODE_POOL).refusal != 15)
        fault(why);
}

/* A program fits just the whole haystack, or nothing in it, and so does its mirror. */
static void fits(const uint64_t *program, size_t words, const uint8_t *hay, size_t n, uint32_t whole, const char *why)
{
    static uint64_t pool[TM_NODE_POOL];
    tm_mirror_result m = tm_mirror(program, words, pool, TM_NODE_POOL);
    tm_check_result f = tm_forward(program, words, hay, n, 0, n), b = tm_reverse(pool, words, hay, n, 0, n);

    if (tm_sound(program, words) != 1 || m.refusal != 0 || f.refusal != 0 || f.found != whole || f.offset != (whole ? n : 0) || b.refusal != 0 || b.found != whole || b.offset != 0)
        fault(why);
}

/* The same, of a word between two bytes and a gap between them. */
static void gaps(uint64_t word, size_t gap, uint32_t whole, const char *why)
{
    const uint64_t program[] = {WORD(0, 'B', 0), word, WORD(0, 'A', 0)};
    uint8_t *hay = calloc(gap + 2, 1);

    hay[0] = 'B', hay[gap + 1] = 'A';
    fits(program, 3, hay, gap + 2, whole, why);
    free(hay);
}

/* Texts that compile, and jumps that are too long for it. */
static void compiled(void)
{
    static const uint64_t mask[] = {0xF000A001}, run[] = {0xAB00, WORD(3, 450, 0), 0xCD00}, run_behind[] = {0xCD00, WORD(3, 450, 0), 0xAB00};
    /* No mirror of each other: what a node has room for depends on the side that is begun from. */
    static const uint64_t jumps[] = {0xAB00, WORD(3, 25000, 0), WORD(3, 62000, 0), WORD(3, 25000, 0), 0xCD00};
    static const uint64_t jumps_behind[] = {0xCD00, WORD(3, 37000, 0), WORD(3, 50000, 0), WORD(3, 25000, 0), 0xAB00};
    static const uint64_t most[] = {0xAB00, WORD(3, LONGEST, 0), 0xCD00}, most_behind[] = {0xCD00, WORD(3, LONGEST, 0), 0xAB00};
    static const uint64_t over[] = {0xAB00, WORD(3, LONGEST, 0), WORD(3, 1, 0), 0xCD00}, over_behind[] = {0xCD00, WORD(3, 1, 0), WORD(3, LONGEST, 0), 0xAB00};
    static const uint64_t upto[] = {0xAB00, WORD(4, 256, LONGEST), 0xCD00}, upto_behind[] = {0xCD00, WORD(4, 256, LONGEST), 0xAB00};
    static const char *const others[] = {"{ AB [65536] CD }", "{ AB [0-65536] CD }", "{ AB [4294967295] CD }", "{ AB [65535-] CD }", "{ AB [-] CD }"};
    static uint64_t pool[TM_NODE_POOL], other[TM_NODE_POOL];

    compiles("{ A? }", mask, mask, 1);
    compiles("{ AB [100] [200] [50] [100] CD }", run, run_behind, 3);
    compiles("{ AB [25000] [50000] [12000] [25000] CD }", jumps, jumps_behind, 5);
    compiles("{ AB [65535] CD }", most, most_behind, 3);
    compiles("{ AB [65534] ?? CD }", most, most_behind, 3);
    compiles("{ AB [65535] ?? CD }", over, over_behind, 4);
    compiles("{ AB [256-65535] CD }", upto, upto_behind, 3);
    for (size_t k = 0; k < sizeof others / sizeof *others; k++)
        if (tm_compile((const uint8_t *)others[k], strlen(others[k]), pool, TM_NODE_POOL, other, TM_NODE_POOL).refusal != 12)
            fault(others[k]);
}

/* Where the fields of a word begin and end, and what is only a byte. */
static void fields(void)
{
    static const uint64_t wrong[] = {WORD(0, 256, 0), WORD(1, 256, 255), WORD(1, 0, 256), WORD(2, 256, 255), WORD(2, 0, 256), WORD(0, 65, 1), WORD(3, 1, 1),
                                     WORD(4, 2, 1), WORD(5, 1, 0), WORD(5, 0, 1), WORD(8, 0, 0), UINT64_MAX, 4 + 256 * 1 + 65536 * 2, 1 + 256 * 0xA0 + 65536 * 0xF0};
    static const uint64_t counts_above[] = {WORD(6, 2, 1), WORD(7, 1, 0), WORD(0, 65, 0)};
    static uint64_t program[TM_NODE_POOL];
    static uint8_t as[255];

    for (int bit = 40; bit < 64; bit++) {
        const uint64_t word = WORD(0, 65, 0) + ((uint64_t)1 << bit);
        unsound(&word, 1, "a bit above a word's fields");
    }
    for (size_t k = 0; k < sizeof wrong / sizeof *wrong; k++)
        unsound(wrong + k, 1, "a word that is wrong by itself");
    unsound(counts_above, 3, "an alternation that counts in its second field");

    memset(as, 'A', sizeof as);
    for (size_t k = 2; k < TM_NODE_POOL; k++)
        program[k] = WORD(0, 'A', 0);
    program[0] = WORD(6, 256, 0), program[1] = WORD(7, 255, 0);
    fits(program, 257, as, 255, 1, "a branch of 255");
    program[0] = WORD(6, 257, 0), program[1] = WORD(7, 256, 0);
    unsound(program, 258, "a branch of 256");
    program[0] = WORD(6, 511, 0), program[1] = WORD(7, 255, 0), program[257] = WORD(7, 254, 0);
    fits(program, 512, as, 255, 1, "an alternation of 511");
}

/* A program is sound, or refused by 15 of all doors. */
static void judged(const uint64_t *program, size_t words, int sound, const char *why)
{
    static const uint8_t hay[] = {'A', 'A'};

    if (!sound)
        unsound(program, words, why);
    else if (tm_sound(program, words) != 1 || tm_forward(program, words, hay, 2, 0, 2).refusal != 0 || tm_reverse(program, words, hay, 2, 0, 2).refusal != 0)
        fault(why);
    if (either_refused_by(program, words) != (sound ? 0 : 15))
        fault(why);
}

/* A word by itself, then as the first, the middle and the last of three: of a program, and of each branch of three. A range is sound in no branch. */
static void placed(uint64_t word, int sound, const char *why)
{
    judged(&word, 1, sound, why);
    for (size_t k = 0; k < 3; k++) {
        uint64_t program[] = {WORD(0, 'A', 0), WORD(0, 'A', 0), WORD(0, 'A', 0)};
        program[k] = word;
        judged(program, 3, sound, why);
    }
    for (size_t k = 0; k < 9; k++) {
        uint64_t program[] = {WORD(0, 'A', 0), WORD(6, 12, 0), WORD(7, 3, 0), 0, 0, 0, WORD(7, 3, 0), 0, 0, 0, WORD(7, 3, 0), 0, 0, 0, WORD(0, 'A', 0)};
        program[3 + k + k / 3] = word;
        judged(program, 15, sound && (word & 255) != 4, why);
    }
}

/* Nodes that can't have been meant, and what is next to them. */
static void meant(void)
{
    static const uint8_t hay[] = {0, 1, 'A', 255};
    static uint64_t program[TM_NODE_POOL + 1], pool[TM_NODE_POOL];

    /* Each value with each mask, and its negation. */
    for (uint32_t pair = 0; pair < 65536; pair++) {
        uint64_t value = pair & 255, mask = pair >> 8;
        for (uint64_t kind = 1; kind <= 2; kind++) {
            const uint64_t word = WORD(kind, value, mask);
            if (tm_sound(&word, 1) != ((value | mask) == mask))
                fault("a value and its mask");
        }
    }
    for (uint64_t kind = 1; kind <= 2; kind++) {
        for (int bit = 0; bit < 8; bit++) {
            placed(WORD(kind, 1 << bit, 255 - (1 << bit)), 0, "a value with a bit outside its mask");
            placed(WORD(kind, 255, 255 - (1 << bit)), 0, "a value with a bit more than its mask");
            placed(WORD(kind, 1 << bit, 0), 0, "a value with no mask");
            placed(WORD(kind, 1 << bit, 1 << bit), 1, "a value that is its mask");
            placed(WORD(kind, 0, 1 << bit), 1, "a value of 0 and a mask");
            placed(WORD(kind, 1 << bit, 255), 1, "a value under its mask");
        }
        placed(WORD(kind, 0xA0, 0xF0), 1, "a value under its mask");
        placed(WORD(kind, 0, 0), 1, "a value of 0 and a mask of 0");
    }
    placed(WORD(3, 0, 0), 0, "a jump of 0");
    placed(WORD(3, 1, 0), 1, "a jump of 1");
    placed(WORD(3, 256, 0), 1, "a jump whose low 8 bits are 0");
    placed(WORD(4, 0, 0), 1, "a range of 0 to 0");
    placed(WORD(4, 0, 1), 1, "a range of 0 to 1");
    placed(WORD(0, 0, 0), 1, "a byte of 0");
    judged(NULL, 0, 1, "no words");
    /* An alternation of three branches with a node or none, as the first, the middle and the last of three items. */
    for (unsigned full = 0; full < 8; full++)
        for (size_t before = 0; before < 3; before++) {
            size_t words = before;
            for (size_t k = 0; k < 9; k++)
                program[k] = WORD(0, 'A', 0);
            words++;
            for (int k = 0; k < 3; k++)
                if (full >> k & 1)
                    program[words] = WORD(7, 1, 0), words += 2;
                else
                    program[words++] = WORD(7, 0, 0);
            program[before] = WORD(6, words - before - 1, 0);
            judged(program, words + 2 - before, full == 7, "branches with a node or none");
        }
    program[0] = WORD(6, 1, 0), program[1] = WORD(7, 0, 0);
    judged(program, 2, 0, "an empty branch alone");

    /* What stays sound means what it meant: a mask of 0 fits each byte and its negation none, and a range of 0 to 0 no bytes. */
    for (size_t k = 0; k < sizeof hay; k++) {
        const uint64_t all = WORD(1, 0, 0), none = WORD(2, 0, 0), gap[] = {WORD(0, hay[k], 0), WORD(4, 0, 0)};
        fits(&all, 1, hay + k, 1, 1, "a mask of 0");
        fits(&none, 1, hay + k, 1, 0, "the negation of a mask of 0");
        fits(gap, 2, hay + k, 1, 1, "a range of 0 to 0");
    }

    /* The window comes first, then the count of words, then what they are. Of a mirror the room comes first. */
    static const struct {
        uint64_t words[2];
        size_t count;
    } each[] = {{{WORD(1, 1, 0), 0}, 1}, {{WORD(2, 1, 0), 0}, 1}, {{WORD(3, 0, 0), 0}, 1}, {{WORD(6, 1, 0), WORD(7, 0, 0)}, 2}};
    for (size_t k = 0; k < sizeof each / sizeof *each; k++) {
        memset(program, 0, sizeof program);
        memcpy(program, each[k].words, 8 * each[k].count);
        for (size_t words = TM_NODE_POOL; words <= TM_NODE_POOL + 1; words++) {
            uint32_t due = words > TM_NODE_POOL ? 13 : 15;
            if (tm_forward(program, words, hay, 4, 0, 4).refusal != due || tm_reverse(program, words, hay, 4, 0, 4).refusal != due ||
                tm_mirror(program, words, pool, TM_NODE_POOL).refusal != due || tm_sound(program, words) != 0)
                fault("13, then 15");
            if (tm_forward(program, words, hay, 4, 0, 5).refusal != 16 || tm_reverse(program, words, hay, 4, 3, 2).refusal != 16 ||
                tm_mirror(program, words, pool, TM_NODE_POOL - 1).refusal != 18)
                fault("16 and 18 come first");
        }
    }
}

/* Jumps and ranges that 8 bits have no room for, in what is too short for them, just long enough and too long. */
static void lengths(void)
{
    static uint64_t program[TM_NODE_POOL];
    size_t sum = (size_t)TM_NODE_POOL * LONGEST;
    uint8_t *hay = calloc(sum, 1);

    for (size_t gap = 0; gap < 4; gap++)
        gaps(WORD(4, 1, 2), gap, gap == 1 || gap == 2, "a range of 1 to 2");
    static const size_t tried[] = {0, 1, 44, 255, 256, 300, 301, LONGEST - 1, LONGEST, LONGEST + 1};
    for (size_t k = 0; k < sizeof tried / sizeof *tried; k++) {
        gaps(WORD(4, 256, 300), tried[k], tried[k] >= 256 && tried[k] <= 300, "a range of 256 to 300");
        gaps(WORD(4, 0, LONGEST), tried[k], tried[k] <= LONGEST, "the longest range");
        gaps(WORD(3, 300, 0), tried[k], tried[k] == 300, "a jump of 300");
        gaps(WORD(3, LONGEST, 0), tried[k], tried[k] == LONGEST, "the longest jump");
    }
    /* The most that a program can ask for, in as many bytes, and in as many as 8 and 16 bits of their number say. */
    for (size_t k = 0; k < TM_NODE_POOL; k++)
        program[k] = WORD(3, LONGEST, 0);
    fits(program, TM_NODE_POOL, hay, sum, 1, "512 of the longest jumps");
    fits(program, TM_NODE_POOL, hay, sum - 1, 0, "512 of the longest jumps, a byte short");
    fits(program, TM_NODE_POOL, hay, sum & 255, 0, "512 of the longest jumps in 8 bits");
    fits(program, TM_NODE_POOL, hay, sum & 65535, 0, "512 of the longest jumps in 16 bits");
    free(hay);
}

int main(int argc, char **argv)
{
    static uint8_t t[8192];
    static uint64_t program[600], spoilt[600];
    size_t words = 0;
    unsigned long rounds = argc > 2 ? strtoul(argv[2], NULL, 10) : 10000;

    if (tm_version() != TM_VERSION)
        fault("tm_version");
    state = argc > 1 ? strtoull(argv[1], NULL, 10) * 2 + 1 : 1;
    known();
    compiled();
    fields();
    meant();
    lengths();
    nulls();
    every_length();
    for (unsigned long i = 0; i < rounds; i++) {
        size_t n = text(t);
        reading(t, n, around(TM_TOKEN_POOL));
        compiling(t, n, around(TM_NODE_POOL), around(TM_NODE_POOL), program, &words);
        if (below(8) == 0)
            rooms(t, n, 0);
        somewhere(program, words);
        mirroring(program, words, around(TM_NODE_POOL));
        /* a damaged copy, and now and then one that is too long */
        memcpy(spoilt, program, sizeof program);
        if (words > 0)
            spoilt[below((uint32_t)words)] ^= (uint64_t)1 << below(64);
        somewhere(spoilt, below(50) ? words : 600);
        mirroring(spoilt, below(50) ? words : 600, around(TM_NODE_POOL));
        /* and one that is laid by hand */
        size_t laid = some_program(spoilt);
        somewhere(spoilt, laid);
        mirroring(spoilt, laid, around(TM_NODE_POOL));
    }
    printf("known answers, every length, and %lu rounds; calls by answer:", rounds);
    for (int k = 0; k < 20; k++)
        if (answers[k])
            printf(" %d: %" PRIu64, k, answers[k]);
    printf("\nprograms: %" PRIu64 " sound; at first a value outside its mask: %" PRIu64 ", a jump of 0: %" PRIu64 ", an empty branch: %" PRIu64 ", another fault: %" PRIu64,
           verdicts[SOUND], verdicts[VALUE], verdicts[JUMP], verdicts[BRANCH], verdicts[ELSE]);
    printf("\nno fault\n");
    return 0;
}
