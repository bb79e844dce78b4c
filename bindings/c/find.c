/* Says where a pattern matches in a file, without a check at every offset:
 *
 *     cc -O2 find.c $(pkg-config --cflags --libs tokenmarsh) -o find && ./find '{ 4D 5A [0-64] 50 45 00 00 }' FILE
 *
 * Every match holds one of the pattern's literals. So the file is searched for these, and checked only at the offsets from which a match can reach to
 * one. The answer is each offset from which tm_forward finds an end, and that end.
 */
#include <errno.h>
#include <stdio.h>
#include <stdlib.h>
#include <string.h>

#include "tokenmarsh.h"

static uint64_t forward[TM_NODE_POOL], reverse[TM_NODE_POOL];
static uint8_t literal_bytes[TM_LITERAL_BYTES];
static uint16_t lengths[TM_LITERALS];

/* The literals by their first byte: where each stands in literal_bytes, and the number, counted from 1, of the next one with the same first byte. */
static size_t places[TM_LITERALS];
static size_t next[TM_LITERALS], first[256];

/* The bytes of the longest match of so many node words. */
static size_t longest(const uint64_t *words, size_t count)
{
    size_t sum = 0;

    for (size_t i = 0; i < count;) {
        size_t kind = words[i] & 255, a = words[i] >> 8 & 65535, b = words[i] >> 24 & 65535;
        i++;
        if (kind == 6) {
            size_t most = 0, end = i + a;
            while (i < end) {
                size_t nodes = words[i] >> 8 & 65535, one = longest(words + i + 1, nodes);
                most = one > most ? one : most;
                i += 1 + nodes;
            }
            sum += most;
        } else {
            sum += kind == 3 ? a : kind == 4 ? b : 1;
        }
    }
    return sum;
}

/* Whether one of the literals begins here. */
static int literal(const uint8_t *here, size_t left)
{
    for (size_t k = first[*here]; k != 0; k = next[k - 1])
        if (lengths[k - 1] <= left && memcmp(here, literal_bytes + places[k - 1], lengths[k - 1]) == 0)
            return 1;
    return 0;
}

/* All of a file, or NULL: a scanner that stops short of a file's end misses what stands there. */
static uint8_t *whole(const char *name, size_t *n)
{
    uint8_t *bytes = NULL;
    size_t room = 0;
    FILE *file = fopen(name, "rb");

    for (*n = 0; file != NULL && !feof(file) && !ferror(file);) {
        if (*n == room) {
            uint8_t *more = realloc(bytes, room = 2 * room + 65536);
            if (more == NULL)
                break;
            bytes = more;
        }
        *n += fread(bytes + *n, 1, room - *n, file);
    }
    if (file == NULL || !feof(file) || ferror(file)) {
        free(bytes);
        bytes = NULL;
    }
    if (file != NULL)
        fclose(file);
    return bytes;
}

/* A line for each match, all of them written: 0, or -1 and errno says why. */
static int search(size_t nodes, int by_literals, size_t reach, const uint8_t *bytes, size_t n)
{
    size_t checked = 0;

    for (size_t at = 0; at < n; at++) {
        if (by_literals && !literal(bytes + at, n - at))
            continue;
        size_t start = at > reach ? at - reach : 0;
        for (start = start > checked ? start : checked; start <= at; start++) {
            tm_check_result r = tm_forward(forward, nodes, bytes, n, start, n);
            /* No miss: with these words and this window another library alone refuses. */
            if (r.refusal != 0) {
                fprintf(stderr, "a check was refused by %u\n", r.refusal);
                exit(1);
            }
            if (r.found && printf("%zu %llu\n", start, (unsigned long long)r.offset) < 0)
                return -1;
        }
        checked = at + 1;
    }
    return fclose(stdout) == 0 ? 0 : -1;
}

/* The status for matches that are lost; a reader that goes away has had enough, and is told nothing. */
static int lost(void)
{
    if (errno == EPIPE)
        return 141;
    perror("standard output cannot be written");
    return 1;
}

int main(int argc, char **argv)
{
    if (argc != 3) {
        fprintf(stderr, "usage: find PATTERN FILE\n");
        return 2;
    }
    if (tm_version() != TM_VERSION) {
        fprintf(stderr, "libtokenmarsh is of another version than tokenmarsh.h\n");
        return 1;
    }
    const uint8_t *text = (const uint8_t *)argv[1];
    tm_compile_result c = tm_compile(text, strlen(argv[1]), forward, TM_NODE_POOL, reverse, TM_NODE_POOL);
    /* Only 2 to 11 have a place. */
    if (c.refusal >= 2 && c.refusal <= 11)
        fprintf(stderr, "refused %u at %llu\n", c.refusal, (unsigned long long)c.place);
    else if (c.refusal != 0)
        fprintf(stderr, "refused %u\n", c.refusal);
    else if (c.reached != strlen(argv[1]))
        fprintf(stderr, "text after the closing brace at %llu\n", (unsigned long long)c.reached);
    if (c.refusal != 0 || c.reached != strlen(argv[1]))
        return 1;
    size_t n;
    uint8_t *bytes = whole(argv[2], &n);
    if (bytes == NULL) {
        perror(argv[2]);
        return 1;
    }
    /* What compiles is refused here by 17 or 19 alone. Then, as where none are picked, it is checked at every offset. */
    tm_literals_result l = tm_literals(text, strlen(argv[1]), literal_bytes, TM_LITERAL_BYTES, lengths, TM_LITERALS);
    size_t shortest = TM_LITERAL_BYTES, place = 0;
    for (size_t k = 0; k < l.count; place += lengths[k++]) {
        places[k] = place;
        next[k] = first[literal_bytes[place]];
        first[literal_bytes[place]] = k + 1;
        shortest = lengths[k] < shortest ? lengths[k] : shortest;
    }
    /* A match that holds a literal starts at most so far before it. */
    size_t reach = l.count ? longest(forward, c.forward) - shortest : 0;
    int status = search(c.forward, l.count != 0, reach, bytes, n) == 0 ? 0 : lost();
    free(bytes);
    return status;
}
