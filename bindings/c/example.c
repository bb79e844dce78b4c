/* Compiles a pattern and says where it matches in standard input:
 *
 *     cc example.c $(pkg-config --cflags --libs tokenmarsh) -o example && ./example '{ 61 [0-2] 63 }' < FILE
 */
#include <errno.h>
#include <stdio.h>
#include <stdlib.h>
#include <string.h>

#include "tokenmarsh.h"

/* All of standard input, or NULL: a scanner that stops short of a file's end misses what stands there. */
static uint8_t *whole(size_t *n)
{
    uint8_t *bytes = NULL;
    size_t room = 0;

    for (*n = 0; !feof(stdin);) {
        if (*n == room) {
            uint8_t *more = realloc(bytes, room = 2 * room + 65536);
            if (more == NULL)
                return free(bytes), NULL;
            bytes = more;
        }
        *n += fread(bytes + *n, 1, room - *n, stdin);
        if (ferror(stdin))
            return free(bytes), NULL;
    }
    return bytes;
}

/* A line for each match, all of them written: 0, or -1 and errno says why. A check that is refused is no miss; with sound words and a window inside
 * the bytes it is refused by another library alone. */
static int list(const uint64_t *forward, size_t nodes, const uint8_t *bytes, size_t n)
{
    for (size_t start = 0; start < n; start++) {
        tm_check_result r = tm_forward(forward, nodes, bytes, n, start, n);
        if (r.refusal != 0) {
            fprintf(stderr, "a check was refused by %u\n", r.refusal);
            exit(1);
        }
        if (r.found && printf("%zu %llu\n", start, (unsigned long long)r.offset) < 0)
            return -1;
    }
    /* What is still in the buffer is lost only now, and some devices tell of a loss only at the end. */
    return fclose(stdout) == 0 ? 0 : -1;
}

/* The status for matches that are lost. A reader that goes away has had enough, and is told nothing: there the signal SIGPIPE ends a program,
 * of which a shell says 141; where that signal is ignored, the same is said here. */
static int lost(void)
{
    if (errno == EPIPE)
        return 141;
    perror("standard output cannot be written");
    return 1;
}

int main(int argc, char **argv)
{
    static uint64_t forward[TM_NODE_POOL], reverse[TM_NODE_POOL];

    if (argc != 2) {
        fprintf(stderr, "usage: example PATTERN < FILE\n");
        return 2;
    }
    uint32_t version = tm_version();
    if (version != TM_VERSION) {
        fprintf(stderr, "libtokenmarsh is of version %u.%u.%u, and tokenmarsh.h of %u.%u.%u\n", version >> 16, version >> 8 & 255, version & 255,
                TM_VERSION_MAJOR, TM_VERSION_MINOR, TM_VERSION_PATCH);
        return 1;
    }
    tm_compile_result c = tm_compile((const uint8_t *)argv[1], strlen(argv[1]), forward, TM_NODE_POOL, reverse, TM_NODE_POOL);
    if (c.refusal != 0) {
        /* The others have no place. */
        if (c.refusal >= 2 && c.refusal <= 11)
            fprintf(stderr, "refused %u at %llu\n", c.refusal, (unsigned long long)c.place);
        else
            fprintf(stderr, "refused %u\n", c.refusal);
        return 1;
    }
    /* Else what follows would be ignored. */
    if (c.reached != strlen(argv[1])) {
        fprintf(stderr, "text after the closing brace at %llu\n", (unsigned long long)c.reached);
        return 1;
    }
    size_t n;
    uint8_t *bytes = whole(&n);
    if (bytes == NULL) {
        fprintf(stderr, "standard input cannot be read\n");
        return 1;
    }
    int status = list(forward, c.forward, bytes, n) == 0 ? 0 : lost();
    free(bytes);
    return status;
}
