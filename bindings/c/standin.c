/* Stands in for the library, to see what a binding makes of answers that the library of its version never gives. Nothing is read or written; the
 * environment's STANDIN says what is answered:
 *
 *     refuses    refusal 255, which no table has
 *     late       the same, but a text compiles to the empty program
 *     raves      no refusal, and all other numbers as high as they get
 *     other      no refusal and all else 0, but the version after the header's
 */
#include <stdlib.h>
#include <string.h>

#include "tokenmarsh.h"

static int is(const char *word)
{
    const char *set = getenv("STANDIN");
    return set != NULL && strcmp(set, word) == 0;
}

/* An answer of any kind: beside a refusal every other field is 0, as the header has it. */
#define ANSWER(type) \
    type r; \
    memset(&r, is("raves") ? 255 : 0, sizeof r); \
    r.refusal = is("refuses") || is("late") ? 255 : 0; \
    return r

uint32_t tm_version(void)
{
    return TM_VERSION + (is("other") ? 256 : 0);
}

tm_read_result tm_read(const uint8_t *text, size_t text_len, uint32_t *pool, size_t pool_len)
{
    (void)text, (void)text_len, (void)pool, (void)pool_len;
    ANSWER(tm_read_result);
}

tm_compile_result tm_compile(const uint8_t *text, size_t text_len, uint64_t *forward, size_t forward_len, uint64_t *reverse, size_t reverse_len)
{
    (void)text, (void)forward, (void)forward_len, (void)reverse, (void)reverse_len;
    if (is("late"))
        return (tm_compile_result){.reached = text_len};
    ANSWER(tm_compile_result);
}

tm_literals_result tm_literals(const uint8_t *text, size_t text_len, uint8_t *bytes, size_t bytes_len, uint16_t *lengths, size_t lengths_len)
{
    (void)text, (void)text_len, (void)bytes, (void)bytes_len, (void)lengths, (void)lengths_len;
    ANSWER(tm_literals_result);
}

tm_check_result tm_forward(const uint64_t *program, size_t program_len, const uint8_t *haystack, size_t haystack_len, size_t start, size_t end)
{
    (void)program, (void)program_len, (void)haystack, (void)haystack_len, (void)start, (void)end;
    ANSWER(tm_check_result);
}

tm_check_result tm_reverse(const uint64_t *program, size_t program_len, const uint8_t *haystack, size_t haystack_len, size_t start, size_t end)
{
    return tm_forward(program, program_len, haystack, haystack_len, start, end);
}

/* Without a refusal, and 0 and 0 after one. */
tm_tail_result tm_tail(const uint64_t *program, size_t program_len, const uint8_t *haystack, size_t haystack_len, size_t start, size_t end)
{
    (void)program, (void)program_len, (void)haystack, (void)haystack_len, (void)start, (void)end;
    return (tm_tail_result){0, 0};
}

tm_mirror_result tm_mirror(const uint64_t *program, size_t program_len, uint64_t *pool, size_t pool_len)
{
    (void)program, (void)program_len, (void)pool, (void)pool_len;
    ANSWER(tm_mirror_result);
}

/* Every program is sound, so that there are some to be checked. */
uint32_t tm_sound(const uint64_t *program, size_t program_len)
{
    (void)program, (void)program_len;
    return 1;
}
