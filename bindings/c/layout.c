/* Where each field of an answer stands. Asserted, so that the header's layout changes only where these numbers do; and printed as a table, to which
 * the tests in Rust and Python hold their own declarations: a line for each struct and its size, then its fields, each with its offset and size.
 * That no field of the header is left out is for bindings/order to say.
 */
#include <stdio.h>

#include "tokenmarsh.h"

#define LAYOUT \
    STRUCT(tm_read_result, 32) \
    FIELD(tm_read_result, refusal, 0, 4) \
    FIELD(tm_read_result, place, 8, 8) \
    FIELD(tm_read_result, reached, 16, 8) \
    FIELD(tm_read_result, words, 24, 8) \
    STRUCT(tm_compile_result, 40) \
    FIELD(tm_compile_result, refusal, 0, 4) \
    FIELD(tm_compile_result, place, 8, 8) \
    FIELD(tm_compile_result, reached, 16, 8) \
    FIELD(tm_compile_result, forward, 24, 8) \
    FIELD(tm_compile_result, reverse, 32, 8) \
    STRUCT(tm_literals_result, 32) \
    FIELD(tm_literals_result, refusal, 0, 4) \
    FIELD(tm_literals_result, rank, 4, 4) \
    FIELD(tm_literals_result, place, 8, 8) \
    FIELD(tm_literals_result, reached, 16, 8) \
    FIELD(tm_literals_result, count, 24, 8) \
    STRUCT(tm_check_result, 16) \
    FIELD(tm_check_result, refusal, 0, 4) \
    FIELD(tm_check_result, found, 4, 4) \
    FIELD(tm_check_result, offset, 8, 8) \
    STRUCT(tm_tail_result, 16) \
    FIELD(tm_tail_result, offset, 0, 8) \
    FIELD(tm_tail_result, length, 8, 8) \
    STRUCT(tm_mirror_result, 16) \
    FIELD(tm_mirror_result, refusal, 0, 4) \
    FIELD(tm_mirror_result, words, 8, 8)

#define STRUCT(type, size) _Static_assert(sizeof(type) == size, "the size of " #type);
#define FIELD(type, field, offset, size) \
    _Static_assert(offsetof(type, field) == offset && sizeof(((type *)0)->field) == size, "the place of " #field " in " #type);
LAYOUT
#undef STRUCT
#undef FIELD

int main(void)
{
#define STRUCT(type, size) printf(#type " %zu\n", sizeof(type));
#define FIELD(type, field, offset, size) printf(#type " " #field " %zu %zu\n", offsetof(type, field), sizeof(((type *)0)->field));
    LAYOUT
    return 0;
}
