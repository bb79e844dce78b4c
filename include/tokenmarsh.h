/* Tokenmarsh: byte patterns, which are YARA's hexadecimal strings such as { 61 [0-2] 63 }, read, compiled, searched and picked from by proved
 * code.
 *
 * Every function takes any bytes, words and numbers at all and ends with an answer or with a refusal. A text ends by its length and not by a
 * zero. A buffer is a pointer and a count of its elements: the pointer is good for as many and aligned as its type asks, and may be null only
 * where the count is 0. A buffer that is written must not overlap another one that is lent to the same call; buffers that are only read
 * may. Nothing is kept after a call, nothing is allocated, and calls from several threads do not disturb each other, as long as none writes what
 * another uses. A call was seen to take up to 73,872 bytes of stack, built by an older toolchain. A check tries the lengths of a range one after another, so that ranges
 * multiply its time: four of [0-255], or two of [0-65535], may take it many seconds. The other functions take microseconds, tm_literals up to some milliseconds.
 *
 * refusal is 0 if there is none, else one of the numbers below. place is then the offset in the text that is given beside it, and 0 for 12 to
 * 19 and where there is no refusal. Every other field of a refusal is 0.
 *
 *    1  text above 4,096 bytes                                           0
 *    2  something needed isn't there                                     what stands instead, or the text's length; of an
 *                                                                        empty list after a | that |
 *    3  number above 4,294,967,295                                       its first digit
 *    4  an empty jump: [0], [0-0], [-0]                                  the [
 *    5  a jump whose from is above its to                                the [
 *    6  a list begins with a jump, or has two or more tokens and ends
 *       with one ([1] and [1-1] are ?? and no jumps)                     the list's first byte
 *    7  unbounded jump in alternatives                                   the [
 *    8  jump above 200 in alternatives                                   the [
 *    9  ~??, which fits no byte                                          the ~
 *   10  a ninth list level; the outer list is the first                  where the list would begin
 *   11  a 513th token                                                    its first byte
 *   12  not simple: a jump unbounded or above 65,535; in a branch, a range or nested alternatives
 *   13  more than 512 nodes
 *   14  a branch above 255 nodes
 *   15  unsound program; tm_sound says which are sound
 *   16  window start above its end, or end above the haystack's length
 *   17  a candidate with more than 256 literals
 *   18  a lent buffer is too short
 *   19  alternatives not plain: one of their lists holds more than AB, ?X, X? and their negations (tm_literals only)
 */
#ifndef TOKENMARSH_H
#define TOKENMARSH_H

#include <stddef.h>
#include <stdint.h>

#ifdef __cplusplus
extern "C" {
#endif

/* The version that this header describes, and in one number. The structs, the words of pools and what is refused change between versions. */
#define TM_VERSION_MAJOR 0
#define TM_VERSION_MINOR 4
#define TM_VERSION_PATCH 0
#define TM_VERSION (TM_VERSION_MAJOR * 65536u + TM_VERSION_MINOR * 256u + TM_VERSION_PATCH)

/* The version of the library. A program that was compiled with one header and is linked or loaded with a library for which
 * tm_version() != TM_VERSION must not go on: it might misread the structs that the other functions answer, lend them pools of other words, or get other refusals. */
uint32_t tm_version(void);

/* The longest text, and the words that each kind of pool must have: of 32 bits for tokens, of 64 for nodes. */
#define TM_TEXT_LIMIT 4096
#define TM_TOKEN_POOL 4096
#define TM_NODE_POOL 512

/* The most literals that are picked, and bytes that have room for them: 256 literals of 512 bytes. */
#define TM_LITERALS 256
#define TM_LITERAL_BYTES 131072

typedef struct {
    uint32_t refusal;
    uint64_t place;
    uint64_t reached; /* the offset after the closing brace and its blanks */
    uint64_t words;   /* how many words of the pool are used */
} tm_read_result;

/* Reads a hexadecimal string into token entries of four words: a kind and three values, of which those not named are 0.
 *    0  AB            its value                       3  ~?X, ~X?       as 2
 *    1  ~AB           its value                       4  [from-to]      from, to or 0, 1 if there is a to
 *    2  ?X, X?, ??    the digit X, or 0 for ??;       5  (..|..)        how many lists, how many entries in it follow
 *                     0 for ?X, 1 for X?, 2 for ??    6  list mark      how many direct tokens, how many entries in it follow
 * [n] is [n-n], and a missing from is 0; [1] and [1-1] are entered as ??. A list mark begins each list within alternatives, and is no token; the
 * outer list has none.
 * Anything after the closing brace and its blanks is ignored: it begins at `reached`, which is text_len if nothing follows.
 * Refused: 18 if pool_len is below 4,096, and then nothing changes; else 1 to 11, and then the first 4,096 words are 0.
 * Success: the used words, 0 in the rest of the first 4,096. Words beyond those stay. */
tm_read_result tm_read(const uint8_t *text, size_t text_len, uint32_t *pool, size_t pool_len);

typedef struct {
    uint32_t refusal;
    uint64_t place;
    uint64_t reached; /* the offset after the closing brace and its blanks */
    uint64_t forward; /* how many words each program has */
    uint64_t reverse;
} tm_compile_result;

/* Compiles a hexadecimal string into its forward and its reverse program: the one for tm_forward and tm_tail, the other for tm_reverse.
 * A program is at most 512 node words. A word is kind + 2^8 * first + 2^24 * second, where first and second are below 2^16, and 0 if not named:
 *    0  byte           first: its value              4  range          first: the fewest, second: the most of any bytes
 *    1  mask           first: value, second: mask    5  dot            any byte but 0A
 *    2  not a mask     first: value, second: mask    6  alternation    first: so many words its branches take
 *    3  jump           first: so many of any bytes   7  branch         first: so many words its nodes take
 * A mask fits the bytes whose bits under the mask equal the value, its negation all others.
 * A check takes any sound program: with that of the other direction it refuses nothing, and finds what the pattern does not match or misses what it does.
 * Anything after the closing brace and its blanks is ignored: it begins at `reached`, which is text_len if nothing follows.
 * Refused: 18 if either pool is below 512 words, and then nothing changes; else 1 to 11, 12, 14, 13, and then the first 512 words of
 * both pools are 0. Success: the used words, 0 in the rest of the first 512. Words beyond those stay. */
tm_compile_result tm_compile(const uint8_t *text, size_t text_len, uint64_t *forward, size_t forward_len, uint64_t *reverse, size_t reverse_len);

typedef struct {
    uint32_t refusal;
    uint32_t rank; /* how good the literals are for a search, 0 to 80 */
    uint64_t place;
    uint64_t reached; /* the offset after the closing brace and its blanks */
    uint64_t count;   /* how many literals; none may be picked, and then the rank is 0 */
} tm_literals_result;

/* Picks the literals to search for: if there are any, every match of the pattern holds one of them. `bytes` gets their bytes, one literal after
 * another, and `lengths` the length of each.
 * Anything after the closing brace and its blanks is ignored: it begins at `reached`, which is text_len if nothing follows.
 * Refused: 1 to 11; then 19, 17; then 18 if either buffer is too short for all of them; and then nothing is written to either.
 * Success: the first `count` lengths, and as many bytes as they sum up to, are written. The rest of both buffers stays. */
tm_literals_result tm_literals(const uint8_t *text, size_t text_len, uint8_t *bytes, size_t bytes_len, uint16_t *lengths, size_t lengths_len);

typedef struct {
    uint32_t refusal;
    uint32_t found;  /* 1 if there is a match, else 0 */
    uint64_t offset; /* where it ends (tm_forward) or starts (tm_reverse), counted from the haystack's first byte; 0 if there is none */
} tm_check_result;

/* Whether a program fits the window of the haystack, the bytes from `start` to before `end`, from its first byte on: the end of the first
 * choice that does, branches being tried from first to last and short ranges before long ones.
 * Refused: 16, then 13, 15. Bytes outside the window are not looked at. */
tm_check_result tm_forward(const uint64_t *program, size_t program_len, const uint8_t *haystack, size_t haystack_len, size_t start, size_t end);

/* Whether a reverse program fits the window's tail, up to `end`: the start of the first choice that does, branches being tried from first to
 * last and long ranges before short ones. Refused: 16, then 13, 15. Bytes outside the window are not looked at. */
tm_check_result tm_reverse(const uint64_t *program, size_t program_len, const uint8_t *haystack, size_t haystack_len, size_t start, size_t end);

typedef struct {
    uint64_t offset;
    uint64_t length;
} tm_tail_result;

/* What tm_forward leaves of the window, as a part of the haystack; offset and length are 0 after no match and after a refusal, which tm_forward
 * tells apart, also from a match in an empty window at 0. */
tm_tail_result tm_tail(const uint64_t *program, size_t program_len, const uint8_t *haystack, size_t haystack_len, size_t start, size_t end);

typedef struct {
    uint32_t refusal;
    uint64_t words; /* how many words the mirror has */
} tm_mirror_result;

/* The mirror of a program: its items and each branch's contents reversed, the branches of an alternation in their order.
 * Refused: 18 if pool_len is below 512, and then nothing changes; else 13, 15, and then the first 512 words are 0.
 * Success: the used words, 0 in the rest of the first 512. Words beyond those stay. */
tm_mirror_result tm_mirror(const uint64_t *program, size_t program_len, uint64_t *pool, size_t pool_len);

/* 1 if the words are a sound program, else 0. Sound are at most 512 words of the kinds that tm_compile names, each below 2^40 and with 0 where
 * nothing is named; values and masks are bytes; the value of a mask, or of its negation, has no bit that the mask lacks; a jump is of 1 or more; a
 * range has its fewest at most its most; an alternation is filled exactly by one or more branches, which stand nowhere else; a branch holds 1 to
 * 255 words, only of the kinds 0, 1, 2, 3 and 5. So a program of no words is sound, and so are a range from 0 to 0, a mask of 0 with value 0, which fits
 * every byte, and its negation, which fits none. What tm_compile writes is sound, and so is the mirror of a sound program. */
uint32_t tm_sound(const uint64_t *program, size_t program_len);

#ifdef __cplusplus
}
#endif

#endif
