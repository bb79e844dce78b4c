/* How much stack a call takes. It runs on a stack of its own that is painted before: the deepest byte that lost its paint tells how far the
 * call came. Counted are the bytes below the call's return address. */
#define _GNU_SOURCE
#include <stdint.h>
#include <stdio.h>
#include <stdlib.h>
#include <string.h>
#include <ucontext.h>

#include "tokenmarsh.h"

enum { SIZE = 1 << 20, PAINTED = 1 << 18, PAINT = 0xA5 };
enum { FORWARD, REVERSE, MIRROR, SOUND, COMPILE, LITERALS, CALLS };

static uint8_t *stack, haystack[4096], bytes[TM_LITERAL_BYTES];
static uint64_t program[512], pools[2][512];
static uint16_t lengths[256];
static size_t words;
static char text[4096];
static ucontext_t here, there;
static int call;
static uint32_t refusal;

/* The stack pointer as a door is entered, where the return address stands. */
uintptr_t entered;
#define DOOR(name) __asm__(".globl at_" #name "\nat_" #name ":\n mov %rsp, entered(%rip)\n jmp tm_" #name "\n")
DOOR(forward);
DOOR(reverse);
DOOR(mirror);
DOOR(sound);
DOOR(compile);
DOOR(literals);
tm_check_result at_forward(const uint64_t *, size_t, const uint8_t *, size_t, size_t, size_t);
tm_check_result at_reverse(const uint64_t *, size_t, const uint8_t *, size_t, size_t, size_t);
tm_mirror_result at_mirror(const uint64_t *, size_t, uint64_t *, size_t);
uint32_t at_sound(const uint64_t *, size_t);
tm_compile_result at_compile(const uint8_t *, size_t, uint64_t *, size_t, uint64_t *, size_t);
tm_literals_result at_literals(const uint8_t *, size_t, uint8_t *, size_t, uint16_t *, size_t);

static void painted_call(void)
{
    uintptr_t sp;
    __asm__ volatile("mov %%rsp, %0" : "=r"(sp));
    for (volatile uint8_t *p = stack + SIZE - PAINTED; p < (uint8_t *)sp - 8; p++)
        *p = PAINT;
    size_t n = sizeof haystack, length = strlen(text);
    switch (call) {
    case FORWARD: refusal = at_forward(program, words, haystack, n, 0, n).refusal; break;
    case REVERSE: refusal = at_reverse(program, words, haystack, n, 0, n).refusal; break;
    case MIRROR: refusal = at_mirror(program, words, pools[0], 512).refusal; break;
    case SOUND: refusal = at_sound(program, words) ? 0 : 15; break;
    case COMPILE: refusal = at_compile((uint8_t *)text, length, pools[0], 512, pools[1], 512).refusal; break;
    case LITERALS: refusal = at_literals((uint8_t *)text, length, bytes, sizeof bytes, lengths, 256).refusal; break;
    }
}

static size_t taken(int which)
{
    call = which;
    getcontext(&there);
    there.uc_stack.ss_sp = stack;
    there.uc_stack.ss_size = SIZE;
    there.uc_link = &here;
    makecontext(&there, painted_call, 0);
    swapcontext(&here, &there);
    const uint8_t *p = stack + SIZE - PAINTED;
    if (*p != PAINT) {
        fputs("the painted part is too short\n", stderr);
        exit(1);
    }
    while (*p == PAINT)
        p++;
    return entered - (uintptr_t)p;
}

static void put(uint64_t kind, uint64_t first, uint64_t second) { program[words++] = kind | first << 8 | second << 24; }

static void show(const char *name, int from, int to)
{
    printf("| %s |", name);
    for (int which = 0; which < CALLS; which++)
        if (from <= which && which <= to) {
            size_t n = taken(which);
            printf(" %zu%s |", n, refusal ? " (refused)" : "");
        } else
            printf(" |");
    putchar('\n');
    words = 0;
}

int main(void)
{
    stack = aligned_alloc(4096, SIZE);
    puts("| program or text | forward | reverse | mirror | sound | compile | literals |\n|---|---|---|---|---|---|---|");
    show("no words", FORWARD, SOUND);
    for (int i = 0; i < 512; i++)
        put(4, 0, 65535);
    show("512 ranges", FORWARD, SOUND);
    for (int i = 0; i < 2; i++)
        put(4, 0, 1);
    for (int i = 0; i < 170; i++)
        put(6, 2, 0), put(7, 1, 0), put(0, 0, 0);
    show("two ranges and 170 alternations of one byte", FORWARD, SOUND);
    /* Refused since 0.4.0: here for a library from before. */
    for (int i = 0; i < 256; i++)
        put(6, 1, 0), put(7, 0, 0);
    show("256 alternations of one empty branch", FORWARD, SOUND);
    strcpy(text, "{41}");
    show("`{41}`", COMPILE, LITERALS);
    strcpy(text, "{((((((((41))))))))}");
    show("`41` in nine lists, the last one refused", COMPILE, LITERALS);
    strcpy(text, "{");
    for (int i = 0; i < 170; i++)
        strcat(text, "(41|42)");
    strcat(text, "}");
    show("`(41|42)` 170 times", COMPILE, LITERALS);
}
