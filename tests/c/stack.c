/* How much stack a call takes: it runs on a painted stack of its own, and the deepest changed byte counts, over all recorded
 * plays in one pass and in two, with two paints. On x86-64 the return address is in it, which the call puts there. And that a
 * call leaves the registers as they were that a function of C has to keep (not the stack pointer, which is set back here). */
#include "plays.h"
#include <stdio.h>
#include <string.h>

enum { STACK = 16384, REGISTERS = 20 };

static _Alignas(16) uint8_t stack[STACK];
static uint8_t out[ROOM];

/* What the registers hold before a call, and after it: on x86-64 the first six places, on ARM x19 to x29, a place that stays 0,
 * and d8 to d15. And the caller's stack pointer meanwhile. */
uint64_t kept[REGISTERS], found[REGISTERS], pointer;
static long lost;

int32_t call_on(const uint8_t *records, size_t length, uint8_t *to, size_t room, uint8_t *top);

#ifdef __x86_64__
__asm__(".globl call_on\ncall_on: push %rbp\n push %rbx\n push %r12\n push %r13\n push %r14\n push %r15\n"
        "mov %rsp, pointer(%rip)\n mov %r8, %rsp\n"
        "mov kept(%rip), %rbp\n mov kept+8(%rip), %rbx\n mov kept+16(%rip), %r12\n"
        "mov kept+24(%rip), %r13\n mov kept+32(%rip), %r14\n mov kept+40(%rip), %r15\n"
        "call level_control_play\n"
        "mov %rbp, found(%rip)\n mov %rbx, found+8(%rip)\n mov %r12, found+16(%rip)\n"
        "mov %r13, found+24(%rip)\n mov %r14, found+32(%rip)\n mov %r15, found+40(%rip)\n"
        "mov pointer(%rip), %rsp\n pop %r15\n pop %r14\n pop %r13\n pop %r12\n pop %rbx\n pop %rbp\n ret");
#else
#define EACH_PAIR(move, at, frame) \
    move " x19, x20, [" at "]\n" move " x21, x22, [" at ", #16]\n" move " x23, x24, [" at ", #32]\n" \
    move " x25, x26, [" at ", #48]\n" move " x27, x28, [" at ", #64]\n" move " x29, " frame ", [" at ", #80]\n" \
    move " d8, d9, [" at ", #96]\n" move " d10, d11, [" at ", #112]\n" move " d12, d13, [" at ", #128]\n" \
    move " d14, d15, [" at ", #144]\n"
__asm__(".globl call_on\ncall_on: sub sp, sp, #160\n" EACH_PAIR("stp", "sp", "x30")
        "adrp x9, pointer\n mov x10, sp\n str x10, [x9, :lo12:pointer]\n mov sp, x4\n"
        "adrp x9, kept\n add x9, x9, :lo12:kept\n" EACH_PAIR("ldp", "x9", "x10")
        "bl level_control_play\n"
        "adrp x9, found\n add x9, x9, :lo12:found\n mov x10, #0\n" EACH_PAIR("stp", "x9", "x10")
        "adrp x9, pointer\n ldr x10, [x9, :lo12:pointer]\n mov sp, x10\n"
        EACH_PAIR("ldp", "sp", "x30") "add sp, sp, #160\n ret");
#endif

static void call(const struct play *play, size_t room) {
    for (uint64_t r = 0; r < REGISTERS; r++) kept[r] = found[r] = r == 11 ? 0 : 0x0123456789ABCDEF * (r + 3);
    call_on(play->records, play->length, out, room, stack + STACK);
    lost += memcmp(kept, found, sizeof kept) != 0;
}

/* The changed bytes from the top to the deepest one, after all plays. */
static size_t deepest(uint8_t paint) {
    struct play play;
    size_t at = 0;
    memset(stack, paint, STACK);
    for (const uint8_t *next = _binary_plays_start; next < _binary_plays_end;) {
        next = read_play(next, &play);
        call(&play, ROOM);
        call(&play, play.due > 0 ? (size_t)play.due : 0);
    }
    while (at < STACK && stack[at] == paint) at++;
    return STACK - at;
}

int main(void) {
    size_t once = deepest(0xA5), again = deepest(0x5A);
    if (lost > 0) fprintf(stderr, "stack.c: %ld calls changed a register that a function has to keep\n", lost);
    printf("%zu\n", once > again ? once : again);
    return lost > 0;
}
