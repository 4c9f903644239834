/* Wrong archives, by which tests/archive tries itself: the call of the right one, which is named right_play here, with the
 * one thing wrong that FAULT names. */
#include "plays.h"
#include <stdlib.h>
#include <string.h>

enum fault {
    NOTHING, ANOTHER_SHEET, ANOTHER_NUMBER, CHANGES_BEHIND_THE_SHEET, CHANGES_WHERE_REFUSED, WRITES_BEHIND, READS_BEFORE,
    READS_BEHIND, WRITES_RECORDS, READS_NOTHING, ONE_AT_A_TIME, KEEPS_BYTES, MORE_STACK, ON_THE_HEAP, NEEDS_SSE4,
    BELOW_THE_STACK, CALLS_THE_SYSTEM, CUTS_LENGTHS, LOSES_REGISTERS
};

int32_t right_play(const uint8_t *records, size_t records_length, uint8_t *out, size_t out_length);

static int32_t with_more_stack(const uint8_t *records, size_t length, uint8_t *out, size_t room) {
    volatile uint8_t more[16] = {0};
    return right_play(records, length, out, room) + more[0];
}

static int32_t one_at_a_time(const uint8_t *records, size_t length, uint8_t *out, size_t room) {
    static volatile int busy;
    if (busy) return -1;
    busy = 1;
    int32_t n = right_play(records, length, out, room);
    busy = 0;
    return n;
}

static int32_t by_kept_bytes(const uint8_t *records, size_t length, uint8_t *out, size_t room) {
    static uint8_t kept[ROOM];
    int32_t n = right_play(records, length, kept, room < ROOM ? room : ROOM);
    if (n > 0) memcpy(out, kept, (size_t)n);
    return n;
}

static int32_t by_the_heap(const uint8_t *records, size_t length, uint8_t *out, size_t room) {
    uint8_t *held = malloc(ROOM);
    int32_t n = right_play(records, length, held, room < ROOM ? room : ROOM);
    if (n > 0) memcpy(out, held, (size_t)n);
    free(held);
    return n;
}

int32_t level_control_play(const uint8_t *records, size_t length, uint8_t *out, size_t room) {
    volatile uint8_t *from = (volatile uint8_t *)records, *to = out;
    if (FAULT == NOTHING) return right_play(records, length, out, room);
    if (FAULT == MORE_STACK) return with_more_stack(records, length, out, room);
    if (FAULT == ONE_AT_A_TIME) return one_at_a_time(records, length, out, room);
    if (FAULT == KEEPS_BYTES) return by_kept_bytes(records, length, out, room);
    if (FAULT == ON_THE_HEAP) return by_the_heap(records, length, out, room);
    if (FAULT == WRITES_BEHIND) to[room] = to[room];
    if (FAULT == READS_BEFORE && length > 0) (void)from[-1];
    if (FAULT == READS_BEHIND && length > 0) (void)from[length];
    if (FAULT == WRITES_RECORDS && length > 0) from[0] = from[0];
    if (FAULT == READS_NOTHING && length == 0) (void)from[0];
    if (FAULT == CUTS_LENGTHS) length = (uint32_t)length, room = (uint32_t)room;
#ifdef __x86_64__
    if (FAULT == NEEDS_SSE4) __asm__ volatile("pinsrb $3, %%eax, %%xmm0" ::: "xmm0");
    if (FAULT == BELOW_THE_STACK) __asm__ volatile("movb -64(%%rsp, %%rax), %%al" ::: "rax");
    if (FAULT == CALLS_THE_SYSTEM) __asm__ volatile("mov $39, %%eax\n syscall" ::: "rax", "rcx", "r11", "memory");
    if (FAULT == LOSES_REGISTERS) __asm__ volatile("not %r13"); /* the compiler does not know */
#else
    if (FAULT == BELOW_THE_STACK) __asm__ volatile("ldurb w9, [sp, #-64]" ::: "x9");
    if (FAULT == CALLS_THE_SYSTEM) __asm__ volatile("mov x8, #172\n svc #0" ::: "x0", "x8", "memory");
    if (FAULT == LOSES_REGISTERS) __asm__ volatile("fmov d9, xzr");
#endif
    int32_t n = right_play(records, length, out, room);
    if (FAULT == ANOTHER_SHEET && n > 1000) to[1000] ^= 1;
    if (FAULT == ANOTHER_NUMBER && n == -16) n = -1;
    if (FAULT == CHANGES_BEHIND_THE_SHEET && n >= 0 && (size_t)n < room) to[n] ^= 1;
    if (FAULT == CHANGES_WHERE_REFUSED && n < 0 && room > 0) to[room - 1] ^= 1;
    return n;
}
