/* A program with no C library and no function of its own for the archive: its own start, and every recorded play through the
 * archive, in one pass and in two. Its exit status is 0 where each sheet is keysheet's. */
#include "plays.h"

#ifdef __x86_64__
__asm__(".globl _start\n_start: and $-16, %rsp\n call run\n mov %eax, %edi\n mov $60, %eax\n syscall");
#else
__asm__(".globl _start\n_start: bl run\n mov x8, #93\n svc #0");
#endif

static uint8_t out[ROOM];

static int right(const struct play *play, size_t room) {
    int32_t n = level_control_play(play->records, play->length, out, room);
    if (n != play->due) return 0;
    for (int32_t i = 0; i < n; i++)
        if (out[i] != play->sheet[i]) return 0;
    return 1;
}

int run(void);

int run(void) {
    struct play play;
    for (const uint8_t *at = _binary_plays_start; at < _binary_plays_end;) {
        at = read_play(at, &play);
        if (!right(&play, ROOM) || !right(&play, play.due < 0 ? 0 : (size_t)play.due)) return 1;
    }
    return 0;
}
