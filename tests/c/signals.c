/* A timer's signals interrupt the recorded plays, and each handler plays one too. All sheets must be keysheet's. It ends when
 * enough calls were interrupted, and fails where that takes too long: then it has shown nothing. */
#define _DEFAULT_SOURCE
#include "plays.h"
#include <signal.h>
#include <stdio.h>
#include <string.h>
#include <sys/time.h>
#include <time.h>

enum { ENOUGH = 1000, SECONDS = 60 };

static volatile sig_atomic_t in_call, interrupted, wrong;

static int right(const struct play *play, uint8_t *out) {
    int32_t n = level_control_play(play->records, play->length, out, ROOM);
    return n == play->due && (n <= 0 || memcmp(out, play->sheet, (size_t)n) == 0);
}

static void handle(int signal) {
    static uint8_t out[ROOM];
    static const uint8_t *next = _binary_plays_start;
    struct play play;
    (void)signal;
    if (!in_call) return;
    if (next == _binary_plays_end) next = _binary_plays_start;
    next = read_play(next, &play);
    if (!right(&play, out)) wrong++;
    interrupted++;
}

int main(void) {
    static uint8_t out[ROOM];
    struct sigaction action = {.sa_handler = handle};
    struct itimerval often = {{0, 100}, {0, 100}};
    struct play play;
    long plays = 0;
    time_t begin = time(NULL);
    sigaction(SIGALRM, &action, NULL);
    setitimer(ITIMER_REAL, &often, NULL);
    while (interrupted < ENOUGH && time(NULL) - begin < SECONDS) {
        for (const uint8_t *next = _binary_plays_start; next < _binary_plays_end; plays++) {
            next = read_play(next, &play);
            in_call = 1;
            int32_t n = level_control_play(play.records, play.length, out, ROOM);
            in_call = 0;
            if (n != play.due || (n > 0 && memcmp(out, play.sheet, (size_t)n) != 0)) wrong++;
        }
    }
    setitimer(ITIMER_REAL, &(struct itimerval){{0, 0}, {0, 0}}, NULL);
    int shown = interrupted >= ENOUGH;
    if (wrong > 0) printf("signals.c: %d wrong sheets\n", (int)wrong);
    else if (!shown) printf("signals.c: only %d calls were interrupted\n", (int)interrupted);
    else printf("signals.c: ok, %d of %ld calls interrupted by another\n", (int)interrupted, plays);
    return wrong > 0 || !shown;
}
