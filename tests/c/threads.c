/* Eight threads play the recorded plays at once, each from another one on, and each sheet must be keysheet's. It fails where
 * too few calls began in one thread within a call of another: then it has shown nothing. */
#define _POSIX_C_SOURCE 200809L
#include "plays.h"
#include <pthread.h>
#include <stdatomic.h>
#include <stdio.h>
#include <string.h>

enum { THREADS = 8, TIMES = 5, ENOUGH = 1000 };

static pthread_barrier_t all_there;
static atomic_long in_call, at_once;

/* Gives the number of wrong sheets, as a pointer. */
static void *play_all(void *first) {
    uint8_t out[ROOM];
    struct play play;
    const uint8_t *next = _binary_plays_start;
    size_t wrong = 0;
    for (size_t skip = 150 * (size_t)first; skip > 0; skip--) next = read_play(next, &play);
    const uint8_t *begin = next;
    pthread_barrier_wait(&all_there);
    for (int times = 0; times < TIMES;) {
        next = read_play(next, &play);
        at_once += in_call++ > 0;
        int32_t n = level_control_play(play.records, play.length, out, sizeof out);
        in_call--;
        wrong += n != play.due || (n > 0 && memcmp(out, play.sheet, (size_t)n) != 0);
        if (next == _binary_plays_end) next = _binary_plays_start;
        times += next == begin;
    }
    return (void *)wrong;
}

int main(void) {
    pthread_t threads[THREADS];
    size_t wrong = 0;
    pthread_barrier_init(&all_there, NULL, THREADS);
    for (size_t t = 0; t < THREADS; t++)
        if (pthread_create(&threads[t], NULL, play_all, (void *)t) != 0) return 2;
    for (int t = 0; t < THREADS; t++) {
        void *of_thread;
        pthread_join(threads[t], &of_thread);
        wrong += (size_t)of_thread;
    }
    int shown = at_once >= ENOUGH;
    if (wrong > 0) printf("threads.c: %zu wrong sheets\n", wrong);
    else if (!shown) printf("threads.c: only %ld calls began within another\n", (long)at_once);
    else printf("threads.c: ok, %d threads, %ld calls began within another\n", THREADS, (long)at_once);
    return wrong > 0 || !shown;
}
