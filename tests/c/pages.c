/* Every recorded play through the archive, its records where no byte can be written, and both slices against pages that can
 * be neither read nor written: each slice ends right before one, and begins right after one. No byte of the output past the
 * sheet may change, and none at all in a refused call. NULL stands for each slice of length 0. */
#define _DEFAULT_SOURCE
#include "plays.h"
#include <stdio.h>
#include <stdlib.h>
#include <string.h>
#include <sys/mman.h>

enum { PAGE = 4096, RECORD_PAGES = 2 * PAGE, OUT_PAGES = 12 * PAGE, CANARY = 512 };

static uint8_t *records, *out, wanted[OUT_PAGES];
static long calls;

static void fail(const char *what, long play) {
    printf("pages.c: %s, play %ld\n", what, play);
    exit(1);
}

/* Pages with one before and one behind them that cannot be touched. */
static uint8_t *pages(size_t bytes) {
    uint8_t *all = mmap(NULL, bytes + 2 * PAGE, PROT_NONE, MAP_PRIVATE | MAP_ANONYMOUS, -1, 0);
    if (all == MAP_FAILED || mprotect(all + PAGE, bytes, PROT_READ | PROT_WRITE) != 0) fail("no pages", 0);
    return all + PAGE;
}

/* One call, with the output and what lies beside it filled with a byte before. */
static void call(const struct play *play, const uint8_t *from, int at_end, size_t room, int fill, long number) {
    size_t seen = room + CANARY < OUT_PAGES ? room + CANARY : OUT_PAGES, before = at_end ? seen - room : 0;
    uint8_t *beside = at_end ? out + OUT_PAGES - seen : out;
    int32_t due = play->due >= 0 && room < (size_t)play->due ? -16 : play->due;
    memset(beside, fill, seen);
    memset(wanted, fill, seen);
    if (due > 0) memcpy(wanted + before, play->sheet, (size_t)due);
    int32_t n = level_control_play(from, play->length, beside + before, room);
    if (n != due) fail("another number is returned", number);
    if (memcmp(beside, wanted, seen) != 0) fail("the output is not keysheet's sheet with all beside it as it was", number);
    calls++;
}

static void null_for_nothing(void) {
    static const uint8_t settings[RECORD] = {0x4C, 0x47, 1, 254, 0, 0, 50, 10, 0, 0, 0, 1};
    static const uint8_t play[2 * RECORD] = {0x4C, 0x47, 1, 254, 0, 0, 50, 10, 0, 0, 0, 1};
    uint8_t room[ROOM];
    if (level_control_play(NULL, 0, room, sizeof room) != -1) fail("no records are not refused with 1", 0);
    if (level_control_play(NULL, 0, NULL, 0) != -1) fail("nothing at all is not refused with 1", 0);
    if (level_control_play(settings, RECORD, NULL, 0) != 0) fail("settings alone want room", 0);
    if (level_control_play(play, 2 * RECORD, NULL, 0) != -16) fail("an event without room is not refused with 16", 0);
}

/* Lengths that 32 bits do not hold. Of so many bytes none but the first are touched. */
static void long_slices(void) {
    size_t more = (size_t)1 << 32;
    uint8_t *all = mmap(NULL, more + PAGE, PROT_READ | PROT_WRITE, MAP_PRIVATE | MAP_ANONYMOUS | MAP_NORESERVE, -1, 0);
    if (all == MAP_FAILED) fail("no long slice", 0);
    struct play play;
    read_play(_binary_plays_start, &play);
    memcpy(all, play.records, play.length);
    if (level_control_play(all, more + play.length, out, ROOM) != -1) fail("a length above 2^32 is not refused with 1", 0);
    if (level_control_play(play.records, play.length, all, more) != play.due) fail("room above 2^32 gives another number", 0);
    if (memcmp(all, play.sheet, (size_t)play.due) != 0) fail("room above 2^32 gives another sheet", 0);
    munmap(all, more + PAGE);
}

int main(void) {
    struct play play;
    long number = 0;
    records = pages(RECORD_PAGES);
    out = pages(OUT_PAGES);
    null_for_nothing();
    long_slices();
    for (const uint8_t *next = _binary_plays_start; next < _binary_plays_end; number++) {
        next = read_play(next, &play);
        size_t lines = play.length / RECORD > 0 ? play.length / RECORD - 1 : 0;
        size_t text = play.due > 0 ? (size_t)play.due : 0;
        /* one pass; two passes; the text alone; a byte less; nothing */
        size_t rooms[] = {LINE * lines, LINE * lines - (lines > 0), text, text - (text > 0), 0};
        for (int end = 0; end < 4; end++) {
            uint8_t *from = end & 1 ? records + RECORD_PAGES - play.length : records;
            memcpy(from, play.records, play.length);
            if (mprotect(records, RECORD_PAGES, PROT_READ) != 0) fail("no pages", number);
            for (int r = 0; r < 5; r++) {
                size_t room = rooms[r] < ROOM ? rooms[r] : ROOM;
                call(&play, from, end & 2, room, 0xA5, number);
                call(&play, from, end & 2, room, 0x5A, number);
            }
            if (mprotect(records, RECORD_PAGES, PROT_READ | PROT_WRITE) != 0) fail("no pages", number);
        }
    }
    if (number < 1000) fail("too few plays", number);
    printf("pages.c: ok, %ld plays, %ld calls\n", number, calls);
    return 0;
}
