/* Calls the archive from C, and tries what a caller may get wrong. It is told on the command line how many random damaged
 * plays to try, and ends with a line `play.c: ok`, or with the first thing that is not as the header says. */
#include "../include/level_control.h"
#include <inttypes.h>
#include <stdio.h>
#include <stdlib.h>
#include <string.h>

enum { RECORD = 20, MOST = 5120, ROOM = 48195, CANARY = 64 };

static uint8_t records[258 * RECORD], out[ROOM + CANARY], before[ROOM + CANARY];

static void fail(const char *what, long where) {
    printf("play.c: %s, at %ld\n", what, where);
    exit(1);
}

/* Calls it with a part of out, and looks at every byte there and behind it: a refusal changes none, a text none past it. */
static int32_t call(const uint8_t *play, size_t length, size_t room) {
    size_t seen = room + CANARY;
    memcpy(before, out, seen);
    int32_t n = level_control_play(play, length, out, room);
    size_t kept = n < 0 ? 0 : (size_t)n;
    if (kept > room || memcmp(out + kept, before + kept, seen - kept) != 0)
        fail("a byte past the text has changed", (long)room);
    return n;
}

/* Settings, and events that are accepted and refused in turn. */
static void write_play(void) {
    static const uint8_t settings[RECORD] = {0x4C, 0x47, 1, 254, 0, 0, 50, 10, 0, 0, 0, 1};
    memcpy(records, settings, RECORD);
    for (int k = 1; k < 258; k++) {
        uint8_t *event = records + RECORD * k;
        uint64_t time = 2000000u + 50000u * (uint64_t)k;
        static const uint8_t kinds[] = {1, 5, 6, 5};
        event[0] = 0x4C;
        event[1] = 0x45;
        event[2] = kinds[k % 4];
        for (int b = 0; b < 8; b++) event[4 + b] = (uint8_t)(time >> (8 * b));
        if (event[2] == 1) {
            event[13] = (uint8_t)(k % 255);
            event[14] = 1;
            event[15] = 3;
        }
        if (event[2] == 5) event[13] = (uint8_t)(k % 200);
    }
}

int main(int count, char **words) {
    long plays = count > 1 ? atol(words[1]) : 1000;
    write_play();
    memset(out, 0xA5, sizeof out);

    /* NULL, with length 0, for each slice and for both */
    if (level_control_play(NULL, 0, out, ROOM) != -1) fail("no records are answered wrongly", 0);
    if (level_control_play(NULL, 0, NULL, 0) != -1) fail("nothing at all is answered wrongly", 0);
    if (level_control_play(records, RECORD, NULL, 0) != 0) fail("settings alone are answered wrongly", 0);
    if (level_control_play(records, 2 * RECORD, NULL, 0) != -16) fail("an event without room is answered wrongly", 0);

    /* every length of the same play, longer ones than a play may have too */
    for (size_t length = 0; length <= 5141; length++) {
        int32_t n = call(records, length, ROOM);
        int right = length >= RECORD && length <= MOST && length % RECORD == 0;
        if (right ? n < 0 : n != -1) fail("a length is answered wrongly", (long)length);
        if (length == RECORD && n != 0) fail("settings alone write something", n);
    }

    /* every room from 0 to the text's length */
    int32_t whole = call(records, MOST, ROOM);
    if (whole <= 0) fail("the whole play is refused", whole);
    for (size_t room = 0; room <= (size_t)whole; room++) {
        memset(out, 0xA5, sizeof out);
        int32_t n = call(records, MOST, room);
        if (n != (room < (size_t)whole ? -16 : whole)) fail("a room is answered wrongly", (long)room);
    }

    /* random plays, damaged in up to four bytes; the sum of all that they give is printed, and is the same on every processor */
    uint64_t random = 1, sum = 14695981039346656037u;
    for (long i = 0; i < plays; i++) {
        uint8_t damaged[13 * RECORD];
        memcpy(damaged, records, sizeof damaged);
        for (int k = 0; k < 4; k++) {
            random = random * 6364136223846793005u + 1442695040888963407u;
            damaged[(random >> 33) % sizeof damaged] = (uint8_t)(random >> 25);
        }
        random = random * 6364136223846793005u + 1442695040888963407u;
        size_t length = RECORD * (1 + (random >> 33) % 13);
        int32_t n = call(damaged, length, 12 * 189);
        if (n < -4) fail("a damaged play is answered wrongly", i);
        if (n > 0 && out[n - 1] != '\n') fail("a sheet without a line feed", i);
        sum = (sum ^ (uint32_t)n) * 1099511628211u;
        for (int32_t b = 0; b < n; b++) sum = (sum ^ out[b]) * 1099511628211u;
    }
    printf("play.c: ok, the text of 255 events has %d bytes; %ld damaged plays, sum %016" PRIx64 "\n", (int)whole, plays, sum);
    return 0;
}
