/* The recorded plays and the sheets that keysheet prints of them, as tests/archive links them in: of each play the lengths
 * of both, 4 bytes each with the low one first, and then both. */
#ifndef PLAYS_H
#define PLAYS_H

#include "../../include/level_control.h"

enum { RECORD = 20, LINE = 189, ROOM = 48195 };

extern const uint8_t _binary_plays_start[], _binary_plays_end[];

struct play {
    const uint8_t *records, *sheet;
    size_t length;
    int32_t due; /* what the call has to return */
};

static inline size_t number_at(const uint8_t *at) {
    return at[0] | (size_t)at[1] << 8 | (size_t)at[2] << 16 | (size_t)at[3] << 24;
}

/* Reads the play that stands there, and gives the place behind it. Where keysheet prints `0 N`, the call returns minus N. */
static inline const uint8_t *read_play(const uint8_t *at, struct play *play) {
    size_t text = number_at(at + 4);
    play->length = number_at(at);
    play->records = at + 8;
    play->sheet = play->records + play->length;
    play->due = text > 0 && play->sheet[0] == '0' ? '0' - play->sheet[2] : (int32_t)text;
    return play->sheet + text;
}

#endif
