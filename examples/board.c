/* What a board does: it keeps the settings and every event that was accepted, plays them with each new event, and takes the
 * last line. Here the settings and the events come from standard input, 20 bytes each. docs/BOARDS.md says more. */
#include "../include/level_control.h"
#include <stdio.h>
#include <string.h>

enum { RECORD = 20, EVENTS = 255, LINE = 189 };

static uint8_t records[RECORD + EVENTS * RECORD];
static size_t length;

/* Takes the settings, which alone write nothing. Gives 0, or minus the number of the refusal. */
static int32_t begin(const uint8_t settings[RECORD]) {
    memcpy(records, settings, RECORD);
    length = RECORD;
    return level_control_play(records, length, NULL, 0);
}

/* Plays one more event. Gives the number, level, remaining tenths and actions of its line; NULL where the records are full. */
static const char *play(const uint8_t event[RECORD]) {
    static uint8_t sheet[EVENTS * LINE];
    if (length == sizeof records) return NULL;
    memcpy(records + length, event, RECORD);
    int32_t n = level_control_play(records, length + RECORD, sheet, sizeof sheet);
    if (n <= 0) return NULL; /* with settings that were taken, and room for every line, it never is */
    sheet[n - 1] = '\0';
    const char *before = strrchr((const char *)sheet, '\n');
    const char *line = strchr(before != NULL ? before : (const char *)sheet, ' ') + 1;
    if (line[0] == '0') length += RECORD; /* accepted; a refused event changes nothing, and is not kept */
    return line;
}

int main(void) {
    uint8_t record[RECORD];
    size_t bytes = fread(record, 1, RECORD, stdin);
    int32_t begun = bytes == RECORD ? begin(record) : -1;
    if (begun < 0) printf("the settings are refused: %d\n", (int)begun);
    while (begun == 0 && (bytes = fread(record, 1, RECORD, stdin)) == RECORD) {
        const char *line = play(record);
        puts(line != NULL ? line : "full");
    }
    if (begun == 0 && bytes > 0) puts("the last record is cut");
    return begun < 0 || bytes > 0;
}
