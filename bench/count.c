/* Plays the plays of a list, for bench/dearest, which counts the instructions of the calls.

       count LIST         what each call returned
       count LIST text    the text of the last play

   A list has for each play 4 bytes, the length of its records, 4 bytes, the room, and the records; low bytes first. */
#include <stdint.h>
#include <stdio.h>

int32_t level_control_play(const uint8_t *records, size_t records_length, uint8_t *out, size_t out_length);

static uint8_t records[5120], out[48195];

/* Not inline: a call has ended where this function goes on. */
__attribute__((noinline)) static int32_t counted(size_t length, size_t room)
{
    int32_t result = level_control_play(records, length, out, room);
    __asm__ volatile("");
    return result;
}

int main(int argc, char **argv)
{
    FILE *list = argc > 1 ? fopen(argv[1], "rb") : NULL;
    uint32_t head[2];
    int32_t result = 0;
    if (list == NULL)
        return 2;
    while (fread(head, 4, 2, list) == 2) {
        if (head[0] > sizeof records || head[1] > sizeof out || fread(records, 1, head[0], list) != head[0])
            return 2;
        result = counted(head[0], head[1]);
        if (argc == 2)
            printf("%ld\n", (long)result);
    }
    if (argc > 2 && result > 0)
        fwrite(out, 1, (size_t)result, stdout);
    return 0;
}
