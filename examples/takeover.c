/* A decode that two workers share, through include/pivotshade.h alone: the first is cut off, the second goes on from the record that it left, over
   an output whose rest holds other bytes; the picture must come out whole. A worker with the next message is refused that record, and one that finds
   it cut short is told where. The strict check and the words of a refusal come first. `./test` builds and runs it. */
#include "pivotshade.h"

#include <stdio.h>
#include <stdlib.h>
#include <string.h>

/* The number that the broker gave the message. */
static const uint64_t NUMBER = 17;

enum { WIDTH = 64, HEIGHT = 48, CHANNELS = 4, PIXELS = WIDTH * HEIGHT, SIZE = PIXELS * CHANNELS, ROOM = 22 + PIXELS * (CHANNELS + 1) };

/* Says what a call refused, and ends. */
static void refuse(const char *call, uint64_t number, const uint64_t figures[4])
{
    uint8_t words[PIVOTSHADE_TEXT_MAX];
    uint64_t answer[4];

    pivotshade_text(number, figures, words, sizeof words, answer);
    fprintf(stderr, "%s: %.*s\n", call, (int)answer[0], (const char *)words);
    exit(1);
}

static void expect(int is_so, const char *what)
{
    if (is_so) return;
    fprintf(stderr, "not so: %s\n", what);
    exit(1);
}

/* A worker: at most `runs` runs of 100 steps from the record of n bytes, which becomes the last one that a run wrote. Whether the decode ended. */
static int work(const uint8_t *msg, size_t len, uint8_t *record, size_t *n, uint8_t *out, int runs)
{
    uint8_t next[PIVOTSHADE_RECORD_MAX];
    uint64_t figures[4], number;

    while (runs-- > 0) {
        number = pivotshade_run(msg, len, NUMBER, record, *n, out, SIZE, 100, next, sizeof next, figures);
        if (number == 0) {
            expect(figures[0] == SIZE && figures[1] == len, "the decode wrote the whole picture and used the whole message");
            return 1;
        }
        if (number != PIVOTSHADE_MORE) refuse("run", number, figures);
        *n = figures[0];
        memcpy(record, next, *n);
    }
    return 0;
}

/* A record's third number, after its 14 header bytes: the pixels that are done. */
static size_t pixels_done(const uint8_t *record)
{
    const uint8_t *byte = record + 14;
    size_t value = 0;
    int number, shift;

    for (number = 0; number < 3; number++) {
        value = 0;
        for (shift = 0; *byte & 0x80; shift += 7) value |= (size_t)(*byte++ & 0x7f) << shift;
        value |= (size_t)*byte++ << shift;
    }
    return value;
}

int main(void)
{
    static uint8_t picture[SIZE], msg[ROOM], out[SIZE];
    uint8_t record[PIVOTSHADE_RECORD_MAX], next[PIVOTSHADE_RECORD_MAX], words[PIVOTSHADE_TEXT_MAX];
    uint64_t figures[4], answer[4], number;
    size_t len, n, done, i;

    for (i = 0; i < SIZE; i++) picture[i] = (uint8_t)(i % CHANNELS == 3 ? 255 : i * i / 97);

    number = pivotshade_encode(picture, SIZE, WIDTH, HEIGHT, 0, msg, ROOM, figures);
    if (number != 0) refuse("encode", number, figures);
    len = figures[0];

    number = pivotshade_strict(msg, len, figures);
    if (number != 0) refuse("strict", number, figures);
    expect(figures[1] == len, "the strict check counts every byte");
    number = pivotshade_strict(msg, len - 1, figures);
    expect(number == 1, "a cut message is refused with 1");
    number = pivotshade_text(number, figures, words, sizeof words, answer);
    expect(number == 0 && answer[0] == 42 && memcmp(words, "unexpected input buffer end while decoding", 42) == 0, "1 in words");

    number = pivotshade_start(msg, len, NUMBER, CHANNELS, record, sizeof record, figures);
    if (number != 0) refuse("start", number, figures);
    n = figures[0];
    expect(!work(msg, len, record, &n, out, 5), "five runs do not end the decode");
    done = pixels_done(record);
    expect(done > 0 && done < PIXELS, "the first worker is cut off on the way");

    number = pivotshade_run(msg, len, NUMBER + 1, record, n, out, SIZE, 100, next, sizeof next, figures);
    expect(number == 12 && figures[0] == NUMBER, "for the next message the record is refused with 12, and its own number told");
    number = pivotshade_run(msg, len, NUMBER, record, n - 1, out, SIZE, 100, next, sizeof next, figures);
    expect(number == 1 && figures[0] == n - 1, "without the message's number, its last byte, the record is refused with 1, and told where that starts");

    memset(out + done * CHANNELS, 0xee, SIZE - done * CHANNELS);
    expect(work(msg, len, record, &n, out, PIXELS), "the second worker ends the decode");
    expect(memcmp(out, picture, SIZE) == 0, "the picture came back");
    printf("%zu of %d pixels by the first worker, the others by the second: the picture came back whole\n", done, PIXELS);
    return 0;
}
