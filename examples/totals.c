/* Rain totals through include/pivotshade.h alone: a month's hours come late, twice and damaged, and each is in the totals once. `./test` builds
   and runs it. */
#include "pivotshade.h"

#include <stdio.h>
#include <stdlib.h>
#include <string.h>

enum { WIDTH = 3, HEIGHT = 2, CELLS = WIDTH * HEIGHT, SIZE = CELLS * 4, ROOM = 22 + CELLS * 5, HOURS = 744 };

static void expect(int is_so, const char *what)
{
    if (is_so) return;
    fprintf(stderr, "not so: %s\n", what);
    exit(1);
}

/* A cell's rain in an hour, in hundredths of a millimetre. */
static uint32_t rain(uint64_t hour, size_t cell) { return (uint32_t)(hour * 100003 + cell * 70001); }

/* An hour's message, in ROOM bytes: its length. */
static size_t message_of(uint64_t hour, uint8_t *msg)
{
    uint8_t cells[SIZE];
    uint64_t figures[4];
    size_t i;

    for (i = 0; i < SIZE; i++) cells[i] = (uint8_t)(rain(hour, i / 4) >> (24 - i % 4 * 8));
    expect(pivotshade_encode(cells, SIZE, WIDTH, HEIGHT, 0, msg, ROOM, figures) == 0, "a frame is encoded");
    return figures[0];
}

int main(void)
{
    static const uint64_t come[] = {743, 17, 0, 17, 743, 16, 17};
    static const char late[] = "invalid hour: 744 (expected 0 to 743)";
    uint64_t totals[CELLS] = {0}, once[CELLS] = {0}, figures[4], answer[4], number;
    uint8_t marks[HOURS] = {0}, sent[HOURS] = {0}, msg[ROOM], frame[SIZE], words[PIVOTSHADE_TEXT_MAX];
    size_t len, i, cell, hours = 0;

    for (i = 0; i < sizeof come / sizeof *come; i++) {
        len = message_of(come[i], msg);
        if (!sent[come[i]]) {
            /* it comes cut short first, which is refused and changes nothing */
            number = pivotshade_count(msg, len - 1, come[i], frame, SIZE, totals, CELLS, marks, figures);
            expect(number == 1 && memcmp(totals, once, sizeof once) == 0 && !marks[come[i]], "a cut frame leaves the table as it was");
            for (cell = 0; cell < CELLS; cell++) once[cell] += rain(come[i], cell);
        }
        number = pivotshade_count(msg, len, come[i], frame, SIZE, totals, CELLS, marks, figures);
        expect(number == (sent[come[i]] ? PIVOTSHADE_COUNTED_ALREADY : 0), "an hour is counted when it first comes whole, and never again");
        expect(figures[0] == (sent[come[i]] ? 0 : len), "all of the message is used");
        hours += !sent[come[i]];
        sent[come[i]] = 1;
        expect(memcmp(totals, once, sizeof once) == 0 && memcmp(marks, sent, HOURS) == 0, "each hour that has come is in the table once");
    }

    number = pivotshade_count(msg, len, HOURS, frame, SIZE, totals, CELLS, marks, figures);
    expect(number == 19 && figures[0] == HOURS, "hour 744 is refused with 19");
    number = pivotshade_text(number, figures, words, sizeof words, answer);
    expect(number == 0 && answer[0] == sizeof late - 1 && memcmp(words, late, sizeof late - 1) == 0, "19 in words");
    printf("%zu messages for %zu hours: each hour is in the totals once\n", i, hours);
    return 0;
}
