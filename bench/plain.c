/* The program in C, written for speed and proved by nothing: a record file on standard input, its lines on standard output,
   one read and one write at a time, by edition 1 as vtiming. It takes sound files only; bench/run times it beside vtiming on the
   same file and compares what the two print. */
#include "lines.h"

#define HEAD 19
#define RECORD 16

static uint8_t window[WINDOW];

int main(void)
{
    struct rules r = {0};
    struct twin w = {0};
    size_t held = 0, began = 0;
    for (;;) {
        ssize_t got = read(0, window + held, WINDOW - held);
        if (got < 0) return 1;
        held += (size_t)got;
        const uint8_t *b = window, *end = window + held;
        if (!began && held >= HEAD) {
            uint8_t class = class_in(b[0], b[6]), profile = b[3];
            if (b[0] < 1 || b[0] > 2) return 1;
            if (set_up_refusal(b[4], b[5], class, big16(b + 7), big32(b + 9), big16(b + 13), big32(b + 15), profile, EDITION_1)) return 1;
            r = rules_of(b[4], b[5], class, big16(b + 7), big32(b + 9), big16(b + 13), big32(b + 15), profile, EDITION_1);
            began = 1;
            b += HEAD;
        }
        for (; began && end - b >= RECORD; b += RECORD) {
            uint64_t t = big64(b + 3);
            if (b[0] != 0 || b[1] != 14 || b[2] != 2 || b[15] > 1 || (w.packets && t < w.last)) return 1;
            arrives(&w, &r, t, big32(b + 11));
            if (!b[15]) continue;
            if (w.begun) frame_line(&w, &r);
            marks(&w, t);
        }
        held = (size_t)(end - b);
        memmove(window, b, held);
        if (got == 0) break;
        flush();
    }
    last_words(&w);
    word("\n");
    flush();
    return 0;
}
