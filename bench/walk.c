/* The capture program in C, written for speed and proved by nothing: a capture on standard input, its lines on standard output, one
   read and one write at a time, called with the eleven words of vcapture. It takes sound captures only, of frames that fit in its
   window; bench/run times it beside vcapture on the same file and compares what the two print. */
#include "lines.h"
#include "walker.h"

#include <stdlib.h>

#define WORDS 11

static uint8_t window[WINDOW];

struct stream {
    struct rules rules;
    uint64_t offset;
    uint16_t port;
};

/* The words of the call: 0, or why the stream cannot be measured. */
static uint32_t stream_of(char **words, struct stream *s)
{
    uint32_t x[WORDS];
    for (int k = 0; k < WORDS; k++) x[k] = (uint32_t)strtoul(words[k], NULL, 10);
    uint8_t rate = (uint8_t)x[2], schedule = (uint8_t)x[3], class = (uint8_t)x[4], profile = (uint8_t)x[9];
    uint16_t height = (uint16_t)x[5], maxudp = (uint16_t)x[7];
    s->port = (uint16_t)x[0];
    s->offset = x[1];
    uint32_t refused = set_up_refusal(rate, schedule, class, height, x[6], maxudp, x[8], profile, x[10]);
    if (refused) return refused;
    s->rules = rules_of(rate, schedule, class, height, x[6], maxudp, x[8], profile, x[10]);
    return s->offset > GREATEST_OFFSET ? 33 : 0;
}

/* One record whose frame is all there: 0, or by what it is refused. */
INLINE uint32_t took(struct twin *w, const struct stream *s, const struct format *format, const uint8_t *at, uint32_t captured)
{
    uint32_t part = word_of(format, at + 4);
    if (part >= format->units) return 32;
    const uint8_t *rtp = rtp_of(at + RECORD_HEAD, captured, s->port);
    if (!rtp) return 0;
    uint64_t t = (word_of(format, at) + s->offset) * BILLION + (uint64_t)part * format->nanoseconds;
    if (w->packets && t < w->last) return 12;
    arrives(w, &s->rules, t, stamp_of(rtp));
    if (!marker_of(rtp)) return 0;
    if (w->begun) frame_line(w, &s->rules);
    marks(w, t);
    return 0;
}

int main(int argc, char **argv)
{
    struct stream s;
    struct format format = {0, 0, 0};
    struct twin w = {0};
    uint64_t records = 0;
    size_t held = 0;
    if (argc != 1 + WORDS || stream_of(argv + 1, &s)) return 1;
    for (;;) {
        ssize_t got = read(0, window + held, WINDOW - held);
        if (got < 0) return 1;
        held += (size_t)got;
        const uint8_t *at = window, *end = window + held;
        if (!format.units && held >= CAPTURE_HEAD) {
            if (open_capture(at, held, &format)) return 1;
            at += CAPTURE_HEAD;
        }
        while (format.units && end - at >= RECORD_HEAD) {
            uint32_t captured = word_of(&format, at + 8);
            if ((size_t)(end - at) - RECORD_HEAD < captured) break;
            if (took(&w, &s, &format, at, captured)) return 1;
            at += RECORD_HEAD + captured;
            records++;
        }
        held = (size_t)(end - at);
        if (held == WINDOW) return 1;
        memmove(window, at, held);
        if (got == 0) break;
        flush();
    }
    if (held > 0 || !format.units) return 1;
    last_words(&w);
    word(" records "), number((int64_t)records), word(" skipped "), number((int64_t)(records - w.packets)), word("\n");
    flush();
    return 0;
}
