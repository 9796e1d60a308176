/* A capture walked in C, written for speed and proved by nothing: its header, its records, and which of their frames are handed
   on. walker.c measures a whole capture in memory with it, walk.c is a program over it, and libpcap.c takes what it says of a
   frame. It shares no code with the proved reader. */
#ifndef WALKER_H
#define WALKER_H

#include "twin.h"

#define CAPTURE_HEAD 24 /* bytes before the first record */
#define RECORD_HEAD 16  /* bytes before a record's frame */
#define BILLION 1000000000u
#define GREATEST_OFFSET 99
#define CAPTURE_SUMMARY (SUMMARY + 2)

/* How the words of a capture are read: whether their bytes lie in another order than this machine's, and what a sub-second field
   counts. */
struct format {
    int turned;
    uint32_t units, nanoseconds; /* units in a second, nanoseconds in a unit */
};

INLINE uint32_t word_of(const struct format *f, const uint8_t *b)
{
    uint32_t x;
    __builtin_memcpy(&x, b, 4);
    return f->turned ? __builtin_bswap32(x) : x;
}

/* 30, or 0 and the format. */
INLINE uint32_t open_capture(const uint8_t *capture, size_t size, struct format *f)
{
    if (size < CAPTURE_HEAD) return 30;
    f->turned = 0;
    uint32_t magic = word_of(f, capture);
    f->turned = magic != 0xa1b2c3d4 && magic != 0xa1b23c4d;
    magic = word_of(f, capture);
    if (magic != 0xa1b2c3d4 && magic != 0xa1b23c4d) return 30;
    f->units = magic == 0xa1b2c3d4 ? 1000000 : BILLION;
    f->nanoseconds = BILLION / f->units;
    return word_of(f, capture + 20) == 1 ? 0 : 30;
}

/* The RTP header of a frame that is handed on, all of it and its extension within the captured bytes; or none. */
INLINE const uint8_t *rtp_of(const uint8_t *frame, size_t size, uint16_t port)
{
    if (size < 14) return NULL;
    size_t ip = 14;
    if (big16(frame + 12) == 0x8100) ip = 18;
    if (size < ip + 20 || big16(frame + ip - 2) != 0x0800) return NULL;
    size_t words = frame[ip] & 15, udp = ip + 4 * words;
    if (frame[ip] >> 4 != 4 || words < 5 || frame[ip + 9] != 17 || (big16(frame + ip + 6) & 0x3fff) != 0) return NULL;
    if (size < udp + 8 + 12 || big16(frame + udp + 2) != port) return NULL;
    const uint8_t *rtp = frame + udp + 8;
    if (rtp[0] >> 6 != 2) return NULL;
    size_t after = udp + 8 + 12 + 4 * (size_t)(rtp[0] & 15);
    if (size < after) return NULL;
    if (!(rtp[0] & 0x10)) return rtp;
    if (size < after + 4 || size < after + 4 + 4 * (size_t)big16(frame + after + 2)) return NULL;
    return rtp;
}

INLINE uint32_t stamp_of(const uint8_t *rtp) { return big32(rtp + 4); }
INLINE unsigned marker_of(const uint8_t *rtp) { return rtp[1] >> 7; }

/* The answer's bytes: the row of the frame that a marker closes, and at last the eleven numbers in front of the rows. */
INLINE void put_row(struct twin *w, const struct rules *r, uint8_t *out)
{
    int64_t row[ROW];
    row_of(w, r, row);
    for (int k = 0; k < ROW; k++) put64(out + 8 * (CAPTURE_SUMMARY + ROW * w->closed + (uint64_t)k), (uint64_t)row[k]);
}
INLINE void put_summary(const struct twin *w, uint64_t records, uint8_t *out)
{
    uint64_t numbers[CAPTURE_SUMMARY];
    summary_of(w, numbers);
    numbers[SUMMARY] = records;
    numbers[SUMMARY + 1] = records - w->packets;
    for (int k = 0; k < CAPTURE_SUMMARY; k++) put64(out + 8 * k, numbers[k]);
}

#endif
