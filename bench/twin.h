/* The same measurement in C, written for speed: what follows from a stream's numbers, one packet more, and a frame
   closed. It shares no code with the proved one, and nothing proves it: it is here to be timed, and bench.c holds its
   results against the proved code's. twin.c measures arrays and files with it, walker.c captures; plain.c and walk.c are programs over it. */
#ifndef TWIN_H
#define TWIN_H

#include <stddef.h>
#include <stdint.h>

#define GRAINS 27ull               /* grains in a nanosecond */
#define TICK 300000ll              /* grains in a tick of the RTP clock */
#define WRAP 1288490188800000ull   /* grains in 2^32 ticks */
#define SECOND 27000000000ull      /* grains in a second */
#define LONGEST 600000000000ull    /* nanoseconds from the first packet to the last */
#define MOST 1000000000u           /* packets */
#define DEFAULT_TRO 0xFFFFFFFFu
#define ROW 11
#define SUMMARY 9

enum { STRICT = 0, NARROW = 1, NARROW_LINEAR = 2, WIDE = 3 }; /* STRICT is NARROW on schedule 0, NARROW_LINEAR on 1 */
enum { NONE, PASS, UNDER, OVER, BROKEN };
enum { EDITION_1 = 1, EDITION_2 = 2 }; /* of the test plan: by the second a broken frame fails its buffer */
/* The profile, as the kind of a file's parameters: of a compressed stream no buffer is judged, and an interlaced one is of fields. */
enum { VIDEO = 1, COMPRESSED = 3, INTERLACED = 4 };

#define FRAME(num, den) (SECOND * (den) / (num)) /* grains in a frame, at num/den frames a second */
static const uint64_t frame_lengths[9] = {
    0, FRAME(24000, 1001), FRAME(24, 1), FRAME(25, 1), FRAME(30000, 1001), FRAME(30, 1), FRAME(50, 1), FRAME(60000, 1001), FRAME(60, 1)};

static uint64_t larger(uint64_t a, uint64_t b) { return a < b ? b : a; }

static uint8_t set_up_refusal(uint8_t rate, uint8_t schedule, uint8_t class, uint16_t height, uint32_t n, uint16_t maxudp, uint32_t tro,
                              uint8_t profile, uint32_t edition)
{
    const int interlaced = profile == INTERLACED;
    if (profile != VIDEO && profile != COMPRESSED && !interlaced) return 22;
    if (rate < 1 || rate > 8) return 1;
    if (schedule > 1) return 2;
    if (class > 3 || (class == NARROW && schedule != 0) || (class == NARROW_LINEAR && schedule != 1)) return 3;
    if (height == 0) return 4;
    if (n < 1 || n > 20000 || (interlaced && n % 2 != 0)) return 5;
    if (maxudp != 1460 && maxudp != 8960) return 6;
    if (interlaced ? tro == DEFAULT_TRO || 54000ull * tro >= frame_lengths[rate]
                   : tro != DEFAULT_TRO && 27000ull * tro >= frame_lengths[rate])
        return 7;
    if (edition != EDITION_1 && edition != EDITION_2) return 8;
    return 0;
}

/* The class that a record file sets up with: one of version 1 keeps 0 as wide. */
static inline uint8_t class_in(uint8_t version, uint8_t class) { return version == 1 && class == STRICT ? WIDE : class; }

/* 27·t modulo m, for any t: the product itself may need more than 64 bits. */
static uint64_t grains_mod(uint64_t t, uint64_t m) { return GRAINS * (t % m) % m; }

#define INLINE static inline __attribute__((always_inline))

/* Copied and turned, so that every compiler makes one load, or one store, of each: clang does not see it in shifts of single bytes. */
#if __BYTE_ORDER__ != __ORDER_LITTLE_ENDIAN__
#error "written for little-endian processors"
#endif
INLINE uint16_t big16(const uint8_t *b)
{
    uint16_t x;
    __builtin_memcpy(&x, b, 2);
    return __builtin_bswap16(x);
}
INLINE uint32_t big32(const uint8_t *b)
{
    uint32_t x;
    __builtin_memcpy(&x, b, 4);
    return __builtin_bswap32(x);
}
INLINE uint64_t big64(const uint8_t *b)
{
    uint64_t x;
    __builtin_memcpy(&x, b, 8);
    return __builtin_bswap64(x);
}
INLINE void put64(uint8_t *b, uint64_t x)
{
    x = __builtin_bswap64(x);
    __builtin_memcpy(b, &x, 8);
}

/* What follows from the stream's numbers. `packets` and `period` are of what a marker closes: a frame, or of an interlaced stream a
   field, which is half a frame. All else is of n and the frame. */
struct rules {
    uint64_t packets, period, tro, read_den, c_max, vrx_full, spacing, drain_step, read_step;
    int64_t read_num;
    uint32_t edition;
    int judged; /* whether a buffer is */
};

static struct rules rules_of(uint8_t rate, uint8_t schedule, uint8_t class, uint16_t height, uint32_t n, uint16_t maxudp, uint32_t tro,
                             uint8_t profile, uint32_t edition)
{
    struct rules r;
    r.edition = edition;
    r.judged = profile != COMPRESSED;
    const uint64_t frame = frame_lengths[rate], parts = profile == INTERLACED ? 2 : 1;
    r.packets = n / parts;
    r.period = frame / parts;
    r.tro = tro != DEFAULT_TRO ? 27000ull * tro : height >= 1080 ? 43 * frame / 1125 : 28 * frame / 750;
    r.read_num = (int64_t)(schedule == 0 ? 24 * frame : frame);
    r.read_den = schedule == 0 ? 25ull * n : n;
    if (class != WIDE) {
        uint64_t rate_of = SECOND / 43200 * n;
        r.c_max = larger(4, (schedule == 0 ? rate_of * 25 / 24 : rate_of) / frame);
        r.vrx_full = larger(12000 / maxudp, SECOND / 27000 * n / frame);
    } else {
        r.c_max = larger(16, SECOND / 21600 * n / frame);
        r.vrx_full = larger(1080000 / maxudp, SECOND / 300 * n / frame);
    }
    r.spacing = 10 * frame;
    r.drain_step = GRAINS * 11 * n;
    r.read_step = GRAINS * r.read_den;
    return r;
}

struct twin {
    /* The bucket. Drains lie spacing/(11n) grains apart; `since` is what has passed since the last one, times 11n, so
       that a packet costs one product and mostly no division. */
    uint64_t last, since, level, peak, packets, start, burst_first, burst_last;
    int burst;
    /* The open frame, or field. `ahead` is the time to the first read that has not been, times read_den; below 0 reads are due.
       `most` and `least` are of reads less place, over the frame's packets. */
    int begun;
    uint64_t closed, marked, held, first, phase;
    uint32_t stamp;
    int64_t ahead, reads, most, least, differs, late;
    int buffer;
    uint64_t buffer_frame, buffer_place;
};

INLINE void arrives(struct twin *w, const struct rules *r, uint64_t t, uint32_t stamp)
{
    const uint64_t passed = w->packets ? t - w->last : 0;
    w->last = t;

    w->since += passed * r->drain_step;
    uint64_t drains = 0;
    if (w->since >= r->spacing) {
        w->since -= r->spacing;
        drains = 1;
        if (w->since >= r->spacing) {
            drains += w->since / r->spacing;
            w->since %= r->spacing;
        }
    }
    if (w->level <= drains) {
        w->start = w->packets;
        w->level = 1;
    } else {
        w->level = w->level - drains + 1;
    }
    if (w->level > w->peak) {
        w->peak = w->level;
        if (w->level > r->c_max && !w->burst) { /* the first level above the limit is a new peak */
            w->burst = 1;
            w->burst_first = w->start;
            w->burst_last = w->packets;
        }
    }
    w->packets++;
    if (!w->begun) return;

    if (w->held == 0) {
        uint64_t past = grains_mod(t, r->period);
        w->first = t;
        w->stamp = stamp;
        w->phase = past < r->period - past ? past + r->period : past; /* FPT and one period */
        w->ahead = ((int64_t)(r->tro + r->period) - (int64_t)w->phase) * (int64_t)r->read_den;
        w->reads = 0;
        w->most = INT64_MIN;
        w->least = INT64_MAX;
        w->differs = w->late = -1;
    } else {
        w->ahead -= (int64_t)(passed * r->read_step);
        if (stamp != w->stamp && w->differs < 0) w->differs = (int64_t)w->held;
    }
    if (!r->judged) { /* there are no reads */
        w->held++;
        return;
    }
    if (w->ahead < 0) {
        w->ahead += r->read_num;
        w->reads++;
        if (w->ahead < 0) {
            int64_t more = (r->read_num - 1 - w->ahead) / r->read_num;
            w->reads += more;
            w->ahead += more * r->read_num;
        }
        if (w->reads >= (int64_t)r->packets) { /* no read is left in this frame */
            w->reads = (int64_t)r->packets;
            w->ahead = INT64_MAX;
        }
    }
    int64_t lag = w->reads - (int64_t)w->held;
    if (lag > w->most) {
        w->most = lag;
        if (lag > 0 && w->late < 0) w->late = (int64_t)w->held;
    }
    if (lag < w->least) w->least = lag;
    w->held++;
}

/* Arrival less encoded time, which is the nearest of those that the timestamp has, one a wrap; of two that are equally near, the
   later. Both are taken within one wrap, so that the difference is below a wrap in size, and one wrap off at most. */
INLINE int64_t latency_of(uint64_t t, uint32_t stamp)
{
    int64_t latency = (int64_t)grains_mod(t, WRAP) - TICK * (int64_t)stamp;
    if (2 * latency >= (int64_t)WRAP) return latency - (int64_t)WRAP;
    if (2 * latency < -(int64_t)WRAP) return latency + (int64_t)WRAP;
    return latency;
}

/* The frame, or field, that a marker closes: its eleven numbers, and the buffer's answer. */
INLINE void row_of(struct twin *w, const struct rules *r, int64_t *row)
{
    int kind = w->held < r->packets ? 1 : w->held > r->packets ? 2 : w->differs >= 0 ? 3 : 0;
    for (int k = 0; k < ROW; k++) row[k] = 0;
    row[0] = (int64_t)w->closed;
    row[1] = kind;
    row[10] = (int64_t)(w->packets - w->held); /* all packets up to the marker, less the frame's own */
    if (kind != 0) {
        row[2] = kind == 3 ? w->differs : (int64_t)w->held;
        if (r->judged && r->edition == EDITION_2 && (w->buffer == NONE || w->buffer == PASS)) {
            w->buffer = BROKEN;
            w->buffer_frame = w->closed;
            w->buffer_place = (uint64_t)kind;
        }
        return;
    }
    int64_t fpt = (int64_t)w->phase - (int64_t)r->period;
    int64_t latency = latency_of(w->first, w->stamp);
    row[3] = fpt;
    row[4] = fpt - latency;
    row[5] = latency;
    row[6] = (int64_t)r->tro - fpt;
    row[7] = (int64_t)(GRAINS * (w->first - w->marked));
    if (!r->judged) return;
    int64_t top = w->least < 1 ? 1 - w->least : 0;
    int64_t lack = w->most > 0 ? w->most : 0;
    row[8] = top;
    row[9] = -lack;
    if (w->buffer != NONE && w->buffer != PASS) return;
    w->buffer = PASS;
    if (lack > 0) {
        w->buffer = UNDER;
        w->buffer_frame = w->closed;
        w->buffer_place = (uint64_t)w->late;
    } else if ((uint64_t)top > r->vrx_full) {
        w->buffer = OVER;
        w->buffer_frame = w->closed;
        w->buffer_place = (uint64_t)top;
    }
}

/* After the marker at t: the lead-in is over, or one frame more is closed. */
INLINE void marks(struct twin *w, uint64_t t)
{
    w->closed += (uint64_t)w->begun;
    w->begun = 1;
    w->marked = t;
    w->held = 0;
}

INLINE void summary_of(const struct twin *w, uint64_t *out)
{
    out[0] = w->packets;
    out[1] = w->closed;
    out[2] = w->peak;
    out[3] = (uint64_t)w->burst;
    out[4] = w->burst_first;
    out[5] = w->burst_last;
    out[6] = (uint64_t)w->buffer;
    out[7] = w->buffer_frame;
    out[8] = w->buffer_place;
}

#endif
