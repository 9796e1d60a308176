/* The twins that bench.c times: one stream fed over arrays, and a whole record file measured into bytes. */
#include "feed.h"
#include "twin.h"

#define HEAD 19   /* bytes before the first packet's record */
#define RECORD 16 /* bytes of a packet's record */

/* Which packet is refused first, and why. Called only where the quick scan has found that one is. */
static uint8_t first_refusal(const uint64_t *arrivals, const uint8_t *markers, size_t count)
{
    for (size_t i = 0; i < count; i++) {
        if (markers[i] > 1) return 11;
        if (i > 0 && arrivals[i] < arrivals[i - 1]) return 12;
        if (arrivals[i] - arrivals[0] > LONGEST) return 13;
        if (i >= MOST) return 14;
    }
    return 0;
}

uint32_t twin_feed(uint8_t rate, uint8_t schedule, uint8_t class, uint16_t height, uint32_t n, uint16_t maxudp, uint32_t tro,
                   uint8_t profile, uint32_t edition, const uint64_t *restrict arrivals, size_t count, const uint32_t *restrict stamps,
                   size_t stamp_count, const uint8_t *restrict markers, size_t marker_count, int64_t *restrict rows, size_t row_count,
                   uint64_t *restrict out, size_t out_count)
{
    uint8_t refused = set_up_refusal(rate, schedule, class, height, n, maxudp, tro, profile, edition);
    if (refused) return refused;
    if (stamp_count != count || marker_count != count) return 10;

    /* The scan. Arrivals that never fall have their greatest at the end, so 13 and 14 are looked at once. */
    size_t marked_count = 0;
    unsigned wrong = count > MOST;
    uint64_t before = 0;
    for (size_t i = 0; i < count; i++) {
        wrong |= (markers[i] > 1) | (arrivals[i] < before);
        before = arrivals[i];
        marked_count += markers[i];
    }
    if (count > 0 && (wrong || arrivals[count - 1] - arrivals[0] > LONGEST)) return first_refusal(arrivals, markers, count);
    size_t closing = marked_count > 0 ? marked_count - 1 : 0; /* the first marker ends the lead-in */
    if (row_count / ROW < closing) return 15;

    const struct rules r = rules_of(rate, schedule, class, height, n, maxudp, tro, profile, edition);
    struct twin w = {0};
    for (size_t i = 0; i < count; i++) {
        arrives(&w, &r, arrivals[i], stamps[i]);
        if (markers[i]) {
            if (w.begun) row_of(&w, &r, rows + ROW * w.closed);
            marks(&w, arrivals[i]);
        }
    }
    if (out_count >= SUMMARY) summary_of(&w, out);
    return 0;
}

/* A whole file: one pass that checks and counts, one that measures and writes. Damaged files are answered 21, whatever
   is wrong but the kind of the parameters: the twin is timed on sound ones. */
uint32_t twin_measure(const uint8_t *restrict file, size_t size, uint32_t edition, uint8_t *restrict out, size_t room)
{
    if (size < HEAD || file[0] < 1 || file[0] > 2 || big16(file + 1) != 16 || (size - HEAD) % RECORD != 0) return 21;
    uint8_t class = class_in(file[0], file[6]), profile = file[3];
    uint8_t refused =
        set_up_refusal(file[4], file[5], class, big16(file + 7), big32(file + 9), big16(file + 13), big32(file + 15), profile, edition);
    if (refused) return refused;

    const uint8_t *packets = file + HEAD, *end = file + size;
    size_t marked_count = 0;
    unsigned wrong = (size - HEAD) / RECORD > MOST;
    uint64_t before = 0;
    for (const uint8_t *b = packets; b < end; b += RECORD) {
        uint64_t t = big64(b + 3);
        wrong |= (b[0] != 0) | (b[1] != 14) | (b[2] != 2) | (b[15] > 1) | (t < before);
        before = t;
        marked_count += b[15];
    }
    if (wrong || (packets < end && before - big64(packets + 3) > LONGEST)) return 21;
    size_t closing = marked_count > 0 ? marked_count - 1 : 0;
    if (room / 8 < SUMMARY + ROW * closing) return 15;

    const struct rules r =
        rules_of(file[4], file[5], class, big16(file + 7), big32(file + 9), big16(file + 13), big32(file + 15), profile, edition);
    struct twin w = {0};
    for (const uint8_t *b = packets; b < end; b += RECORD) {
        uint64_t t = big64(b + 3);
        arrives(&w, &r, t, big32(b + 11));
        if (b[15]) {
            if (w.begun) {
                int64_t row[ROW];
                row_of(&w, &r, row);
                for (int k = 0; k < ROW; k++) put64(out + 8 * (SUMMARY + ROW * w.closed + (uint64_t)k), (uint64_t)row[k]);
            }
            marks(&w, t);
        }
    }
    uint64_t nine[SUMMARY];
    summary_of(&w, nine);
    for (int k = 0; k < SUMMARY; k++) put64(out + 8 * k, nine[k]);
    return 0;
}
