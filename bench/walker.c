/* A whole capture in memory measured into bytes by the plain C walker: the answer of vtiming_capture, refusals in their order too.
   One pass looks for refusals and counts, since a refused call writes nothing; the other measures and writes. */
#include "feed.h"
#include "walker.h"

/* The scan: 31, 32 and 12 to 14, record by record; or 0 and how many records there are and how many markers are handed on. */
static uint32_t scanned(const uint8_t *capture, size_t size, const struct format *format, uint16_t port, uint64_t offset,
                        uint64_t *records, uint64_t *markers)
{
    const uint8_t *at = capture + CAPTURE_HEAD, *end = capture + size;
    uint64_t read = 0, packets = 0, marked = 0, first = 0, before = 0;
    for (; at < end; read++) {
        size_t left = (size_t)(end - at);
        if (left < RECORD_HEAD) return 31;
        uint32_t part = word_of(format, at + 4), captured = word_of(format, at + 8);
        if (left - RECORD_HEAD < captured) return 31;
        if (part >= format->units) return 32;
        const uint8_t *rtp = rtp_of(at + RECORD_HEAD, captured, port);
        if (rtp) {
            uint64_t t = (word_of(format, at) + offset) * BILLION + (uint64_t)part * format->nanoseconds;
            if (packets == 0) first = t;
            if (t < before) return 12;
            if (t - first > LONGEST) return 13;
            if (packets == MOST) return 14;
            before = t;
            packets++;
            marked += marker_of(rtp);
        }
        at += RECORD_HEAD + (size_t)captured;
    }
    *records = read, *markers = marked;
    return 0;
}

uint32_t walker_capture(const uint8_t *restrict capture, size_t size, uint16_t port, uint32_t offset, uint8_t rate, uint8_t schedule,
                        uint8_t class, uint16_t height, uint32_t n, uint16_t maxudp, uint32_t tro, uint8_t profile, uint32_t edition,
                        uint8_t *restrict out, size_t room)
{
    struct format format;
    uint64_t records, markers;
    uint32_t refused = set_up_refusal(rate, schedule, class, height, n, maxudp, tro, profile, edition);
    if (refused) return refused;
    if (offset > GREATEST_OFFSET) return 33;
    if ((refused = open_capture(capture, size, &format))) return refused;
    if ((refused = scanned(capture, size, &format, port, offset, &records, &markers))) return refused;
    uint64_t closing = markers > 0 ? markers - 1 : 0; /* the first marker ends the lead-in */
    if (room / 8 < CAPTURE_SUMMARY + ROW * closing) return 15;

    const struct rules r = rules_of(rate, schedule, class, height, n, maxudp, tro, profile, edition);
    struct twin w = {0};
    uint32_t captured;
    for (const uint8_t *at = capture + CAPTURE_HEAD, *end = capture + size; at < end; at += RECORD_HEAD + (size_t)captured) {
        captured = word_of(&format, at + 8);
        const uint8_t *rtp = rtp_of(at + RECORD_HEAD, captured, port);
        if (!rtp) continue;
        uint64_t t = (word_of(&format, at) + (uint64_t)offset) * BILLION + (uint64_t)word_of(&format, at + 4) * format.nanoseconds;
        arrives(&w, &r, t, stamp_of(rtp));
        if (!marker_of(rtp)) continue;
        if (w.begun) put_row(&w, &r, out);
        marks(&w, t);
    }
    put_summary(&w, records, out);
    return 0;
}
