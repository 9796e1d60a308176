/* A capture on disk measured by libpcap's own walk over it, what the plain C walker says of a frame, and the twin: what a program is that
   takes the library which everybody has. It measures as it walks, and so it is spared the scan before; a capture that is refused is answered
   by any number but 0. */
#define _DEFAULT_SOURCE /* libpcap's header takes the names of types that strict C leaves out */
#include "feed.h"

#ifdef LIBPCAP
#include "walker.h"

#include <pcap/pcap.h>

struct walk {
    struct rules rules;
    struct twin twin;
    uint64_t records, offset, first;
    uint16_t port;
    uint32_t refused;
    uint8_t *out;
    size_t room;
};

static void take(u_char *to, const struct pcap_pkthdr *record, const u_char *frame)
{
    struct walk *walk = (struct walk *)to;
    walk->records++;
    const uint8_t *rtp = rtp_of(frame, record->caplen, walk->port);
    if (!rtp) return;
    uint64_t t = ((uint64_t)record->ts.tv_sec + walk->offset) * BILLION + (uint64_t)record->ts.tv_usec;
    if (walk->twin.packets == 0) walk->first = t;
    if (walk->twin.packets > 0 && t < walk->twin.last) walk->refused = 12;
    if (t - walk->first > LONGEST) walk->refused = 13;
    arrives(&walk->twin, &walk->rules, t, stamp_of(rtp));
    if (!marker_of(rtp)) return;
    if (walk->twin.begun) {
        if (walk->room / 8 < CAPTURE_SUMMARY + ROW * (walk->twin.closed + 1)) walk->refused = 15;
        else put_row(&walk->twin, &walk->rules, walk->out);
    }
    marks(&walk->twin, t);
}

uint32_t libpcap_capture(const char *name, uint16_t port, uint32_t offset, uint8_t rate, uint8_t schedule, uint8_t class, uint16_t height,
                         uint32_t n, uint16_t maxudp, uint32_t tro, uint8_t profile, uint32_t edition, uint8_t *out, size_t room)
{
    char why[PCAP_ERRBUF_SIZE];
    struct walk walk = {.offset = offset, .port = port, .out = out, .room = room};
    uint32_t refused = set_up_refusal(rate, schedule, class, height, n, maxudp, tro, profile, edition);
    if (refused) return refused;
    walk.rules = rules_of(rate, schedule, class, height, n, maxudp, tro, profile, edition);
    pcap_t *capture = pcap_open_offline_with_tstamp_precision(name, PCAP_TSTAMP_PRECISION_NANO, why);
    if (!capture) return 30;
    if (pcap_datalink(capture) != DLT_EN10MB) walk.refused = 30;
    if (pcap_loop(capture, -1, take, (u_char *)&walk) != 0) walk.refused = 31;
    pcap_close(capture);
    if (room < 8 * CAPTURE_SUMMARY) walk.refused = 15;
    if (!walk.refused) put_summary(&walk.twin, walk.records, out);
    return walk.refused;
}
#else
uint32_t libpcap_capture(const char *name, uint16_t port, uint32_t offset, uint8_t rate, uint8_t schedule, uint8_t class, uint16_t height,
                         uint32_t n, uint16_t maxudp, uint32_t tro, uint8_t profile, uint32_t edition, uint8_t *out, size_t room)
{
    (void)name, (void)port, (void)offset, (void)rate, (void)schedule, (void)class, (void)height, (void)n, (void)maxudp, (void)tro;
    (void)profile, (void)edition, (void)out, (void)room;
    return NO_LIBPCAP;
}
#endif
