/* The measurement as C calls it, over arrays, a whole record file and a whole capture, and the twins that bench.c compares with it. A
   Rattle slice is a pointer and a length. compare/host/host.c takes the first three functions from here. */
#ifndef FEED_H
#define FEED_H

#include <stddef.h>
#include <stdint.h>

/* The proved code, from libprobe.a. A state is 35 words, one for each number of docs/STATE.md in its order, a flag as 0 or 1
   and an answer as document 01's three numbers for it. Whoever calls keeps them between the calls. */
#define STATE_WORDS 35

/* A stream set up: 22 for a profile other than 1, 3 or 4, 1 to 7, 8, then 15 for fewer words than a state is, and nothing written; or 0,
   and the fresh state's words. */
uint32_t vtiming_set_up(uint8_t rate, uint8_t schedule, uint8_t class, uint16_t height, uint32_t n, uint16_t maxudp, uint32_t tro,
                        uint8_t profile, uint32_t edition, uint64_t *state, size_t state_count);

/* A call's packets: 9 (too few words too), 10, 11 to 14, then 15 for fewer than eleven row numbers a frame closed or fewer than
   nine of `out`, and nothing written; or 0, the state's words after the call, the rows, and packets, frames, peak, network
   (number, first, last) and buffer (number, frame, place) in `out`. */
uint32_t vtiming_feed(uint64_t *state, size_t state_count, const uint64_t *arrivals, size_t arrival_count, const uint32_t *stamps,
                      size_t stamp_count, const uint8_t *markers, size_t marker_count, int64_t *rows, size_t row_count, uint64_t *out,
                      size_t out_count);

/* The twin that writes nothing: the place of that refusal, where so many row numbers and so many of `out` are lent; else 0. */
uint64_t vtiming_feed_place(const uint64_t *state, size_t state_count, const uint64_t *arrivals, size_t arrival_count,
                            const uint32_t *stamps, size_t stamp_count, const uint8_t *markers, size_t marker_count,
                            size_t row_count, size_t out_count);

/* One stream set up and one list fed: the answer, the rows and the numbers of vtiming_set_up and then vtiming_feed. The twins ask
   for no room in `out`; bench.c always lends nine numbers. */
typedef uint32_t feed_function(uint8_t rate, uint8_t schedule, uint8_t class, uint16_t height, uint32_t n, uint16_t maxudp,
                               uint32_t tro, uint8_t profile, uint32_t edition, const uint64_t *arrivals, size_t arrival_count,
                               const uint32_t *stamps, size_t stamp_count, const uint8_t *markers, size_t marker_count, int64_t *rows,
                               size_t row_count, uint64_t *out, size_t out_count);

extern feed_function twin_feed;     /* twin.c, by the system's compiler */
extern feed_function kit_twin_feed; /* twin.c, by the compiler that made libprobe.a */

/* A whole record file into bytes: include/vtiming.h. */
typedef uint32_t measure_function(const uint8_t *file, size_t size, uint32_t edition, uint8_t *out, size_t room);

extern measure_function vtiming_measure;  /* the proved code, from libreport.a */
extern measure_function twin_measure;     /* twin.c, by the system's compiler */
extern measure_function kit_twin_measure; /* twin.c, by the compiler that made libreport.a */

/* A whole capture into bytes: include/vtiming.h. */
typedef uint32_t capture_function(const uint8_t *capture, size_t size, uint16_t port, uint32_t offset, uint8_t rate, uint8_t schedule,
                                  uint8_t class, uint16_t height, uint32_t n, uint16_t maxudp, uint32_t tro, uint8_t profile,
                                  uint32_t edition, uint8_t *out, size_t room);

extern capture_function vtiming_capture;    /* the proved code, from libfilm.a */
extern capture_function walker_capture;     /* walker.c, by the system's compiler */
extern capture_function kit_walker_capture; /* walker.c, by the compiler that made libfilm.a */

/* libpcap.c: the same answer for a file on disk, by libpcap's walk over it and the twin. It takes sound captures only, and is
   NO_LIBPCAP where the bench was compiled without. */
#define NO_LIBPCAP 1000
uint32_t libpcap_capture(const char *name, uint16_t port, uint32_t offset, uint8_t rate, uint8_t schedule, uint8_t class, uint16_t height,
                         uint32_t n, uint16_t maxudp, uint32_t tro, uint8_t profile, uint32_t edition, uint8_t *out, size_t room);

#endif
