/* Times the proved measurement and its C twin over the same arrays, in one process, and compares their results.
   Any difference ends the program with status 1. The twin is there twice, by two compilers: the ratio to the one that
   the proved code was compiled by too is of the code alone; the other's has the compilers in it. bench/run links it several times,
   with the timed code at other places, and makes tables of the lines. */
#define _POSIX_C_SOURCE 199309L
#include "feed.h"

#include <inttypes.h>
#include <stdio.h>
#include <stdlib.h>
#include <string.h>
#include <time.h>

#define ROW 11
#define SUMMARY 9
#define UNTOUCHED 0x5555555555555555ll
#define DEFAULT_TRO 0xFFFFFFFFu
#define RECORD_VERSION 2 /* of a record file, the last */
#define EDITIONS 2       /* of the test plan */
#define TIMED 1          /* the edition by which everything is timed */
#define VIDEO 1          /* the profile that is timed, and the kind of its parameters in a record file */
#define COMPRESSED 3     /* the others */
#define INTERLACED 4
#define RATE 6 /* 50 frames a second */
#define FRAME_NS 20000000ull
#define TICKS_PER_FRAME 1800u
#define NINE_TICKS_NS 100000ull /* fewer ticks are no whole nanoseconds */
#define HALFWAY_NS 5000000ull /* multiples lie halfway between two starts of frames or fields at rates 3 and 6 */
#define LONGEST_NS 590000000000ull /* a list longer than 600 s is refused */
#define ROUNDS 2 /* at each place that the code is put at */

/* What is timed: the proved code; its scan alone, or libpcap's way to the same; the twin by the kit's clang and by the system's compiler;
   and the arrays or bytes read once. */
enum { PROVED, PART, KIT, SYSTEM, FLOOR, COLUMNS };

struct list {
    size_t count;
    uint64_t *arrivals;
    uint32_t *stamps;
    uint8_t *markers;
};

struct stream {
    uint8_t rate, schedule, class;
    uint16_t height;
    uint32_t n;
    uint16_t maxudp;
    uint32_t tro;
    uint8_t profile;
    uint32_t edition;
};

/* splitmix64: small, and the same numbers on every machine. */
static uint64_t seed = 2110;
static uint64_t any(void)
{
    uint64_t x = seed += 0x9E3779B97F4A7C15ull;
    x = (x ^ (x >> 30)) * 0xBF58476D1CE4E5B9ull;
    x = (x ^ (x >> 27)) * 0x94D049BB133111EBull;
    return x ^ (x >> 31);
}
static uint64_t below(uint64_t m) { return any() % m; }

static uint8_t no_profile(void) { return (uint8_t)(below(2) ? 2 * below(2) : 5 + below(251)); }

/* The stream as any profile. As interlaced mostly with an even n, twice as many where that may be, so that a field has as many packets as
   the frame had, and with a TRO up to the last below half a frame or one more; else with the numbers that it has. */
static struct stream as_any_profile(struct stream s)
{
    static const uint8_t profiles[] = {VIDEO, VIDEO, COMPRESSED, INTERLACED};
    static const uint32_t last_tro[] = {0, 20854, 20833, 19999, 16683, 16666, 9999, 8341, 8333};
    s.profile = profiles[below(4)];
    if (s.profile != INTERLACED || below(16) == 0) return s;
    s.n = s.n <= 10000 ? 2 * s.n : s.n - s.n % 2;
    s.tro = (uint32_t)(below(8) ? below(last_tro[s.rate] + 1ull) : last_tro[s.rate] + below(2));
    return s;
}

static void *room(size_t bytes)
{
    void *p = malloc(bytes ? bytes : 1);
    if (!p) {
        fprintf(stderr, "bench: no memory for %zu bytes\n", bytes);
        exit(2);
    }
    return p;
}

static struct list new_list(size_t count)
{
    struct list l = {count, room(count * sizeof(uint64_t)), room(count * sizeof(uint32_t)), room(count)};
    return l;
}

static void free_list(struct list l)
{
    free(l.arrivals);
    free(l.stamps);
    free(l.markers);
}

/* A sender on the gapped schedule: the packets of a frame lie 24/25 of it apart in all, each up to two spacings late. */
static struct list jittered(size_t count, uint32_t n)
{
    struct list l = new_list(count);
    const uint64_t spacing = FRAME_NS * 24 / 25 / n;
    const uint64_t epoch = 1700000000ull * 50; /* frames since the SMPTE epoch */
    uint64_t before = 0;
    for (size_t i = 0; i < count; i++) {
        uint64_t frame = epoch + i / n, place = i % n;
        uint64_t t = frame * FRAME_NS + 700000 + place * (FRAME_NS * 24 / 25) / n + (n > 1 ? below(2 * spacing) : below(1000));
        before = l.arrivals[i] = t < before ? before : t;
        l.stamps[i] = (uint32_t)(frame * TICKS_PER_FRAME);
        l.markers[i] = place == n - 1;
    }
    return l;
}

/* Set up and fed in one, as the twin does it. */
static uint32_t proved_feed(uint8_t rate, uint8_t schedule, uint8_t class, uint16_t height, uint32_t n, uint16_t maxudp, uint32_t tro,
                            uint8_t profile, uint32_t edition, const uint64_t *arrivals, size_t arrival_count, const uint32_t *stamps,
                            size_t stamp_count, const uint8_t *markers, size_t marker_count, int64_t *rows, size_t row_count,
                            uint64_t *out, size_t out_count)
{
    uint64_t state[STATE_WORDS];
    uint32_t refused = vtiming_set_up(rate, schedule, class, height, n, maxudp, tro, profile, edition, state, STATE_WORDS);
    if (refused) return refused;
    return vtiming_feed(state, STATE_WORDS, arrivals, arrival_count, stamps, stamp_count, markers, marker_count, rows, row_count, out,
                        out_count);
}

static uint32_t fed(feed_function *feed, struct stream s, struct list l, int64_t *rows, size_t row_count, uint64_t *out)
{
    return feed(s.rate, s.schedule, s.class, s.height, s.n, s.maxudp, s.tro, s.profile, s.edition, l.arrivals, l.count, l.stamps,
                l.count, l.markers, l.count, rows, row_count, out, SUMMARY);
}

static void differ(const char *what, struct stream s, size_t count, size_t place, int64_t proved, int64_t twin)
{
    printf("DIFFERENT: %s %zu: proved %" PRId64 ", twin %" PRId64
           "; rate %u schedule %u class %u height %u n %u maxudp %u tro %u profile %u edition %u, %zu packets\n",
           what, place, proved, twin, s.rate, s.schedule, s.class, s.height, s.n, s.maxudp, s.tro, s.profile, s.edition, count);
    exit(1);
}

/* Both fill buffers that held one known value; all of each is compared, so that a number too many shows too. */
static uint32_t agree_with(feed_function *twin_function, struct stream s, struct list l, size_t row_count)
{
    int64_t *a = room(row_count * sizeof *a), *b = room(row_count * sizeof *b);
    uint64_t x[SUMMARY], y[SUMMARY];
    for (size_t i = 0; i < row_count; i++) a[i] = b[i] = UNTOUCHED;
    for (int i = 0; i < SUMMARY; i++) x[i] = y[i] = UNTOUCHED;
    uint32_t proved = fed(proved_feed, s, l, a, row_count, x), twin = fed(twin_function, s, l, b, row_count, y);
    if (proved != twin) differ("answer", s, l.count, 0, proved, twin);
    for (size_t i = 0; i < row_count; i++)
        if (a[i] != b[i]) differ("row number", s, l.count, i, a[i], b[i]);
    for (size_t i = 0; i < SUMMARY; i++)
        if (x[i] != y[i]) differ("summary number", s, l.count, i, (int64_t)x[i], (int64_t)y[i]);
    free(a);
    free(b);
    return proved;
}

static uint32_t agree(struct stream s, struct list l, size_t row_count)
{
    agree_with(kit_twin_feed, s, l, row_count);
    return agree_with(twin_feed, s, l, row_count);
}

static void agree_in_both_versions(struct stream s, struct list l);

/* The other edition; one that there is not stays as it is. */
static uint32_t other_edition(uint32_t edition) { return edition == 1 || edition == 2 ? 3 - edition : edition; }

/* The number of the buffer answer to a list that is accepted. */
#define BROKEN 4
static uint64_t buffer_by_edition_2(struct stream s, struct list l)
{
    uint64_t out[SUMMARY] = {0};
    size_t row_count = (l.count + 1) * ROW;
    int64_t *rows = room(row_count * sizeof *rows);
    s.edition = EDITIONS;
    fed(proved_feed, s, l, rows, row_count, out);
    free(rows);
    return out[6];
}

/* Short lists of every sort: all rates and classes, frames short, long and of two timestamps, first packets half a wrap from two
   encoded times or between two starts, bursts, long pauses, refusals, a quarter of them compressed and a quarter interlaced. Those that
   are accepted are measured by both editions, and are files as well, of both versions, by both editions. */
static void agree_on_short_lists(unsigned lists)
{
    unsigned by_answer[256] = {0}, broken = 0, compressed = 0, interlaced = 0;
    for (unsigned k = 0; k < lists; k++) {
        struct stream s;
        s.rate = (uint8_t)(1 + below(8));
        s.schedule = (uint8_t)below(2);
        s.class = (uint8_t)(below(2) ? 3 * below(2) : 1u + s.schedule);
        s.height = below(2) ? 1080 : 720;
        s.n = (uint32_t)(below(4) ? 1 + below(8) : 1 + below(20000));
        s.maxudp = below(2) ? 1460 : 8960;
        s.tro = below(2) ? DEFAULT_TRO : (uint32_t)below(16000);
        s.edition = (uint32_t)(1 + below(EDITIONS));
        s = as_any_profile(s);
        const uint64_t closing = s.profile == INTERLACED ? s.n / 2 : s.n; /* packets of what a marker closes */
        if (below(20) == 0) switch (below(9)) { /* one number that set-up refuses */
            case 0: s.rate = 9; break;
            case 1: s.schedule = 2; break;
            case 2: s.class = 4; break;
            case 3: s.height = 0; break;
            case 4: s.n = 20001; break;
            case 5: s.maxudp = 1500; break;
            case 6: s.edition = (uint32_t)(below(2) ? 3 * below(2) : any() | 4); break;
            case 7: s.profile = no_profile(); break;
            default: s.tro = 50000; break;
        }
        struct list l = new_list(below(200));
        uint64_t t = below(2) ? any() >> below(40) : below(100000000);
        uint64_t step = 1 + FRAME_NS / (s.n ? s.n : 1);
        uint32_t stamp = (uint32_t)any();
        if (t > UINT64_MAX - 2000000000000ull) t -= 2000000000000ull;
        uint64_t held = 0;
        for (size_t i = 0; i < l.count; i++) {
            if (held == 0 && below(8) == 0) { /* exactly half a wrap, or a nanosecond to a side */
                t += NINE_TICKS_NS - t % NINE_TICKS_NS;
                stamp = (uint32_t)(t / NINE_TICKS_NS * 9) + (1u << 31);
                t += below(3) - 1;
            } else if (held == 0 && below(8) == 0) { /* exactly between two starts at some rates, or a nanosecond to a side */
                t += HALFWAY_NS - t % HALFWAY_NS;
                t += below(3) - 1;
            }
            l.arrivals[i] = t;
            l.stamps[i] = below(100) ? stamp : (uint32_t)any();
            held++;
            l.markers[i] = below(30) ? held >= closing : (uint8_t)below(2);
            if (l.markers[i]) {
                held = 0;
                stamp += TICKS_PER_FRAME;
            }
            t += below(8) ? below(2 * step) : below(2) ? 0 : below(20 * step);
        }
        if (l.count > 0 && below(20) == 0) {
            size_t i = below(l.count);
            if (below(2)) l.markers[i] = 2;
            else l.arrivals[i] = below(2) ? l.arrivals[i] / 2 : l.arrivals[i] + 600000000001ull;
        }
        size_t row_count = below(10) ? 200 * ROW : below(200);
        uint32_t answer = agree(s, l, row_count);
        by_answer[answer]++;
        s.edition = other_edition(s.edition);
        uint32_t by_other = agree(s, l, row_count);
        if (by_other != answer) differ("answer by the other edition", s, l.count, 0, by_other, answer);
        if (answer == 0) {
            agree_in_both_versions(s, l);
            broken += buffer_by_edition_2(s, l) == BROKEN;
            compressed += s.profile == COMPRESSED;
            interlaced += s.profile == INTERLACED;
        }
        free_list(l);
    }
    printf("%u short lists: the two agree; by edition 2 broken: %u; compressed: %u; interlaced: %u;", lists, broken, compressed, interlaced);
    for (int i = 0; i < 256; i++)
        if (by_answer[i]) printf(" %s%d: %u", i ? "refused by " : "answer ", i, by_answer[i]);
    printf("\n");
}

static double now(void)
{
    struct timespec t;
    clock_gettime(CLOCK_MONOTONIC, &t);
    return (double)t.tv_sec * 1e9 + (double)t.tv_nsec;
}

static volatile uint64_t sink;

/* The floor: each number of the three arrays read once. */
static void read_all(struct list l)
{
    uint64_t sum = 0;
    for (size_t i = 0; i < l.count; i++) sum += l.arrivals[i] ^ l.stamps[i] ^ l.markers[i];
    sink = sum;
}

static void keep_least(double *least, double x)
{
    if (*least == 0 || x < *least) *least = x;
}

/* Nanoseconds for so many calls. One goes before them untimed, here and for files and captures: so each finds in the cache what it has
   left there itself, and not what the function before it in the turn has. */
static double timed(feed_function *feed, size_t calls, struct stream s, struct list l, int64_t *rows, size_t row_count)
{
    uint64_t out[SUMMARY];
    fed(feed, s, l, rows, row_count, out);
    double start = now();
    for (size_t k = 0; k < calls; k++) fed(feed, s, l, rows, row_count, out);
    return now() - start;
}

static struct stream stream_of(uint32_t n)
{
    struct stream s = {RATE, 0, 1, 1080, n, 1460, DEFAULT_TRO, VIDEO, TIMED};
    return s;
}

/* A stream of few packets a frame reaches 600 s first: then the list is as long as may be, and is fed again and again. */
struct load {
    size_t count, calls;
};
static struct load load_of(uint32_t n, size_t wanted)
{
    size_t longest = LONGEST_NS / FRAME_NS * n, count = wanted < longest ? wanted : longest;
    struct load load = {count, (wanted + count - 1) / count};
    return load;
}

/* One line for bench/run, in nanoseconds a packet; "-" is for what was not timed. */
static void tell(const char *kind, uint32_t n, struct load load, const double *times)
{
    printf("%s %" PRIu32 " %zu %zu", kind, n, load.count, load.calls);
    for (int k = 0; k < COLUMNS; k++)
        if (times[k] == 0) printf(" -");
        else printf(" %.3f", times[k] / ((double)load.count * (double)load.calls));
    printf("\n");
}

static void time_lists(uint32_t n, size_t wanted)
{
    struct stream s = stream_of(n);
    struct load load = load_of(n, wanted);
    struct list l = jittered(load.count, n);
    size_t row_count = (load.count / n + 1) * ROW;
    uint32_t answer = agree(s, l, row_count);
    if (answer != 0) {
        printf("DIFFERENT: the list is refused, by %" PRIu32 "\n", answer);
        exit(1);
    }
    int64_t *rows = room(row_count * sizeof *rows);
    memset(rows, 0, row_count * sizeof *rows);
    double times[COLUMNS] = {0};
    for (int round = 0; round < ROUNDS; round++) {
        keep_least(times + PROVED, timed(proved_feed, load.calls, s, l, rows, row_count));
        keep_least(times + KIT, timed(kit_twin_feed, load.calls, s, l, rows, row_count));
        keep_least(times + SYSTEM, timed(twin_feed, load.calls, s, l, rows, row_count));
        double start = now();
        for (size_t k = 0; k < load.calls; k++) read_all(l);
        keep_least(times + FLOOR, now() - start);
    }
    /* A list that is refused at its last packet is scanned and not measured: what the scan costs. */
    l.markers[load.count - 1] = 2;
    for (int round = 0; round < ROUNDS; round++) keep_least(times + PART, timed(proved_feed, load.calls, s, l, rows, row_count));
    tell("feed", n, load, times);
    free(rows);
    free_list(l);
}

/* ---- the C call over a record file */

struct file {
    size_t size;
    uint8_t *bytes;
};

static void put(uint8_t *b, int count, uint64_t x)
{
    for (int k = 0; k < count; k++) b[k] = (uint8_t)(x >> (8 * (count - 1 - k)));
}

static struct file file_of(uint8_t version, struct stream s, struct list l)
{
    struct file f = {19 + 16 * l.count, room(19 + 16 * l.count)};
    uint8_t *b = f.bytes;
    b[0] = version, put(b + 1, 2, 16), b[3] = s.profile, b[4] = s.rate, b[5] = s.schedule, b[6] = s.class;
    put(b + 7, 2, s.height), put(b + 9, 4, s.n), put(b + 13, 2, s.maxudp), put(b + 15, 4, s.tro);
    b += 19;
    for (size_t i = 0; i < l.count; i++, b += 16)
        put(b, 2, 14), b[2] = 2, put(b + 3, 8, l.arrivals[i]), put(b + 11, 4, l.stamps[i]), b[15] = l.markers[i];
    return f;
}

static double timed_file(measure_function *measure, size_t calls, struct file f, uint32_t edition, uint8_t *out, size_t size)
{
    double start = 0;
    for (size_t k = 0; k <= calls; k++) {
        if (k == 1) start = now();
        if (measure(f.bytes, f.size, edition, out, size) == 0) continue;
        printf("DIFFERENT: the file is refused\n");
        exit(1);
    }
    return now() - start;
}

/* The floor: each byte of the file read once, eight at a time. */
static void read_bytes(struct file f)
{
    uint64_t sum = 0, word;
    for (size_t i = 0; i + 8 <= f.size; i += 8) {
        memcpy(&word, f.bytes + i, 8);
        sum += word;
    }
    sink = sum;
}

static void agree_on_file(struct file f, uint32_t edition, uint8_t *out, size_t size)
{
    measure_function *twins[] = {kit_twin_measure, twin_measure};
    uint8_t *twin = room(size);
    for (int k = 0; k < 2; k++) {
        memset(out, 0x55, size);
        memset(twin, 0x55, size);
        timed_file(vtiming_measure, 1, f, edition, out, size);
        timed_file(twins[k], 1, f, edition, twin, size);
        if (memcmp(out, twin, size) != 0) {
            printf("DIFFERENT: the bytes of a file of %zu bytes, by edition %" PRIu32 "\n", f.size, edition);
            exit(1);
        }
    }
    free(twin);
}

/* Of class 0 the two versions may be answered differently, and of broken frames the two editions. */
static void agree_in_both_versions(struct stream s, struct list l)
{
    size_t size = 8 * (SUMMARY + ROW * (l.count + 1));
    uint8_t *out = room(size);
    for (uint8_t version = 1; version <= RECORD_VERSION; version++) {
        struct file f = file_of(version, s, l);
        for (uint32_t edition = 1; edition <= EDITIONS; edition++) agree_on_file(f, edition, out, size);
        free(f.bytes);
    }
    free(out);
}

static struct file jittered_file(uint32_t n, size_t count)
{
    struct list l = jittered(count, n);
    struct file f = file_of(RECORD_VERSION, stream_of(n), l);
    free_list(l);
    return f;
}

static void time_file(uint32_t n, size_t wanted)
{
    struct load load = load_of(n, wanted);
    struct file f = jittered_file(n, load.count);
    size_t size = 8 * (SUMMARY + ROW * (load.count / n + 1));
    uint8_t *out = room(size);
    agree_on_file(f, TIMED, out, size);
    double times[COLUMNS] = {0};
    for (int round = 0; round < ROUNDS; round++) {
        keep_least(times + PROVED, timed_file(vtiming_measure, load.calls, f, TIMED, out, size));
        keep_least(times + KIT, timed_file(kit_twin_measure, load.calls, f, TIMED, out, size));
        keep_least(times + SYSTEM, timed_file(twin_measure, load.calls, f, TIMED, out, size));
        double start = now();
        for (size_t k = 0; k < load.calls; k++) read_bytes(f);
        keep_least(times + FLOOR, now() - start);
    }
    tell("file", n, load, times);
    free(f.bytes);
    free(out);
}

/* ---- the C call over a capture */

#define CAPTURE_SUMMARY 11
#define PORT 20000
#define OFFSET 37
#define HEADERS 54 /* bytes of a frame up to the RTP header's end */
#define WORDS 11   /* of a call of vcapture */

static void put_little(uint8_t *b, uint32_t x)
{
    for (int k = 0; k < 4; k++) b[k] = (uint8_t)(x >> (8 * k));
}

/* Nanoseconds, little-endian, as tcpdump writes it on the machines that stations have; so many bytes captured of each frame. */
static struct file capture_of(struct list l, size_t captured)
{
    struct file f = {24 + (16 + captured) * l.count, room(24 + (16 + captured) * l.count)};
    uint8_t *b = f.bytes;
    memset(b, 0, f.size);
    put_little(b, 0xa1b23c4d), b[4] = 2, b[6] = 4, put_little(b + 16, (uint32_t)captured), put_little(b + 20, 1);
    b += 24;
    for (size_t i = 0; i < l.count; i++, b += captured) {
        put_little(b, (uint32_t)(l.arrivals[i] / 1000000000 - OFFSET)), put_little(b + 4, (uint32_t)(l.arrivals[i] % 1000000000));
        put_little(b + 8, (uint32_t)captured), put_little(b + 12, HEADERS + 1400);
        b += 16;
        put(b + 12, 2, 0x0800), b[14] = 0x45, put(b + 16, 2, HEADERS - 14 + 1400), b[23] = 17, put(b + 36, 2, PORT);
        b[42] = 0x80, b[43] = (uint8_t)(l.markers[i] << 7 | 96), put(b + 44, 2, i & 0xffff), put(b + 46, 4, l.stamps[i]);
    }
    return f;
}

static uint32_t captured_by(capture_function *measure, struct stream s, struct file f, uint8_t *out, size_t size)
{
    return measure(f.bytes, f.size, PORT, OFFSET, s.rate, s.schedule, s.class, s.height, s.n, s.maxudp, s.tro, s.profile, s.edition, out,
                   size);
}

static uint32_t captured_by_libpcap(const char *name, struct stream s, uint8_t *out, size_t size)
{
    return libpcap_capture(name, PORT, OFFSET, s.rate, s.schedule, s.class, s.height, s.n, s.maxudp, s.tro, s.profile, s.edition, out,
                           size);
}

static void must_accept(const char *what, uint32_t refused)
{
    if (refused == 0) return;
    printf("DIFFERENT: %s refuses the capture, by %" PRIu32 "\n", what, refused);
    exit(1);
}

static double timed_capture(capture_function *measure, struct stream s, struct file f, uint8_t *out, size_t size)
{
    double start = 0;
    for (int k = 0; k < 2; k++) {
        start = now();
        must_accept("one of them", captured_by(measure, s, f, out, size));
    }
    return now() - start;
}

static double timed_libpcap(const char *name, struct stream s, uint8_t *out, size_t size)
{
    double start = 0;
    for (int k = 0; k < 2; k++) {
        start = now();
        must_accept("libpcap", captured_by_libpcap(name, s, out, size));
    }
    return now() - start;
}

static void same_bytes(const char *what, const uint8_t *out, const uint8_t *twin, size_t size)
{
    if (memcmp(out, twin, size) == 0) return;
    printf("DIFFERENT: the bytes of a capture, by %s\n", what);
    exit(1);
}

static void save(struct file f, const char *name)
{
    FILE *file = fopen(name, "wb");
    if (!file || fwrite(f.bytes, 1, f.size, file) != f.size || fclose(file) != 0) {
        perror(name);
        exit(2);
    }
}

/* The two on captures that are refused too: a short one with any bit turned, cut anywhere or whole, of any profile, by either edition,
   now and then of a profile or by an edition that there is not. */
static void agree_on_damaged(unsigned captures)
{
    unsigned by_answer[256] = {0};
    struct list l = jittered(8, 2);
    struct file f = capture_of(l, 60), damaged = f;
    free_list(l);
    uint8_t out[8 * (CAPTURE_SUMMARY + ROW * 3)], walked[sizeof out];
    for (unsigned k = 0; k < captures; k++) {
        size_t at = below(f.size);
        uint8_t bit = (uint8_t)(1u << below(8));
        f.bytes[at] ^= bit;
        damaged.size = below(4) ? f.size : below(f.size + 1);
        size_t lent = below(10) ? sizeof out : below(sizeof out);
        memset(out, 0x55, sizeof out);
        memset(walked, 0x55, sizeof walked);
        struct stream s = as_any_profile(stream_of(2));
        s.edition = (uint32_t)(below(50) ? 1 + below(EDITIONS) : 3 * below(2));
        if (below(50) == 0) s.profile = no_profile();
        uint32_t proved = captured_by(vtiming_capture, s, damaged, out, lent);
        uint32_t plain = captured_by(walker_capture, s, damaged, walked, lent);
        f.bytes[at] ^= bit;
        if (proved != plain) {
            printf("DIFFERENT: byte %zu, bit %u, %zu bytes, profile %u, edition %" PRIu32 ": proved %" PRIu32 ", walker %" PRIu32 "\n",
                   at, bit, damaged.size, s.profile, s.edition, proved, plain);
            exit(1);
        }
        same_bytes("the walker, damaged", out, walked, sizeof out);
        by_answer[proved & 255]++;
    }
    printf("%u damaged captures: the two agree;", captures);
    for (int i = 0; i < 256; i++)
        if (by_answer[i]) printf(" %s%d: %u", i ? "refused by " : "answer ", i, by_answer[i]);
    printf("\n");
    free(f.bytes);
}

static struct file jittered_capture(uint32_t n, size_t count, size_t captured)
{
    struct list l = jittered(count, n);
    struct file f = capture_of(l, captured);
    free_list(l);
    return f;
}

/* Whether libpcap is there; where it is, its bytes are compared too. */
static int agree_on_capture(struct stream s, struct file f, const char *name, uint8_t *out, size_t size)
{
    capture_function *walkers[] = {kit_walker_capture, walker_capture};
    uint8_t *twin = room(size);
    memset(out, 0x55, size);
    must_accept("the proved call", captured_by(vtiming_capture, s, f, out, size));
    for (int k = 0; k < 2; k++) {
        memset(twin, 0x55, size);
        must_accept("the walker", captured_by(walkers[k], s, f, twin, size));
        same_bytes("the walker", out, twin, size);
    }
    memset(twin, 0x55, size);
    uint32_t by_libpcap = captured_by_libpcap(name, s, twin, size);
    if (by_libpcap != NO_LIBPCAP) {
        must_accept("libpcap", by_libpcap);
        same_bytes("libpcap", out, twin, size);
    }
    free(twin);
    return by_libpcap != NO_LIBPCAP;
}

static void time_capture(uint32_t n, size_t count, size_t captured, const char *name)
{
    struct stream s = stream_of(n);
    struct file f = jittered_capture(n, count, captured);
    save(f, name);
    size_t size = 8 * (CAPTURE_SUMMARY + ROW * (count / n + 1));
    uint8_t *out = room(size);
    int libpcap = agree_on_capture(s, f, name, out, size);
    double times[COLUMNS] = {0};
    capture_function *const walks[] = {vtiming_capture, kit_walker_capture, walker_capture};
    static const int columns[] = {PROVED, KIT, SYSTEM};
    /* A capture may be larger than the cache, and who comes later in a round finds more of it there: so each comes once at each place. */
    for (int round = 0; round < 3; round++) {
        for (int k = round; k < round + 3; k++) keep_least(times + columns[k % 3], timed_capture(walks[k % 3], s, f, out, size));
        if (libpcap) keep_least(times + PART, timed_libpcap(name, s, out, size));
    }
    char kind[32];
    snprintf(kind, sizeof kind, "capture/%zu", captured);
    tell(kind, n, (struct load){count, 1}, times);
    free(f.bytes);
    free(out);
}

/* ---- one call, for its instructions to be counted */

static int count_feed(feed_function *feed, uint32_t n, size_t count)
{
    struct list l = jittered(count, n);
    size_t row_count = (count / n + 1) * ROW;
    int64_t *rows = room(row_count * sizeof *rows);
    uint64_t out[SUMMARY];
    return fed(feed, stream_of(n), l, rows, row_count, out) != 0;
}

static int count_file(measure_function *measure, uint32_t n, size_t count)
{
    struct file f = jittered_file(n, count);
    size_t size = 8 * (SUMMARY + ROW * (count / n + 1));
    return measure(f.bytes, f.size, TIMED, room(size), size) != 0;
}

static int count_capture(capture_function *measure, uint32_t n, size_t count)
{
    struct file f = jittered_capture(n, count, 96);
    size_t size = 8 * (CAPTURE_SUMMARY + ROW * (count / n + 1));
    return captured_by(measure, stream_of(n), f, room(size), size) != 0;
}

/* The function of that name called once. */
static int call_once(const char *name, uint32_t n, size_t count)
{
    static const char *const names[] = {"vtiming_feed", "kit_twin_feed", "twin_feed", "vtiming_measure", "kit_twin_measure", "twin_measure",
                                        "vtiming_capture", "kit_walker_capture", "walker_capture"};
    feed_function *const feeds[] = {proved_feed, kit_twin_feed, twin_feed};
    measure_function *const measures[] = {vtiming_measure, kit_twin_measure, twin_measure};
    capture_function *const captures[] = {vtiming_capture, kit_walker_capture, walker_capture};
    for (int k = 0; k < 9; k++)
        if (strcmp(name, names[k]) == 0)
            return k < 3   ? count_feed(feeds[k], n, count)
                   : k < 6 ? count_file(measures[k - 3], n, count)
                           : count_capture(captures[k - 6], n, count);
    return 2;
}

/* ---- the programs' files, and libpcap's program */

static int64_t number(const uint8_t *out, size_t k)
{
    uint64_t x = 0;
    for (int i = 0; i < 8; i++) x = x << 8 | out[8 * k + (size_t)i];
    return (int64_t)x;
}

/* What vcapture prints of the file, called with the eleven words that follow it, by libpcap; status 3 where there is no libpcap. */
static int print_by_libpcap(char **words)
{
    static const char *const buffers[] = {"none", "pass", "under", "over", "broken"};
    uint32_t x[WORDS];
    for (int k = 0; k < WORDS; k++) x[k] = (uint32_t)strtoul(words[k + 1], NULL, 10);
    size_t size = 64 << 20;
    uint8_t *out = room(size);
    uint32_t refused = libpcap_capture(words[0], (uint16_t)x[0], x[1], (uint8_t)x[2], (uint8_t)x[3], (uint8_t)x[4], (uint16_t)x[5], x[6],
                                       (uint16_t)x[7], x[8], (uint8_t)x[9], x[10], out, size);
    if (refused) return refused == NO_LIBPCAP ? 3 : 1;
    for (int64_t frame = 0; frame < number(out, 1); frame++) {
        printf("frame");
        for (int k = 0; k < ROW; k++) printf(" %" PRId64, number(out, CAPTURE_SUMMARY + ROW * (size_t)frame + (size_t)k));
        printf("\n");
    }
    printf("packets %" PRId64 " frames %" PRId64 " peak %" PRId64 " network ", number(out, 0), number(out, 1), number(out, 2));
    if (number(out, 3)) printf("burst %" PRId64 " %" PRId64, number(out, 4), number(out, 5));
    else printf("pass");
    printf(" buffer %s", buffers[number(out, 6) % 5]);
    if (number(out, 6) > 1) printf(" %" PRId64 " %" PRId64, number(out, 7), number(out, 8));
    printf(" records %" PRId64 " skipped %" PRId64 "\n", number(out, 9), number(out, 10));
    free(out);
    return 0;
}

static int write_file(struct file f, const char *name)
{
    save(f, name);
    free(f.bytes);
    return 0;
}

static int agree_on_all(void)
{
    agree_on_short_lists(20000);
    agree_on_damaged(20000);
    return 0;
}

/* Three lengths at one n, which show that the time a packet does not depend on the length, and one length at each other n. */
static int time_all(const char *scratch)
{
    static const struct {
        uint32_t n;
        size_t packets;
    } loads[] = {{1, 1000000}, {100, 1000000}, {4320, 100000}, {4320, 1000000}, {4320, 2000000}, {20000, 1000000}};
    for (size_t k = 0; k < sizeof loads / sizeof *loads; k++) time_lists(loads[k].n, loads[k].packets);
    for (size_t k = 0; k < sizeof loads / sizeof *loads; k++) time_file(loads[k].n, loads[k].packets);
    time_capture(4320, 1000000, 96, scratch);
    time_capture(100, 1000000, 96, scratch);
    time_capture(4320, 100000, 1414, scratch);
    return 0;
}

int main(int argc, char **argv)
{
    const char *what = argc > 1 ? argv[1] : "";
    size_t x[3] = {0};
    for (int k = 2; k < argc && k < 5; k++) x[k - 2] = strtoul(argv[k], NULL, 10);
    if (argc == 2 && strcmp(what, "agree") == 0) return agree_on_all();
    if (argc == 3 && strcmp(what, "time") == 0) return time_all(argv[2]);
    if (argc == 5 && strcmp(what, "once") == 0) return call_once(argv[2], (uint32_t)x[1], x[2]);
    if (argc == 5 && strcmp(what, "file") == 0) return write_file(jittered_file((uint32_t)x[0], x[1]), argv[4]);
    if (argc == 6 && strcmp(what, "capture") == 0) return write_file(jittered_capture((uint32_t)x[0], x[1], x[2]), argv[5]);
    if (argc == 3 + WORDS && strcmp(what, "libpcap") == 0) return print_by_libpcap(argv + 2);
    fprintf(stderr, "usage: bench agree; bench time SCRATCH; bench once FUNCTION N PACKETS; bench file N PACKETS FILE;\n"
                    "bench capture N PACKETS CAPTURED FILE; bench libpcap FILE and the eleven words of vcapture\n");
    return 2;
}
