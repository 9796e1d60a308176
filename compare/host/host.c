/* Reads cases from standard input (compare/reference/src/cases.rs says how they look), makes each call, and its twin,
   with each room of the case, and holds the answer against the one the case brings: host DIRECTORY <cases

   It knows how to lend and to compare, and nothing of measuring; of a state, which it carries from call to call, it knows
   where docs/STATE.md puts the summary's numbers, and of a file where version, kind, schedule and class stand, and a record's
   length and kind. Whatever is lent ends at a page that cannot be touched or begins after one, by turns, and has guard bytes on
   its other side. A call may write what the case says at the front of its room and nothing else: no byte behind it, none at all
   where it refuses, none of its input.

   The first case that differs is kept in DIRECTORY, and the host stops there with status 1. */
#define _DEFAULT_SOURCE /* mmap without a file */
#include "../../bench/feed.h"
#include "../../include/vtiming.h"

#include <inttypes.h>
#include <signal.h>
#include <stdarg.h>
#include <stdio.h>
#include <stdlib.h>
#include <string.h>
#include <sys/mman.h>
#include <unistd.h>

enum { MEASURE = 1, WRITE, LIMITS, GRAPH, SET_UP, FEED, CAPTURE, NEXT_READ, CALLS };
enum { ARRIVALS, STAMPS, MARKERS, FILE_BYTES, OUT, STATE, ROWS, AREAS };
enum { LARGEST_PAGE = 1 << 16, GUARD = 256, MOST_LENT = 1 << 22, SECONDS = 100 };
enum { SUMMARY_BYTES = 9 * 8, CAPTURE_SUMMARY_BYTES = 11 * 8, ROW_BYTES = 11 * 8 };
_Static_assert(SUMMARY_BYTES == VTIMING_SUMMARY_BYTES && ROW_BYTES == VTIMING_ROW_BYTES &&
                   CAPTURE_SUMMARY_BYTES == VTIMING_CAPTURE_SUMMARY_BYTES,
               "the header has other sizes");
enum { NUMBERS = 34 }; /* refusals are 1 to 33 */

static const char *const call_names[CALLS] = {"",               "vtiming_measure", "vtiming_write",
                                              "vtiming_limits", "vtiming_graph",   "vtiming_set_up",
                                              "vtiming_feed",   "vtiming_capture", "vtiming_next_read"};

/* --- what a case says --- */

struct room {
    uint64_t lent, place;
    uint32_t number;
};

struct bytes {
    const uint8_t *at;
    size_t count;
};

struct numbers {
    uint8_t rate, schedule, stream_class, profile;
    uint16_t height, maxudp;
    uint32_t packets_per_frame, tro;
};

/* As the functions take them. */
#define SEVEN(n) (n)->rate, (n)->schedule, (n)->stream_class, (n)->height, (n)->packets_per_frame, (n)->maxudp, (n)->tro
#define EIGHT(n) SEVEN(n), (n)->profile

/* One call of a row of them. */
struct feed {
    int anew;
    size_t words, row_count, out_count;
    unsigned change_count;
    struct bytes changes; /* 9 bytes each */
    struct room answer;   /* its number and its place */
    struct bytes nine, rows;
};

static struct {
    uint8_t *raw; /* with its length in front, as it came */
    size_t raw_size, room_size;
    uint64_t index;
    int call;
    uint32_t edition; /* of the calls that take one */
    struct bytes file; /* a record file, or a capture */
    uint16_t port;
    uint32_t offset;
    unsigned parts; /* bits: what some frame that is handed on has */
    uint8_t version; /* that the lists are to be written as */
    struct numbers numbers;
    uint64_t *arrivals;
    uint32_t *stamps;
    size_t arrival_count, stamp_count;
    struct bytes markers;
    int64_t figures[3];
    uint64_t first, arrival; /* of the frame's first packet and of the packet that waits */
    unsigned room_count;
    struct room rooms[255];
    struct bytes filled, measured;
    size_t feed_count;
    struct feed feed;
} now;

static const char *directory;
static unsigned at_room;
static size_t at_feed;
static const char *at_step = "reading";

/* --- the first difference --- */

static void keep(const char *name, const uint8_t *bytes, size_t count) {
    char path[4096];
    snprintf(path, sizeof path, "%s/%s", directory, name);
    FILE *out = fopen(path, "wb");
    if (!out || fwrite(bytes, 1, count, out) != count || fclose(out)) perror(path);
    else printf("  kept: %s\n", path);
}

static void show_numbers(void) {
    const struct numbers *n = &now.numbers;
    printf("  rate %u, schedule %u, class %u, height %u, n %" PRIu32 ", MAXUDP %u, TRO %" PRIu32 "\n", n->rate, n->schedule,
           n->stream_class, n->height, n->packets_per_frame, n->maxudp, n->tro);
}

/* The capture, and the eleven words that the reference program is asked with. */
static void keep_capture(void) {
    const struct numbers *n = &now.numbers;
    char words[128];
    int count = snprintf(words, sizeof words, "%u %" PRIu32 " %u %u %u %u %" PRIu32 " %u %" PRIu32 " %u %" PRIu32 "\n", now.port,
                         now.offset, n->rate, n->schedule, n->stream_class, n->height, n->packets_per_frame, n->maxudp, n->tro,
                         n->profile, now.edition);
    keep("first.pcap", now.file.at, now.file.count);
    keep("first.words", (const uint8_t *)words, (size_t)count);
}

static uint64_t big_endian(const uint8_t *bytes, int count) {
    uint64_t number = 0;
    for (int i = 0; i < count; i++) number = number << 8 | bytes[i];
    return number;
}

static void show_feed(void) {
    const struct feed *f = &now.feed;
    printf("  %zu words, %zu row numbers and %zu of the summary lent\n", f->words, f->row_count, f->out_count);
    for (unsigned i = 0; i < f->change_count; i++)
        printf("  word %u changed to %" PRIu64 "\n", f->changes.at[9 * i], big_endian(f->changes.at + 9 * i + 1, 8));
}

/* Of the calls that take an edition: feed by its set-up. */
static int takes_edition(int call) { return call == MEASURE || call == SET_UP || call == FEED || call == CAPTURE; }

/* And of those that take a profile, as all do that take stream numbers. A file has its own. */
static int takes_profile(int call) { return call != MEASURE && call != GRAPH; }

static _Noreturn void differs(const char *format, ...) {
    va_list rest;
    va_start(rest, format);
    printf("DIFFERENT: case %" PRIu64 ", %s", now.index, call_names[now.call]);
    if (at_room < now.room_count) {
        const struct room *room = &now.rooms[at_room];
        printf(" with room for %" PRIu64 " (%" PRIu32 " at %" PRIu64 " wanted)", room->lent, room->number, room->place);
    }
    if (now.call == FEED)
        printf(", call %zu (%" PRIu32 " at %" PRIu64 " wanted)", at_feed, now.feed.answer.number, now.feed.answer.place);
    printf(", %s: ", at_step);
    vprintf(format, rest);
    printf("\n");
    va_end(rest);
    if (now.call == WRITE) printf("  version %u\n", now.version);
    if (takes_edition(now.call)) printf("  edition %" PRIu32 "\n", now.edition);
    if (takes_profile(now.call)) printf("  profile %u\n", now.numbers.profile);
    if (takes_profile(now.call)) show_numbers();
    if (now.call == CAPTURE) printf("  port %u, offset %" PRIu32 "\n", now.port, now.offset);
    if (now.call == WRITE || now.call == FEED)
        printf("  %zu arrivals, %zu stamps, %zu markers\n", now.arrival_count, now.stamp_count, now.markers.count);
    if (now.call == FEED) show_feed();
    if (now.call == NEXT_READ) printf("  first %" PRIu64 ", arrival %" PRIu64 "\n", now.first, now.arrival);
    if (now.call == GRAPH)
        printf("  FPT %" PRId64 ", margin %" PRId64 ", VL %" PRId64 "\n", now.figures[0], now.figures[1], now.figures[2]);
    keep("first.case", now.raw, now.raw_size);
    if (now.call == MEASURE) keep("first.rec", now.file.at, now.file.count);
    if (now.call == CAPTURE) keep_capture();
    fflush(stdout);
    _exit(1);
}

/* A fault or an alarm comes out of the call under test, which holds no lock of the C library: printing is safe enough. */
static void on_signal(int number) {
    if (number == SIGALRM) differs("the call did not end in %d s", SECONDS);
    differs("the call touched what was not lent (signal %d)", number);
}

/* --- areas between pages that cannot be touched --- */

static uint8_t *areas[AREAS]; /* MOST_LENT bytes each */

static void map_areas(void) {
    for (int i = 0; i < AREAS; i++) {
        uint8_t *map = mmap(NULL, MOST_LENT + 2 * LARGEST_PAGE, PROT_NONE, MAP_PRIVATE | MAP_ANONYMOUS, -1, 0);
        if (map == MAP_FAILED || mprotect(map + LARGEST_PAGE, MOST_LENT, PROT_READ | PROT_WRITE)) {
            perror("mmap");
            exit(2);
        }
        areas[i] = map + LARGEST_PAGE;
    }
}

/* What is lent, and what must be in it and beside it afterwards. */
struct lent {
    uint8_t *at, *guard;
    size_t size;
    int fill;
};

static unsigned turn; /* which of the two edges, which filling byte, and whether no room is a null pointer */

/* Lends `size` bytes against one edge of an area; `against_end` says which. */
static struct lent lend(int area, size_t size, const void *content, int fill) {
    int against_end = turn & 1;
    if (size + GUARD > MOST_LENT) differs("the host has no room for %zu bytes", size);
    struct lent lent = {.at = against_end ? areas[area] + MOST_LENT - size : areas[area], .size = size, .fill = fill};
    lent.guard = against_end ? lent.at - GUARD : lent.at + size;
    memset(lent.guard, fill, GUARD);
    if (content) memcpy(lent.at, content, size);
    else memset(lent.at, fill, size);
    return lent;
}

static void all_are(const uint8_t *bytes, size_t count, int fill, const char *what) {
    for (size_t i = 0; i < count; i++)
        if (bytes[i] != fill) differs("it wrote to byte %zu %s", i, what);
}

static void unchanged(const struct lent *lent, const void *content, const char *what) {
    if (lent->size && memcmp(lent->at, content, lent->size)) differs("it changed %s", what);
    all_are(lent->guard, GUARD, lent->fill, "beside its input");
}

/* The front of the room is `wanted`, where the call was accepted; all behind it is as it was. */
static void room_holds(const struct lent *lent, struct bytes wanted) {
    for (size_t i = 0; i < wanted.count; i++)
        if (lent->at[i] != wanted.at[i])
            differs("byte %zu (number %zu) is 0x%02x, not 0x%02x", i, i / 8, lent->at[i], wanted.at[i]);
    all_are(lent->at + wanted.count, lent->size - wanted.count, lent->fill, "behind its answer, or though it refused");
    all_are(lent->guard, GUARD, lent->fill, "beside its room");
}

/* A room of none may come with any pointer, a null one too. */
static void *pointer(const struct lent *lent) { return lent->size == 0 && (turn & 2) ? NULL : lent->at; }

/* --- what was seen --- */

static uint64_t cases[CALLS], calls_made, seen[CALLS][NUMBERS], accepted_room[2], refused_room[3];
static uint64_t round_trips, cuttings, large_rooms, with_skipped, with_part[4];

/* A number of an answer, or of a row. */
static uint64_t number_of(const uint8_t *numbers, int k) { return big_endian(numbers + 8 * k, 8); }

/* Where a file has the kind of its first record, which is one of parameters if the file is accepted; after version and length. */
enum { FIRST_KIND = 3, PARAMETERS = 16, SECOND_RECORD = 1 + 2 + PARAMETERS };

/* The version of a file, or of lists that are written; 0 where there is none, or one that there is not. */
static unsigned version_now(void) {
    unsigned version = now.call == WRITE ? now.version : now.call == MEASURE && now.file.count ? now.file.at[0] : 0;
    return version <= 2 ? version : 0;
}

/* The profiles as they are counted. One that there is not counts as video. */
enum { VIDEO, COMPRESSED, INTERLACED, PROFILES };
static const uint8_t profile_kinds[PROFILES] = {VTIMING_PROFILE_VIDEO, VTIMING_PROFILE_COMPRESSED, VTIMING_PROFILE_INTERLACED};
static const char *const as_profile[PROFILES] = {"", " as compressed", " as interlaced"};

static unsigned counted_as(uint8_t kind) {
    for (unsigned i = 0; i < PROFILES; i++)
        if (profile_kinds[i] == kind) return i;
    return VIDEO;
}

/* The profile of a case: a file's is the kind of its first record, which is one of parameters if the file is accepted. */
static unsigned profile_now(void) {
    if (now.call == MEASURE) return now.file.count > FIRST_KIND ? counted_as(now.file.at[FIRST_KIND]) : VIDEO;
    return counted_as(now.numbers.profile);
}

/* What the answers said, of files, of captures and of lists that are fed. */
enum { EDITIONS = 2, BUFFERS = 5, KINDS = 4, VERSIONS = 3 };
static struct said {
    uint64_t kinds[KINDS], networks[2], buffers[EDITIONS][BUFFERS], placed_broken;
    uint64_t broken_of[KINDS], broken_later; /* by the broken frame's kind; after a whole one */
    uint64_t pass_of_several;                /* by edition 2 */
    uint64_t before_broken[BUFFERS];         /* under or over by edition 2, and a broken frame after it */
    uint64_t and_broken[BUFFERS];            /* by edition 1 so, and by edition 2 broken */
    uint64_t same[BUFFERS];                  /* by both editions so */
    uint64_t compressed[EDITIONS][BUFFERS];  /* none as compressed, and so as video by the same edition */
    uint64_t compressed_kinds[KINDS];
    uint64_t interlaced[EDITIONS][BUFFERS], interlaced_kinds[KINDS];
    uint64_t interlaced_alone[EDITIONS]; /* another answer than as video by the same edition */
    struct answer {
        uint64_t index, numbers[9];
        int known;
    } video[EDITIONS][VERSIONS]; /* the last answer as video by this edition, by the file's version; without a file it is at 0 */
} of_files, of_captures, of_feeds;

/* The answer to the same input as video, by an edition; none where that was not tried. An input's cases come one after the other
   and have its index, those as video before those as any other profile. */
static const struct answer *answer_of_video(const struct said *said, unsigned edition) {
    const struct answer *answer = &said->video[edition][version_now()];
    return answer->known && answer->index == now.index ? answer : NULL;
}

static void numbers_are(const uint8_t *nine, const struct answer *other, const char *otherwise) {
    for (int k = 0; k < 6; k++)
        if (other->numbers[k] != number_of(nine, k)) differs("number %d is wanted otherwise %s", k, otherwise);
}

/* The numbers of reads are 0 in every row, and the buffer answer is none; all else is as it is as video. */
static void count_compressed(struct said *said, const uint8_t *nine, const uint8_t *rows, unsigned second) {
    const struct answer *video = answer_of_video(said, second);
    for (int k = 6; k < 9; k++)
        if (number_of(nine, k)) differs("number %d is wanted above 0 as compressed", k);
    for (uint64_t i = 0; i < number_of(nine, 1); i++) {
        const uint8_t *row = rows + ROW_BYTES * i;
        if (number_of(row, 8) || number_of(row, 9)) differs("row %" PRIu64 " is wanted with peak or least as compressed", i);
        said->compressed_kinds[number_of(row, 1) % KINDS]++;
    }
    if (!video) return;
    numbers_are(nine, video, "as video");
    said->compressed[second][video->numbers[6] < BUFFERS ? video->numbers[6] : 0]++;
}

/* A row is a field's, and closes where as video a frame's does; the bucket is that of the whole frame, and the same as video. */
static void count_interlaced(struct said *said, const uint8_t *nine, const uint8_t *rows, unsigned second) {
    const struct answer *video = answer_of_video(said, second);
    uint64_t buffer = number_of(nine, 6);
    said->interlaced[second][buffer < BUFFERS ? buffer : 0]++;
    for (uint64_t i = 0; i < number_of(nine, 1); i++) said->interlaced_kinds[number_of(rows + ROW_BYTES * i, 1) % KINDS]++;
    if (!video) return;
    numbers_are(nine, video, "as video");
    said->interlaced_alone[second] += video->numbers[6] != buffer;
}

/* What edition 2 alone says, and what both editions say of one input: all but the buffer answer is the same. */
static void count_second(struct said *said, const uint8_t *nine, uint64_t broken_after) {
    uint64_t frames = number_of(nine, 1), buffer = number_of(nine, 6), frame = number_of(nine, 7);
    const struct answer *by_1 = answer_of_video(said, 0);
    if (buffer == VTIMING_BUFFER_BROKEN) said->broken_of[number_of(nine, 8) % KINDS]++, said->broken_later += frame > 0;
    if (buffer == VTIMING_BUFFER_PASS) said->pass_of_several += frames > 1;
    if (broken_after && (buffer == VTIMING_BUFFER_UNDER || buffer == VTIMING_BUFFER_OVER)) said->before_broken[buffer]++;
    if (!by_1) return;
    numbers_are(nine, by_1, "by the other edition");
    if (buffer == VTIMING_BUFFER_BROKEN) said->and_broken[by_1->numbers[6] < BUFFERS ? by_1->numbers[6] : 0]++;
    else if (by_1->numbers[6] == buffer) said->same[buffer < BUFFERS ? buffer : 0]++;
}

/* The first nine numbers, and the rows. Those by edition 1 come before those by edition 2. */
static void count_answer(struct said *said, const uint8_t *nine, const uint8_t *rows) {
    uint64_t frames = number_of(nine, 1), buffer = number_of(nine, 6), frame = number_of(nine, 7), broken_after = 0;
    unsigned second = now.edition == VTIMING_EDITION_2;
    switch (profile_now()) {
    case COMPRESSED: count_compressed(said, nine, rows, second); return;
    case INTERLACED: count_interlaced(said, nine, rows, second); return;
    }
    said->networks[number_of(nine, 3) & 1]++;
    said->buffers[second][buffer < BUFFERS ? buffer : 0]++;
    for (uint64_t i = 0; i < frames; i++) {
        const uint8_t *row = rows + ROW_BYTES * i;
        uint64_t kind = number_of(row, 1) % KINDS, place = number_of(row, 10);
        said->kinds[kind]++;
        said->placed_broken += kind > 0 && place > 0;
        broken_after += kind > 0 && i > frame;
    }
    struct answer *own = &said->video[second][version_now()];
    own->index = now.index, own->known = 1;
    for (int k = 0; k < 9; k++) own->numbers[k] = number_of(nine, k);
    if (second) count_second(said, nine, broken_after);
}

static void count_capture(struct bytes answer) {
    count_answer(&of_captures, answer.at, answer.at + CAPTURE_SUMMARY_BYTES);
    with_skipped += big_endian(answer.at + 80, 8) > 0;
    for (int i = 0; i < 4; i++) with_part[i] += now.parts >> i & 1;
}

/* By profile: none is left, a read is to come, or comes at the packet's own arrival. */
enum { READ_OVER, READ_LEFT, READ_NOW, WAITS };
static uint64_t next_reads[PROFILES][WAITS];

static void count_next_read(struct bytes answer) {
    int which = !big_endian(answer.at, 8) ? READ_OVER : big_endian(answer.at + 8, 8) ? READ_LEFT : READ_NOW;
    next_reads[profile_now()][which]++;
}

/* Cases that some room is enough for. */
static uint64_t accepted_as[CALLS][PROFILES];

/* Class 0 where it was accepted, by profile, by the file's version, which is 0 without a file, and by schedule. */
static uint64_t class_0[CALLS][PROFILES][VERSIONS][2];

/* Files of class 0 that pass in version 1, where it is wide, and not in version 2, where it is strict; by profile and by schedule.
   An input's cases come one after the other and have its index, version 1 first. */
static struct meaning {
    uint64_t index, network, buffer; /* of the last in version 1 */
    uint64_t bursts[2], overflows[2];
} as_read[PROFILES], as_written[PROFILES];

static void count_meaning(struct meaning *meaning, struct bytes answer, unsigned version, unsigned schedule) {
    uint64_t network = big_endian(answer.at + 24, 8), buffer = big_endian(answer.at + 48, 8);
    if (version == 1) {
        meaning->index = now.index, meaning->network = network, meaning->buffer = buffer;
    } else if (meaning->index == now.index) {
        meaning->bursts[schedule] += meaning->network == VTIMING_NETWORK_PASS && network == VTIMING_NETWORK_BURST;
        meaning->overflows[schedule] += meaning->buffer == VTIMING_BUFFER_PASS && buffer == VTIMING_BUFFER_OVER;
    }
}

/* Of an accepted case. A file's parameters come after its version and their length: kind, rate, schedule, class. */
static void count_class_0(void) {
    const uint8_t *file = now.file.at;
    unsigned version = version_now(), profile = profile_now();
    unsigned schedule = now.call == MEASURE ? file[5] : now.numbers.schedule;
    unsigned stream_class = now.call == MEASURE ? file[6] : now.numbers.stream_class;
    if (stream_class != 0 || schedule > 1) return;
    class_0[now.call][profile][version][schedule]++;
    /* As no video a file comes in either version by either edition. No burst depends on that, and as long as every frame passes no
       frame that is over does. */
    if (now.call == MEASURE && (profile != VIDEO || now.edition == VTIMING_EDITION_1))
        count_meaning(&as_read[profile], now.filled, version, schedule);
    if (now.call == WRITE) count_meaning(&as_written[profile], now.measured, version, schedule);
}

/* Versions that there are not, as cases have them for every fixed input. */
static const uint8_t other_versions[] = {0, 3, 255};
#define OTHER_VERSIONS (sizeof other_versions / sizeof *other_versions)
static uint64_t with_version[CALLS][OTHER_VERSIONS], of_nothing;

/* Of a case that is refused by 20. */
static void count_version(void) {
    if (now.call == MEASURE && !now.file.count) {
        of_nothing++;
        return;
    }
    uint8_t version = now.call == MEASURE ? now.file.at[0] : now.version;
    for (size_t i = 0; i < OTHER_VERSIONS; i++) with_version[now.call][i] += version == other_versions[i];
}

/* Editions and profiles that there are not, as cases have them for every fixed input; and with what else is wrong they come: what
   is given before 8 or before 22, and what is not given since 8 or 22 is. That is what the same input was given just before, as
   video by edition 1. */
static const uint32_t other_editions[] = {0, 3, 255, UINT32_MAX};
static const uint8_t other_profiles[] = {0, 2, 5, 255};
#define OTHER_EDITIONS (sizeof other_editions / sizeof *other_editions)
#define OTHER_PROFILES (sizeof other_profiles / sizeof *other_profiles)
static uint64_t with_edition[CALLS][OTHER_EDITIONS], before_8[CALLS][NUMBERS], after_8[CALLS][NUMBERS];
static uint64_t with_profile[CALLS][OTHER_PROFILES], before_22[CALLS][NUMBERS], after_22[CALLS][NUMBERS];

/* What was given as video by edition 1, by the version; without one it is at 0. */
static struct usual {
    uint64_t index;
    unsigned count;
    uint32_t numbers[255];
    size_t filled;
} usual[CALLS][VERSIONS];

/* A list that is fed is set up by other editions and as other profiles as a case of its own. */
static struct usual *as_usual(void) { return &usual[now.call == FEED ? SET_UP : now.call][version_now()]; }

static int refused_by(uint32_t number) { return now.room_count && now.rooms[0].number == number; }

static int edition_known(void) {
    return !takes_edition(now.call) || now.edition == VTIMING_EDITION_1 || now.edition == VTIMING_EDITION_2;
}

static int profile_known(void) {
    return !takes_profile(now.call) || profile_kinds[counted_as(now.numbers.profile)] == now.numbers.profile;
}

/* What the same input was given as usual has not come to. */
static void count_usual(uint64_t after[NUMBERS]) {
    const struct usual *same = as_usual();
    for (unsigned i = 0; same->index == now.index && i < same->count; i++) after[same->numbers[i] % NUMBERS]++;
}

static void count_edition(void) {
    if (refused_by(VTIMING_REFUSED_EDITION)) {
        for (size_t i = 0; i < OTHER_EDITIONS; i++) with_edition[now.call][i] += now.edition == other_editions[i];
        count_usual(after_8[now.call]);
    } else {
        before_8[now.call][now.rooms[0].number % NUMBERS]++;
    }
}

/* 22 comes before 8 too. */
static void count_profile(void) {
    if (refused_by(VTIMING_REFUSED_KIND)) {
        for (size_t i = 0; i < OTHER_PROFILES; i++) with_profile[now.call][i] += now.numbers.profile == other_profiles[i];
        after_22[now.call][VTIMING_REFUSED_EDITION] += !edition_known();
        count_usual(after_22[now.call]);
    } else {
        before_22[now.call][now.rooms[0].number % NUMBERS]++;
    }
}

/* Refused as interlaced by 5 or by 7, and accepted as video. */
static uint64_t refused_alone[CALLS][2];

/* Where the input is a list that is fed as video, it has been accepted and has no rooms. */
static void count_alone(void) {
    const struct usual *same = as_usual();
    if (profile_now() != INTERLACED || same->index != now.index || (same->count && same->numbers[0])) return;
    refused_alone[now.call][0] += refused_by(VTIMING_REFUSED_PACKETS_PER_FRAME);
    refused_alone[now.call][1] += refused_by(VTIMING_REFUSED_TRO);
}

/* Of every case of a call that takes an edition or a profile, or a file, which has one. */
static void count_others(void) {
    if (!profile_known()) {
        count_profile();
    } else if (!edition_known()) {
        count_edition();
    } else if ((!takes_edition(now.call) || now.edition == VTIMING_EDITION_1) && profile_now() == VIDEO) {
        struct usual *same = as_usual();
        same->index = now.index, same->count = now.room_count, same->filled = now.filled.count;
        for (unsigned i = 0; i < now.room_count; i++) same->numbers[i] = now.rooms[i].number;
    }
}

/* Files refused by their records' kinds: parameters again by the kind of the first and of the second, at once or after packets;
   known kinds of a wrong length; and the first kind that there is not. */
enum { NO_KIND = 5 };
static uint64_t again[PROFILES][PROFILES][2], wrong_length[NO_KIND], of_no_kind;

static void count_kind(void) {
    const uint8_t *file = now.file.at;
    uint64_t place = now.rooms[0].place;
    if (place + 3 > now.file.count) return; /* a lone version byte */
    uint8_t kind = file[place + 2];
    if (refused_by(VTIMING_REFUSED_PARAMETERS) && place > 1)
        again[counted_as(file[FIRST_KIND])][counted_as(kind)][place > SECOND_RECORD]++;
    if (refused_by(VTIMING_REFUSED_KIND) && kind > 0 && kind < NO_KIND) wrong_length[kind]++;
    of_no_kind += refused_by(VTIMING_REFUSED_KIND) && kind == NO_KIND && big_endian(file + place, 2) == PARAMETERS;
}

static void count_room(const struct room *room, uint64_t needed) {
    if (room->number == 0) accepted_room[room->lent > needed]++;
    else if (room->number == 15 || room->number == 24) refused_room[room->lent == 0 ? 0 : room->lent + 1 == needed ? 1 : 2]++;
}

/* --- the calls --- */

/* Rooms that no machine can lend. A large case is tried with one of them, by turns. */
static const size_t large[] = {SIZE_MAX, SIZE_MAX - 1, SIZE_MAX / 8, (size_t)1 << 63};
#define LARGE_ROOMS (sizeof large / sizeof *large)
enum { HEAVY = 1 << 14 };

static int is_heavy(void) { return now.raw_size >= HEAVY; }

static size_t first_large(void) { return is_heavy() ? calls_made % LARGE_ROOMS : 0; }

static size_t end_of_large(size_t first) { return is_heavy() ? first + 1 : LARGE_ROOMS; }

static void answers(uint64_t got, uint64_t wanted, const char *what) {
    calls_made++;
    if (got != wanted) differs("%s %" PRIu64 ", not %" PRIu64, what, got, wanted);
}

/* On the machine elements are little-endian; a case has them the other way. */
static struct bytes turned_round(struct bytes from, uint8_t *to) {
    for (size_t i = 0; i < from.count; i += 8)
        for (size_t j = 0; j < 8; j++) to[i + j] = from.at[i + 7 - j];
    return (struct bytes){to, from.count};
}

static void measure(struct bytes file, uint32_t edition, const struct room *room, struct bytes answer, int fill) {
    struct lent in = lend(FILE_BYTES, file.count, file.at, fill), out = lend(OUT, room->lent, NULL, fill);
    at_step = "vtiming_measure";
    answers(vtiming_measure(pointer(&in), in.size, edition, pointer(&out), out.size), room->number, "number");
    room_holds(&out, room->number ? (struct bytes){NULL, 0} : answer);
    at_step = "vtiming_measure_offset";
    answers(vtiming_measure_offset(pointer(&in), in.size, edition, out.size), room->place, "offset");
    unchanged(&in, file.at, "the file");
}

static void write_file(const struct room *room, int fill) {
    const struct numbers *n = &now.numbers;
    struct lent arrivals = lend(ARRIVALS, 8 * now.arrival_count, now.arrivals, fill);
    struct lent stamps = lend(STAMPS, 4 * now.stamp_count, now.stamps, fill);
    struct lent markers = lend(MARKERS, now.markers.count, now.markers.at, fill);
    struct lent out = lend(OUT, room->lent, NULL, fill);
    at_step = "vtiming_write";
    answers(vtiming_write(now.version, EIGHT(n), pointer(&arrivals), now.arrival_count, pointer(&stamps), now.stamp_count,
                          pointer(&markers), now.markers.count, pointer(&out), out.size),
            room->number, "number");
    room_holds(&out, room->number ? (struct bytes){NULL, 0} : now.filled);
    at_step = "vtiming_write_place";
    answers(vtiming_write_place(now.version, EIGHT(n), pointer(&arrivals), now.arrival_count, pointer(&stamps),
                                now.stamp_count, pointer(&markers), now.markers.count, out.size),
            room->place, "place");
    unchanged(&arrivals, now.arrivals, "the arrivals");
    unchanged(&stamps, now.stamps, "the timestamps");
    unchanged(&markers, now.markers.at, "the markers");
    if (room->number == 0) {
        /* The file as the call has just written it, and what the reference measures of it by edition 1. */
        struct room all = {.lent = now.measured.count};
        struct bytes written = {now.filled.at, now.filled.count};
        measure(written, VTIMING_EDITION_1, &all, now.measured, fill);
        round_trips++;
    }
}

static void capture(const struct room *room, int fill) {
    const struct numbers *n = &now.numbers;
    struct lent in = lend(FILE_BYTES, now.file.count, now.file.at, fill), out = lend(OUT, room->lent, NULL, fill);
    at_step = "vtiming_capture";
    answers(vtiming_capture(pointer(&in), in.size, now.port, now.offset, EIGHT(n), now.edition, pointer(&out), out.size),
            room->number, "number");
    room_holds(&out, room->number ? (struct bytes){NULL, 0} : now.filled);
    at_step = "vtiming_capture_place";
    answers(vtiming_capture_place(pointer(&in), in.size, now.port, now.offset, EIGHT(n), now.edition, out.size), room->place,
            "place");
    unchanged(&in, now.file.at, "the capture");
}

static void limits(const struct room *room, int fill) {
    const struct numbers *n = &now.numbers;
    uint8_t wanted[64];
    struct lent out = lend(OUT, 8 * room->lent, NULL, fill);
    at_step = "vtiming_limits";
    answers(vtiming_limits(EIGHT(n), pointer(&out), room->lent), room->number, "number");
    room_holds(&out, room->number ? (struct bytes){NULL, 0} : turned_round(now.filled, wanted));
}

static void graph(const struct room *room, int fill) {
    uint8_t wanted[64];
    struct lent out = lend(OUT, 8 * room->lent, NULL, fill);
    at_step = "vtiming_graph";
    answers(vtiming_graph(now.figures[0], now.figures[1], now.figures[2], pointer(&out), room->lent), room->number, "number");
    room_holds(&out, room->number ? (struct bytes){NULL, 0} : turned_round(now.filled, wanted));
}

static void next_read(const struct room *room, int fill) {
    const struct numbers *n = &now.numbers;
    uint8_t wanted[64];
    struct lent out = lend(OUT, 8 * room->lent, NULL, fill);
    at_step = "vtiming_next_read";
    answers(vtiming_next_read(EIGHT(n), now.first, now.arrival, pointer(&out), room->lent), room->number, "number");
    room_holds(&out, room->number ? (struct bytes){NULL, 0} : turned_round(now.filled, wanted));
}

/* --- a state that is carried from call to call --- */

static uint64_t held[STATE_WORDS]; /* the words that set-up, or the last accepted call, left */

/* Every state that the calls of a case came to: as all of them deal out one list, as many packets are always one state. */
static uint64_t (*reached)[STATE_WORDS];
static size_t reached_count, reached_room;

static void remember(const void *words) {
    if (reached_count == reached_room) reached = realloc(reached, (reached_room = 2 * reached_room + 64) * sizeof *reached);
    if (!reached) exit(2);
    memcpy(reached[reached_count++], words, sizeof *reached);
}

/* docs/STATE.md: where the packets so far stand, and the nine numbers of the summary. */
enum { PACKETS = 9 };
static const int summary_words[9] = {PACKETS, 19, 14, 15, 16, 17, 32, 33, 34};

static uint32_t call_set_up(const struct lent *state) {
    const struct numbers *n = &now.numbers;
    at_step = "vtiming_set_up";
    return vtiming_set_up(EIGHT(n), now.edition, pointer(state), state->size / 8);
}

/* What stands in the words is the library's own, but for the seven numbers, the edition and the profile; it may not depend on what
   stood there. */
static void set_up(const struct room *room, int fill) {
    const struct numbers *n = &now.numbers;
    const uint64_t nine[9] = {n->rate,   n->schedule, n->stream_class, n->height, n->packets_per_frame,
                              n->maxudp, n->tro,      now.edition,     n->profile};
    struct lent state = lend(STATE, 8 * room->lent, NULL, fill);
    answers(call_set_up(&state), room->number, "number");
    if (room->number) {
        room_holds(&state, (struct bytes){NULL, 0});
        return;
    }
    if (memcmp(state.at, nine, sizeof nine)) differs("the first words are not the seven numbers, the edition and the profile");
    if (!reached_count) remember(state.at);
    if (memcmp(state.at, reached[0], sizeof held)) differs("it set up two states");
    room_holds(&state, (struct bytes){state.at, sizeof held});
}

/* A stream set up for the calls after it. */
static void begin_stream(int fill) {
    struct lent state = lend(STATE, sizeof held, NULL, fill);
    answers(call_set_up(&state), 0, "number");
    memcpy(held, state.at, sizeof held);
}

static uint64_t place_of_feed(const struct lent *state, const struct lent *arrivals, const struct lent *stamps,
                              const struct lent *markers, size_t rows, size_t out) {
    at_step = "vtiming_feed_place";
    return vtiming_feed_place(pointer(state), state->size / 8, pointer(arrivals), now.arrival_count, pointer(stamps),
                              now.stamp_count, pointer(markers), now.markers.count, rows, out);
}

/* The state after an accepted call: its words, of which nine are the summary's, and what stood behind them. */
static void state_holds(const struct lent *state, const uint64_t *given, const struct lent *out) {
    uint64_t after[STATE_WORDS], numbers[9];
    memcpy(after, state->at, sizeof after);
    memcpy(numbers, out->at, sizeof numbers);
    for (int i = 0; i < 9; i++)
        if (after[summary_words[i]] != numbers[i]) differs("word %d is not number %d of the summary", summary_words[i], i);
    if (now.arrival_count == 0 && memcmp(after, given, sizeof after)) differs("no packets, and it changed the state");
    if (memcmp(state->at + sizeof held, given + STATE_WORDS, state->size - sizeof held))
        differs("it changed words behind the state");
    all_are(state->guard, GUARD, state->fill, "beside the state");
}

/* One call of a row, and its twin, on the words that are held; `after` are the words then. */
static void feed_once(int fill, uint64_t *after) {
    static uint8_t wanted[MOST_LENT];
    const struct feed *f = &now.feed;
    const struct bytes nothing = {NULL, 0};
    uint64_t given[256];
    memset(given, fill, sizeof given);
    memcpy(given, held, sizeof held);
    for (unsigned i = 0; i < f->change_count; i++) given[f->changes.at[9 * i]] = big_endian(f->changes.at + 9 * i + 1, 8);
    struct lent state = lend(STATE, 8 * f->words, given, fill);
    struct lent arrivals = lend(ARRIVALS, 8 * now.arrival_count, now.arrivals, fill);
    struct lent stamps = lend(STAMPS, 4 * now.stamp_count, now.stamps, fill);
    struct lent markers = lend(MARKERS, now.markers.count, now.markers.at, fill);
    struct lent rows = lend(ROWS, 8 * f->row_count, NULL, fill), out = lend(OUT, 8 * f->out_count, NULL, fill);
    answers(place_of_feed(&state, &arrivals, &stamps, &markers, f->row_count, f->out_count), f->answer.place, "place");
    for (size_t first = first_large(), i = first; i < end_of_large(first); i++, large_rooms++)
        answers(place_of_feed(&state, &arrivals, &stamps, &markers, large[i], large[LARGE_ROOMS - 1 - i]),
                f->answer.number == 15 ? 0 : f->answer.place, "place with ample room");
    unchanged(&state, given, "the state");
    at_step = "vtiming_feed";
    answers(vtiming_feed(pointer(&state), f->words, pointer(&arrivals), now.arrival_count, pointer(&stamps), now.stamp_count,
                         pointer(&markers), now.markers.count, pointer(&rows), f->row_count, pointer(&out), f->out_count),
            f->answer.number, "number");
    if (f->answer.number) unchanged(&state, given, "the state, though it refused");
    else state_holds(&state, given, &out);
    room_holds(&rows, f->answer.number ? nothing : turned_round(f->rows, wanted));
    room_holds(&out, f->answer.number ? nothing : turned_round(f->nine, wanted));
    unchanged(&arrivals, now.arrivals, "the arrivals");
    unchanged(&stamps, now.stamps, "the timestamps");
    unchanged(&markers, now.markers.at, "the markers");
    if (!f->answer.number) memcpy(after, state.at, sizeof held);
}

/* The words after an accepted call: wherever the list was cut, so many packets are one state. */
static void go_on(const uint64_t *after) {
    memcpy(held, after, sizeof held);
    for (size_t i = 0; i < reached_count; i++)
        if (reached[i][PACKETS] == held[PACKETS]) {
            if (memcmp(reached[i], held, sizeof held))
                differs("%" PRIu64 " packets, cut otherwise, had other words", held[PACKETS]);
            cuttings++;
            return;
        }
    remember(held);
}

/* --- rooms near the greatest size: the twins take only the number, and answer as for any ample room --- */

/* The functions that say the room take no edition, and say it of those that there are not as of the others. It is the same of every
   profile that is accepted. Where the case that has it was not tried, as of a case that is tried again, any room will do. */
static void says_room(uint64_t got) {
    const struct usual *same = as_usual();
    int elsewhere = refused_by(VTIMING_REFUSED_EDITION), tried = same->count && same->index == now.index;
    if (!elsewhere || tried) answers(got, elsewhere ? same->filled : now.filled.count, "room for the answer");
}

static void ample_rooms(int fill) {
    uint64_t wanted = now.filled.count ? 0 : now.rooms[0].place;
    const struct numbers *n = &now.numbers;
    size_t first = first_large();
    if (now.call == MEASURE) {
        struct lent in = lend(FILE_BYTES, now.file.count, now.file.at, fill);
        at_step = "vtiming_measure_offset";
        for (size_t i = first; i < end_of_large(first); i++, large_rooms++)
            answers(vtiming_measure_offset(pointer(&in), in.size, now.edition, large[i]), wanted, "offset with ample room");
        answers(vtiming_measure_offset(pointer(&in), in.size, now.edition, VTIMING_ENOUGH_BYTES(in.size)), wanted,
                "offset with the room that the header calls enough");
        at_step = "vtiming_measure_room";
        says_room(vtiming_measure_room(pointer(&in), in.size));
        unchanged(&in, now.file.at, "the file");
    } else if (now.call == WRITE) {
        struct lent arrivals = lend(ARRIVALS, 8 * now.arrival_count, now.arrivals, fill);
        struct lent stamps = lend(STAMPS, 4 * now.stamp_count, now.stamps, fill);
        struct lent markers = lend(MARKERS, now.markers.count, now.markers.at, fill);
        at_step = "vtiming_write_place";
        for (size_t i = first; i < end_of_large(first); i++, large_rooms++)
            answers(vtiming_write_place(now.version, EIGHT(n), pointer(&arrivals), now.arrival_count, pointer(&stamps),
                                        now.stamp_count, pointer(&markers), now.markers.count, large[i]),
                    wanted, "place with ample room");
    } else if (now.call == CAPTURE) {
        struct lent in = lend(FILE_BYTES, now.file.count, now.file.at, fill);
        at_step = "vtiming_capture_place";
        for (size_t i = first; i < end_of_large(first); i++, large_rooms++)
            answers(vtiming_capture_place(pointer(&in), in.size, now.port, now.offset, EIGHT(n), now.edition, large[i]), wanted,
                    "place with ample room");
        at_step = "vtiming_capture_room";
        says_room(vtiming_capture_room(pointer(&in), in.size, now.port, now.offset, EIGHT(n)));
        unchanged(&in, now.file.at, "the capture");
    }
}

static void try_room(const struct room *room, int fill) {
    switch (now.call) {
    case MEASURE: measure(now.file, now.edition, room, now.filled, fill); break;
    case WRITE: write_file(room, fill); break;
    case LIMITS: limits(room, fill); break;
    case GRAPH: graph(room, fill); break;
    case SET_UP: set_up(room, fill); break;
    case CAPTURE: capture(room, fill); break;
    case NEXT_READ: next_read(room, fill); break;
    }
}

static uint64_t room_needed(void) {
    switch (now.call) {
    case SET_UP: return STATE_WORDS;
    case LIMITS:
    case GRAPH:
    case NEXT_READ: return now.filled.count / 8;
    default: return now.filled.count;
    }
}

static void take_feed(void);

/* The calls of a case in a row. */
static void try_feeds(const int *fills, int times) {
    uint64_t after[STATE_WORDS] = {0}, once[STATE_WORDS];
    for (at_feed = 0; at_feed < now.feed_count; at_feed++) {
        take_feed();
        const struct feed *f = &now.feed;
        if (f->anew) begin_stream(fills[turn & 1]);
        for (int i = 0; i < times; i++, turn++) {
            feed_once(fills[turn & 1], after);
            if (i > 0 && !f->answer.number && memcmp(after, once, sizeof once)) differs("the same call again had other words");
            memcpy(once, after, sizeof once);
        }
        turn += turn >> 2 & 1;
        seen[FEED][f->answer.number < NUMBERS ? f->answer.number : 0]++;
        if (!f->answer.number && !f->change_count) go_on(after);
        /* The first call of most rows has the whole list. */
        if (at_feed == 0 && !f->answer.number) count_answer(&of_feeds, f->nine.at, f->rows.at);
    }
}

/* Whether some room is enough. The numbers of a stream that is fed are accepted. */
static int accepted(void) {
    for (unsigned i = 0; i < now.room_count; i++)
        if (!now.rooms[i].number) return 1;
    return now.call == FEED;
}

/* Small cases against both edges of a page; large ones take turns. */
static void try_case(void) {
    static const int fills[2] = {0xA5, 0x5A};
    int times = is_heavy() ? 1 : 2;
    cases[now.call]++;
    reached_count = 0;
    alarm(SECONDS);
    for (at_room = 0; at_room < now.room_count; at_room++) {
        const struct room *room = &now.rooms[at_room];
        for (int i = 0; i < times; i++, turn++) try_room(room, fills[turn & 1]);
        turn += turn >> 2 & 1; /* so that neither rooms nor cases keep to one edge, or to one pointer */
        seen[now.call][room->number < NUMBERS ? room->number : 0]++;
        count_room(room, room_needed());
    }
    ample_rooms(fills[turn & 1]);
    if (now.call == FEED) try_feeds(fills, times);
    if (now.call == MEASURE && now.filled.count) count_answer(&of_files, now.filled.at, now.filled.at + SUMMARY_BYTES);
    if (now.call == MEASURE) count_kind();
    if (now.call == CAPTURE && now.filled.count) count_capture(now.filled);
    if (now.call == NEXT_READ && now.filled.count) count_next_read(now.filled);
    if (accepted() && now.call != GRAPH) count_class_0(), accepted_as[now.call][profile_now()]++;
    if (now.call != GRAPH) count_alone(), count_others();
    if (refused_by(VTIMING_REFUSED_VERSION)) count_version();
    at_step = "reading";
}

/* --- reading a case --- */

static const uint8_t *cursor, *limit;

static const uint8_t *take(size_t count) {
    if ((size_t)(limit - cursor) < count) {
        fprintf(stderr, "host: a case is cut short\n");
        exit(2);
    }
    cursor += count;
    return cursor - count;
}

static uint64_t take_number(int width) { return big_endian(take(width), width); }

static struct bytes take_bytes(size_t count) { return (struct bytes){take(count), count}; }

/* The seven, and the profile. */
static void take_numbers(void) {
    struct numbers *n = &now.numbers;
    n->rate = take_number(1);
    n->schedule = take_number(1);
    n->stream_class = take_number(1);
    n->height = take_number(2);
    n->packets_per_frame = take_number(4);
    n->maxudp = take_number(2);
    n->tro = take_number(4);
    n->profile = take_number(1);
}

/* The seven numbers, the profile and the edition. */
static void take_stream(void) {
    take_numbers();
    now.edition = take_number(4);
}

static void take_capture(void) {
    take_stream();
    now.port = take_number(2);
    now.offset = take_number(4);
    now.file = take_bytes(take_number(4));
    now.parts = take_number(1);
}

static void take_wait(void) {
    take_numbers();
    now.first = take_number(8);
    now.arrival = take_number(8);
}

static void take_lists(void) {
    now.arrival_count = take_number(4);
    now.stamp_count = take_number(4);
    size_t markers = take_number(4);
    now.arrivals = realloc(now.arrivals, 8 * now.arrival_count + 1);
    now.stamps = realloc(now.stamps, 4 * now.stamp_count + 1);
    if (!now.arrivals || !now.stamps) exit(2);
    for (size_t i = 0; i < now.arrival_count; i++) now.arrivals[i] = take_number(8);
    for (size_t i = 0; i < now.stamp_count; i++) now.stamps[i] = take_number(4);
    now.markers = take_bytes(markers);
}

static void take_rooms(void) {
    now.room_count = take_number(1);
    for (unsigned i = 0; i < now.room_count; i++) {
        now.rooms[i].lent = take_number(8);
        now.rooms[i].number = take_number(1);
        now.rooms[i].place = take_number(8);
    }
    now.filled = take_bytes(take_number(4));
    if (now.call == WRITE) now.measured = take_bytes(take_number(4));
}

static void take_feed(void) {
    struct feed *f = &now.feed;
    f->anew = (int)take_number(1);
    f->words = take_number(1);
    f->change_count = (unsigned)take_number(1);
    f->changes = take_bytes(9 * f->change_count);
    take_lists();
    f->row_count = take_number(4);
    f->out_count = take_number(1);
    f->answer.number = (uint32_t)take_number(1);
    f->answer.place = take_number(8);
    if (f->answer.number) return;
    f->nine = take_bytes(SUMMARY_BYTES);
    f->rows = take_bytes(8 * take_number(4));
}

static int next_case(void) {
    uint8_t head[4];
    size_t got = fread(head, 1, sizeof head, stdin);
    if (got == 0) return 0;
    size_t size = big_endian(head, 4);
    if (now.room_size < size + 4) now.raw = realloc(now.raw, now.room_size = size + 4);
    if (!now.raw) exit(2);
    memcpy(now.raw, head, 4);
    if (got != 4 || fread(now.raw + 4, 1, size, stdin) != size) {
        fprintf(stderr, "host: the cases are cut short\n");
        exit(2);
    }
    now.raw_size = size + 4;
    cursor = now.raw + 4, limit = now.raw + now.raw_size;
    now.index = take_number(8);
    now.call = take_number(1);
    at_room = now.room_count = 0;
    switch (now.call) {
    case MEASURE: now.edition = take_number(4), now.file = take_bytes(take_number(4)); break;
    case WRITE: now.version = take_number(1), take_numbers(), take_lists(); break;
    case LIMITS: take_numbers(); break;
    case SET_UP: take_stream(); break;
    case GRAPH:
        for (int i = 0; i < 3; i++) now.figures[i] = (int64_t)take_number(8);
        break;
    case CAPTURE: take_capture(); break;
    case NEXT_READ: take_wait(); break;
    case FEED: /* each call is taken in its turn */
        take_stream(), now.feed_count = take_number(4);
        return 1;
    default: fprintf(stderr, "host: a case of no known call\n"), exit(2);
    }
    take_rooms();
    return 1;
}

/* --- the end --- */

static int unseen;

static void told(const char *what, uint64_t count) {
    printf(" %s %" PRIu64, what, count);
    if (count == 0) unseen = 1, printf(" (NEVER SEEN)");
}

/* Each of these numbers with its count. */
static void tell_each(const uint64_t counts[NUMBERS], const char *needed) {
    char word[16], list[64];
    snprintf(list, sizeof list, "%s", needed);
    for (char *number = strtok(list, " "); number; number = strtok(NULL, " ")) {
        snprintf(word, sizeof word, "%s:", number);
        told(word, counts[atoi(number)]);
    }
}

static void tell_numbers(int call, const char *needed) {
    printf("  %-17s %" PRIu64 " cases; answers:", call_names[call], cases[call]);
    tell_each(seen[call], needed);
    printf("\n");
}

/* Each answer up to the last. */
static void tell_buffers(const uint64_t counts[BUFFERS], int last) {
    static const char *const names[BUFFERS] = {"none", "pass", "under", "over", "broken"};
    for (int i = 0; i <= last; i++) told(names[i], counts[i]);
}

static void tell_kinds(const uint64_t counts[KINDS]) {
    told("whole", counts[0]), told("short", counts[1]), told("long", counts[2]), told("stamp", counts[3]);
}

static void tell_answers(const char *what, const struct said *said) {
    printf("  rows of %s:", what), tell_kinds(said->kinds);
    told("broken with its first packet's place", said->placed_broken);
    printf("\n    network:"), told("pass", said->networks[0]), told("burst", said->networks[1]);
    printf("; buffer by edition 1:"), tell_buffers(said->buffers[0], VTIMING_BUFFER_OVER);
    printf("; by edition 2:"), tell_buffers(said->buffers[1], VTIMING_BUFFER_BROKEN);
    printf("\n    by edition 2 broken, kind"), told("1:", said->broken_of[1]), told("2:", said->broken_of[2]);
    told("3:", said->broken_of[3]), told("after a whole frame:", said->broken_later);
    printf("; before a broken frame"), told("under:", said->before_broken[VTIMING_BUFFER_UNDER]);
    told("over:", said->before_broken[VTIMING_BUFFER_OVER]);
    printf("; pass"), told("of several frames:", said->pass_of_several);
    printf("\n    by edition 2 broken, and by edition 1:"), tell_buffers(said->and_broken, VTIMING_BUFFER_OVER);
    printf("; by both the same:"), tell_buffers(said->same, VTIMING_BUFFER_OVER);
    printf("\n    none as compressed, and as video by edition 1:"), tell_buffers(said->compressed[0], VTIMING_BUFFER_OVER);
    printf("; by edition 2:"), tell_buffers(said->compressed[1], VTIMING_BUFFER_BROKEN);
    printf("; its rows:"), tell_kinds(said->compressed_kinds);
    printf("\n    as interlaced, by edition 1:"), tell_buffers(said->interlaced[0], VTIMING_BUFFER_OVER);
    printf("; by edition 2:"), tell_buffers(said->interlaced[1], VTIMING_BUFFER_BROKEN);
    printf("; otherwise than as video, by edition"), told("1:", said->interlaced_alone[0]), told("2:", said->interlaced_alone[1]);
    printf("; its rows:"), tell_kinds(said->interlaced_kinds);
    printf("\n");
}

static void tell_schedules(const char *what, const uint64_t by_schedule[2]) {
    printf("%s:", what), told("gapped", by_schedule[0]), told("linear", by_schedule[1]);
}

/* As compressed nothing is over. */
static void tell_meaning(const char *what, int call, const struct meaning meanings[PROFILES]) {
    for (int profile = 0; profile < PROFILES; profile++) {
        const struct meaning *meaning = &meanings[profile];
        printf("    %s%s ", what, as_profile[profile]);
        tell_schedules("in version 1", class_0[call][profile][1]), tell_schedules("; in 2", class_0[call][profile][2]);
        tell_schedules("; pass in 1 and burst in 2", meaning->bursts);
        if (profile != COMPRESSED) tell_schedules("; pass in 1 and over in 2", meaning->overflows);
        printf("\n");
    }
}

/* Request (viii): what class 0 means, and versions that there are not. */
static void tell_versions(void) {
    static const int without_file[] = {LIMITS, SET_UP, FEED, CAPTURE, NEXT_READ};
    static const char *const names[OTHER_VERSIONS] = {"version 0", "version 3", "version 255"};
    printf("  class 0 accepted\n");
    for (size_t i = 0; i < sizeof without_file / sizeof *without_file; i++) {
        int call = without_file[i];
        printf(i ? "; " : "    "), tell_schedules(call_names[call], class_0[call][VIDEO][0]);
        for (int profile = VIDEO + 1; profile < PROFILES; profile++)
            printf(","), tell_schedules(as_profile[profile], class_0[call][profile][0]);
    }
    printf("\n");
    tell_meaning("files", MEASURE, as_read), tell_meaning("written", WRITE, as_written);
    printf("  refused by 20: files");
    for (size_t i = 0; i < OTHER_VERSIONS; i++) told(names[i], with_version[MEASURE][i]);
    told("no byte", of_nothing);
    printf("; written");
    for (size_t i = 0; i < OTHER_VERSIONS; i++) told(names[i], with_version[WRITE][i]);
    printf("\n");
}

static void tell_edition(int call, const char *before, const char *after) {
    static const char *const names[OTHER_EDITIONS] = {"edition 0", "edition 3", "edition 255", "edition 4294967295"};
    printf("    %s", call_names[call]);
    for (size_t i = 0; i < OTHER_EDITIONS; i++) told(names[i], with_edition[call][i]);
    printf("; not where"), tell_each(before_8[call], before);
    printf(" is given; where edition 1 gives"), tell_each(after_8[call], after);
    printf("\n");
}

static void tell_profile(int call, const char *before, const char *after) {
    static const char *const names[OTHER_PROFILES] = {"profile 0", "profile 2", "profile 5", "profile 255"};
    printf("    %s", call_names[call]);
    for (size_t i = 0; i < OTHER_PROFILES; i++) told(names[i], with_profile[call][i]);
    if (*before) printf("; not where"), tell_each(before_22[call], before), printf(" is given");
    printf("; where else there is"), tell_each(after_22[call], after);
    printf("\n");
}

/* Parameters of each kind after each. */
static void tell_again(int later) {
    char order[32];
    for (int first = 0; first < PROFILES; first++)
        for (int second = 0; second < PROFILES; second++) {
            snprintf(order, sizeof order, "%u after %u", profile_kinds[second], profile_kinds[first]);
            told(order, again[first][second][later]);
        }
}

/* Requests (vii) and (ix): profiles that there are not, and the kinds of records by which files are refused. */
static void tell_profiles(void) {
    printf("  refused by 22:\n");
    tell_profile(WRITE, "20", "0 1 2 3 4 5 6 7 10 11 12 13 24");
    tell_profile(CAPTURE, "", "0 1 2 3 4 5 6 7 8 12 13 15 30 31 32 33");
    tell_profile(SET_UP, "", "0 1 2 3 4 5 6 7 8 15");
    tell_profile(LIMITS, "", "0 1 2 3 4 5 6 7 15");
    tell_profile(NEXT_READ, "", "0 1 2 3 4 5 6 7 12 13 15");
    printf("    files of a wrong length with"), told("kind 1", wrong_length[1]), told("kind 2", wrong_length[2]);
    told("kind 3", wrong_length[3]), told("kind 4", wrong_length[4]), printf("; parameters of"), told("kind 5", of_no_kind);
    printf("\n  refused by 23: files with parameters of kind"), tell_again(0);
    printf("; and with packets between:"), tell_again(1);
    printf("\n");
}

/* Request (ix): how many cases are accepted as interlaced, and how many are refused as that alone. */
static void tell_interlaced(void) {
    static const int calls[] = {MEASURE, WRITE, LIMITS, SET_UP, FEED, CAPTURE, NEXT_READ};
    printf("  accepted as interlaced:");
    for (size_t i = 0; i < sizeof calls / sizeof *calls; i++) told(call_names[calls[i]], accepted_as[calls[i]][INTERLACED]);
    printf("\n  refused as interlaced and accepted as video:\n   ");
    for (size_t i = 0; i < sizeof calls / sizeof *calls; i++) {
        if (calls[i] == FEED) continue; /* what is fed is set up as a case of its own */
        printf(" %s by", call_names[calls[i]]), told("5:", refused_alone[calls[i]][0]), told("7:", refused_alone[calls[i]][1]);
    }
    printf("\n");
}

static void tell_next_reads(void) {
    for (int profile = 0; profile < PROFILES; profile++) {
        const uint64_t *reads = next_reads[profile];
        printf(profile ? ";%s:" : "  next reads%s:", as_profile[profile]), told("to come", reads[READ_LEFT]);
        told("at the arrival itself", reads[READ_NOW]), told("none left", reads[READ_OVER]);
    }
}

/* Request (vi): editions that there are not. */
static void tell_editions(void) {
    printf("  refused by 8:\n");
    tell_edition(MEASURE, "1 2 3 4 5 6 7 20 21 22 23", "0 11 12 13 15 21 22 23");
    tell_edition(CAPTURE, "1 2 3 4 5 6 7", "0 12 13 15 30 31 32 33");
    tell_edition(SET_UP, "1 2 3 4 5 6 7", "0 15");
}

static int tell(void) {
    uint64_t all = 0;
    for (int i = MEASURE; i < CALLS; i++) all += cases[i];
    printf("outcomes seen (number: times):\n");
    tell_numbers(MEASURE, "0 1 2 3 4 5 6 7 8 11 12 13 15 20 21 22 23");
    tell_numbers(WRITE, "0 1 2 3 4 5 6 7 10 11 12 13 20 22 24");
    tell_numbers(LIMITS, "0 1 2 3 4 5 6 7 15 22");
    tell_numbers(GRAPH, "0 15 16");
    tell_numbers(SET_UP, "0 1 2 3 4 5 6 7 8 15 22");
    tell_numbers(FEED, "0 9 10 11 12 13 14 15");
    tell_numbers(CAPTURE, "0 1 2 3 4 5 6 7 8 12 13 15 22 30 31 32 33");
    tell_numbers(NEXT_READ, "0 1 2 3 4 5 6 7 12 13 15 22");
    tell_answers("files", &of_files);
    tell_answers("captures", &of_captures);
    tell_answers("lists that are fed", &of_feeds);
    tell_versions();
    tell_editions();
    tell_profiles();
    tell_interlaced();
    printf("  captures that"), told("skip a frame", with_skipped);
    printf("; that hand on a frame with"), told("a tag", with_part[0]), told("options", with_part[1]);
    told("contributors", with_part[2]), told("an extension", with_part[3]);
    printf("\n"), tell_next_reads();
    printf("\n  rooms:"), told("exact", accepted_room[0]), told("larger", accepted_room[1]), told("one short", refused_room[1]);
    told("shorter", refused_room[2]), told("none", refused_room[0]);
    told("near the greatest size", large_rooms);
    printf("\n  files"), told("written and then measured", round_trips);
    printf("; states"), told("reached again by another cutting", cuttings);
    printf("\nhost: %" PRIu64 " cases, %" PRIu64 " calls, 0 different%s\n", all, calls_made,
           unseen ? "; but an outcome was NEVER SEEN" : "");
    return unseen;
}

int main(int argc, char **argv) {
    if (argc != 2 && !(argc == 3 && !strcmp(argv[2], "again"))) {
        fprintf(stderr, "usage: host DIRECTORY [again] <cases\n");
        return 2;
    }
    directory = argv[1];
    map_areas();
    struct sigaction action = {.sa_handler = on_signal};
    int signals[] = {SIGSEGV, SIGBUS, SIGILL, SIGFPE, SIGABRT, SIGALRM};
    for (size_t i = 0; i < sizeof signals / sizeof *signals; i++) sigaction(signals[i], &action, NULL);
    while (next_case()) try_case();
    if (argc == 3) return printf("the same now\n"), 0; /* one case again: it reaches one outcome */
    return tell();
}
