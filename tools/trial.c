/* Tries what the package installs, as somebody else's program would use it: prints of each record file that is named what
 * `vtiming` prints of it, and of each capture (NAME.pcap) what `vcapture --port 20000 --rate 50 --packets 8` does, by the C functions and
 * the names of the header alone, all under edition 1; before that, the header's version. Each is tried under edition 2 and of the other
 * profiles too. tools/package compiles it as C and as C++ and compares what it prints. No file here closes a frame before it is refused,
 * which the program would print and the C call does not tell. */
#include <vtiming.h>
#include <inttypes.h>
#include <stdio.h>
#include <string.h>

enum { LONGEST = 65536 };

/* What is no edition. */
static const uint32_t no_editions[] = {0, VTIMING_EDITION_2 + 1, UINT32_MAX};
enum { NO_EDITIONS = sizeof no_editions / sizeof no_editions[0] };

/* The profiles, and what is none: 2 is the kind of a packet's record. The first two are refused by the same rules. */
static const uint8_t profiles[] = {VTIMING_PROFILE_VIDEO, VTIMING_PROFILE_COMPRESSED, VTIMING_PROFILE_INTERLACED};
static const uint8_t no_profiles[] = {0, 2, 5, UINT8_MAX};
enum { PROFILES = sizeof profiles, OF_FRAMES = 2, NO_PROFILES = sizeof no_profiles };

/* Where in a record file these stand: the kind of its parameters, which is the profile, the rate code, n and TRO. */
enum { KIND_AT = 3, RATE_AT = 4, N_AT = 9, TRO_AT = 15 };

/* An interlaced stream of rate code 3 to 5 is answered as video of twice the rate, which has the code three above, with the packets of a field
 * and the same TRO. */
enum { TWICE_THE_RATE = 3, TRO = 764 };

#define TRY(what)                                                   \
    do {                                                            \
        if (!(what)) {                                              \
            fprintf(stderr, "trial: this does not hold: %s\n", #what); \
            return 1;                                               \
        }                                                           \
    } while (0)

/* The number that documents 01 and 02 give to each refusal, by its name in the header. */
static const char *refusal(uint32_t number)
{
    switch (number) {
    case VTIMING_REFUSED_RATE: return "1";
    case VTIMING_REFUSED_SCHEDULE: return "2";
    case VTIMING_REFUSED_CLASS: return "3";
    case VTIMING_REFUSED_HEIGHT: return "4";
    case VTIMING_REFUSED_PACKETS_PER_FRAME: return "5";
    case VTIMING_REFUSED_MAXUDP: return "6";
    case VTIMING_REFUSED_TRO: return "7";
    case VTIMING_REFUSED_EDITION: return "8";
    case VTIMING_REFUSED_MARKER: return "11";
    case VTIMING_REFUSED_ORDER: return "12";
    case VTIMING_REFUSED_SPAN: return "13";
    case VTIMING_REFUSED_COUNT: return "14";
    case VTIMING_REFUSED_VERSION: return "20";
    case VTIMING_REFUSED_CUT: return "21";
    case VTIMING_REFUSED_KIND: return "22";
    case VTIMING_REFUSED_PARAMETERS: return "23";
    case VTIMING_REFUSED_CAPTURE: return "30";
    case VTIMING_REFUSED_CAPTURE_CUT: return "31";
    case VTIMING_REFUSED_SUBSECOND: return "32";
    case VTIMING_REFUSED_OFFSET: return "33";
    default: return "by a number that no file brings about";
    }
}

static const char *kind(int64_t number)
{
    switch (number) {
    case VTIMING_FRAME_WHOLE: return "0";
    case VTIMING_FRAME_SHORT: return "1";
    case VTIMING_FRAME_LONG: return "2";
    case VTIMING_FRAME_STAMP: return "3";
    default: return "unknown";
    }
}

/* The two answers, each with its two numbers. */
static void put_verdict(const uint8_t *answer)
{
    int64_t a = vtiming_number(answer, 4), b = vtiming_number(answer, 5), c = vtiming_number(answer, 7), d = vtiming_number(answer, 8);
    switch (vtiming_number(answer, 3)) {
    case VTIMING_NETWORK_PASS: printf("network pass"); break;
    case VTIMING_NETWORK_BURST: printf("network burst %" PRId64 " %" PRId64, a, b); break;
    }
    switch (vtiming_number(answer, 6)) {
    case VTIMING_BUFFER_NONE: printf(" buffer none"); break;
    case VTIMING_BUFFER_PASS: printf(" buffer pass"); break;
    case VTIMING_BUFFER_UNDER: printf(" buffer under %" PRId64 " %" PRId64, c, d); break;
    case VTIMING_BUFFER_OVER: printf(" buffer over %" PRId64 " %" PRId64, c, d); break;
    case VTIMING_BUFFER_BROKEN: printf(" buffer broken %" PRId64 " %s", c, kind(d)); break;
    }
}

/* The rows, which stand behind so many numbers, and the last line up to its verdict. */
static void put_answer(const uint8_t *answer, size_t numbers)
{
    for (int64_t frame = 0; frame < vtiming_number(answer, 1); frame++) {
        size_t row = numbers + VTIMING_ROW_NUMBERS * (size_t)frame;
        printf("frame %" PRId64 " %s", vtiming_number(answer, row), kind(vtiming_number(answer, row + 1)));
        for (size_t k = row + 2; k < row + VTIMING_ROW_NUMBERS; k++) printf(" %" PRId64, vtiming_number(answer, k));
        printf("\n");
    }
    printf("packets %" PRId64 " frames %" PRId64 " peak %" PRId64 " ", vtiming_number(answer, 0), vtiming_number(answer, 1),
           vtiming_number(answer, 2));
    put_verdict(answer);
}

/* `one` and `two` are the answers under the two editions, with so many numbers in front of the rows. They differ in the buffer answer
 * alone: where a broken frame comes before the one that fails under edition 1, it decides under edition 2. */
static int try_both(const uint8_t *one, const uint8_t *two, size_t numbers)
{
    int64_t frames = vtiming_number(one, 1), broken = 0, buffer = vtiming_number(one, 6);
#define KIND(frame) vtiming_number(one, numbers + VTIMING_ROW_NUMBERS * (size_t)(frame) + 1)
    while (broken < frames && KIND(broken) == VTIMING_FRAME_WHOLE) broken++;
    int fails = buffer == VTIMING_BUFFER_UNDER || buffer == VTIMING_BUFFER_OVER;
    int decides = broken < frames && !(fails && vtiming_number(one, 7) < broken);
    TRY(buffer != VTIMING_BUFFER_BROKEN);
    for (size_t k = 0; k < numbers + VTIMING_ROW_NUMBERS * (size_t)frames; k++)
        TRY((decides && k >= 6 && k <= 8) || vtiming_number(one, k) == vtiming_number(two, k));
    TRY(!decides || vtiming_number(two, 6) == VTIMING_BUFFER_BROKEN);
    TRY(!decides || (vtiming_number(two, 7) == broken && vtiming_number(two, 8) == KIND(broken)));
#undef KIND
    return 0;
}

/* The answers to the same packets as video and as a compressed stream, under the same edition. They differ in what is told of the buffer
 * alone: of the compressed one that is none and zeros. */
static int try_profiles(const uint8_t *video, const uint8_t *compressed, size_t numbers)
{
    size_t all = numbers + VTIMING_ROW_NUMBERS * (size_t)vtiming_number(video, 1);
    TRY(vtiming_number(compressed, 6) == VTIMING_BUFFER_NONE);
    for (size_t k = 0; k < all; k++) {
        size_t of_row = k < numbers ? 0 : (k - numbers) % VTIMING_ROW_NUMBERS;
        int of_buffer = (k >= 6 && k <= 8) || of_row == 8 || of_row == 9;
        TRY(vtiming_number(compressed, k) == (of_buffer ? 0 : vtiming_number(video, k)));
    }
    return 0;
}

/* The four answers to the same packets, by profile and edition. */
static int try_all(const uint8_t *video, const uint8_t *video_2, const uint8_t *compressed, const uint8_t *compressed_2, size_t numbers)
{
    if (try_both(video, video_2, numbers)) return 1;
    return try_profiles(video, compressed, numbers) || try_profiles(video_2, compressed_2, numbers);
}

/* A file that has parameters, measured as video and as a compressed stream under either edition: all are refused alike, or none is. */
static int try_kinds(uint8_t *file, size_t size)
{
    static uint8_t answers[OF_FRAMES][2][VTIMING_ENOUGH_BYTES(LONGEST)];
    uint8_t kind = file[KIND_AT];
    file[KIND_AT] = VTIMING_PROFILE_VIDEO;
    size_t room = (size_t)vtiming_measure_room(file, size);
    uint32_t refused = vtiming_measure(file, size, VTIMING_EDITION_1, answers[0][0], room);
    uint64_t offset = vtiming_measure_offset(file, size, VTIMING_EDITION_1, room);
    for (size_t k = 0; k < OF_FRAMES; k++) {
        file[KIND_AT] = profiles[k];
        TRY(vtiming_measure_room(file, size) == room);
        for (uint32_t edition = VTIMING_EDITION_1; edition <= VTIMING_EDITION_2; edition++) {
            TRY(vtiming_measure(file, size, edition, answers[k][edition - 1], room) == refused);
            TRY(vtiming_measure_offset(file, size, edition, room) == offset);
        }
    }
    file[KIND_AT] = kind;
    if (refused != VTIMING_ACCEPTED) return 0;
    return try_all(answers[0][0], answers[0][1], answers[1][0], answers[1][1], VTIMING_SUMMARY_NUMBERS);
}

static uint32_t number_at(const uint8_t *bytes)
{
    return (uint32_t)bytes[0] << 24 | (uint32_t)bytes[1] << 16 | (uint32_t)bytes[2] << 8 | bytes[3];
}
static void put_number(uint8_t *bytes, uint32_t number)
{
    for (int k = 0; k < 4; k++) bytes[k] = (uint8_t)(number >> (24 - 8 * k));
}

/* A file that has parameters: as an interlaced stream and as video of twice the rate it has the same answer, under either edition, or both
 * are refused alike. A default TRO, which is refused of the interlaced one, is replaced. */
static int try_fields(uint8_t *file, size_t size)
{
    static uint8_t video[VTIMING_ENOUGH_BYTES(LONGEST)], fields[sizeof video];
    uint8_t head[VTIMING_HEAD_BYTES];
    if (size < sizeof head) return 0;
    memcpy(head, file, sizeof head);
    uint32_t n = number_at(file + N_AT);
    if (file[KIND_AT] == VTIMING_PROFILE_INTERLACED) {
        if (n % 2 != 0) return 0;
        n = n / 2;
        file[RATE_AT] = (uint8_t)(file[RATE_AT] + TWICE_THE_RATE);
    }
    int tried = file[RATE_AT] >= 6 && file[RATE_AT] <= 8 && n <= 10000;
    if (number_at(file + TRO_AT) == VTIMING_DEFAULT_TRO) put_number(file + TRO_AT, TRO);
    for (uint32_t edition = VTIMING_EDITION_1; tried && edition <= VTIMING_EDITION_2; edition++) {
        file[KIND_AT] = VTIMING_PROFILE_VIDEO;
        put_number(file + N_AT, n);
        size_t room = (size_t)vtiming_measure_room(file, size);
        uint32_t refused = vtiming_measure(file, size, edition, video, room);
        uint64_t offset = vtiming_measure_offset(file, size, edition, room);
        file[KIND_AT] = VTIMING_PROFILE_INTERLACED;
        file[RATE_AT] = (uint8_t)(file[RATE_AT] - TWICE_THE_RATE);
        put_number(file + N_AT, 2 * n);
        TRY(vtiming_measure_room(file, size) == room);
        TRY(vtiming_measure(file, size, edition, fields, room) == refused);
        TRY(vtiming_measure_offset(file, size, edition, room) == offset);
        TRY(refused != VTIMING_ACCEPTED || memcmp(video, fields, room) == 0);
        file[RATE_AT] = (uint8_t)(file[RATE_AT] + TWICE_THE_RATE);
    }
    memcpy(file, head, sizeof head);
    return 0;
}

static int put_file(uint8_t *file, size_t size)
{
    static uint8_t answer[VTIMING_ENOUGH_BYTES(LONGEST)];
    size_t room = (size_t)vtiming_measure_room(file, size);
    TRY(room <= sizeof answer);
    uint32_t refused = vtiming_measure(file, size, VTIMING_EDITION_1, answer, room);
    TRY((room == 0) == (refused != VTIMING_ACCEPTED));
    if (refused != VTIMING_ACCEPTED) {
        uint64_t offset = vtiming_measure_offset(file, size, VTIMING_EDITION_1, room);
        TRY(vtiming_measure(file, size, VTIMING_EDITION_2, answer, room) == refused);
        TRY(vtiming_measure_offset(file, size, VTIMING_EDITION_2, room) == offset);
        printf("refused %s %" PRIu64 "\n", refusal(refused), offset);
    } else {
        put_answer(answer, VTIMING_SUMMARY_NUMBERS);
        printf("\n");
    }
    int has_parameters = size > KIND_AT && memchr(profiles, file[KIND_AT], PROFILES) != NULL;
    return has_parameters && (try_kinds(file, size) || try_fields(file, size));
}

/* The stream of the example captures: 1080p50, gapped, narrow, eight packets a frame, captured by a clock that shows UTC. */
static int put_capture(const uint8_t *capture, size_t size)
{
    enum { PORT = 20000, OFFSET = 37, ROOM = VTIMING_CAPTURE_SUMMARY_BYTES + 8 * VTIMING_ROW_BYTES };
    static uint8_t answers[OF_FRAMES][2][ROOM], frames[ROOM], fields[ROOM], unused[ROOM];
    const uint8_t *answer = answers[0][0]; /* of the first profile, video, under edition 1 */
#define CAPTURE(offset, tro, profile, edition, out, room) \
    vtiming_capture(capture, size, PORT, offset, 6, 0, 1, 1080, 8, 1460, tro, profile, edition, out, room)
#define PLACE(profile, edition) \
    vtiming_capture_place(capture, size, PORT, OFFSET, 6, 0, 1, 1080, 8, 1460, VTIMING_DEFAULT_TRO, profile, edition, ROOM)
#define FIELDS(n, tro, edition) \
    vtiming_capture(capture, size, PORT, OFFSET, 3, 0, 1, 1080, n, 1460, tro, VTIMING_PROFILE_INTERLACED, edition, fields, ROOM)
    uint32_t refused = CAPTURE(OFFSET, VTIMING_DEFAULT_TRO, VTIMING_PROFILE_VIDEO, VTIMING_EDITION_1, unused, ROOM);
    uint64_t place = PLACE(VTIMING_PROFILE_VIDEO, VTIMING_EDITION_1);
    size_t room = (size_t)vtiming_capture_room(capture, size, PORT, OFFSET, 6, 0, 1, 1080, 8, 1460, VTIMING_DEFAULT_TRO, VTIMING_PROFILE_VIDEO);
    /* Of any capture the profile comes first, then a TRO of a whole frame, then the edition, then an offset above 99, and the room last. */
    for (size_t p = 0; p < NO_PROFILES; p++) {
        TRY(CAPTURE(100, 20000, no_profiles[p], no_editions[0], unused, 0) == VTIMING_REFUSED_KIND);
        TRY(CAPTURE(OFFSET, VTIMING_DEFAULT_TRO, no_profiles[p], VTIMING_EDITION_1, unused, ROOM) == VTIMING_REFUSED_KIND);
        TRY(PLACE(no_profiles[p], VTIMING_EDITION_1) == 0);
    }
    for (size_t p = 0; p < OF_FRAMES; p++) {
        for (size_t k = 0; k < NO_EDITIONS; k++) {
            TRY(CAPTURE(100, 20000, profiles[p], no_editions[k], unused, 0) == VTIMING_REFUSED_TRO);
            TRY(CAPTURE(100, VTIMING_DEFAULT_TRO, profiles[p], no_editions[k], unused, 0) == VTIMING_REFUSED_EDITION);
            TRY(CAPTURE(OFFSET, VTIMING_DEFAULT_TRO, profiles[p], no_editions[k], unused, ROOM) == VTIMING_REFUSED_EDITION);
            TRY(PLACE(profiles[p], no_editions[k]) == 0);
        }
        for (uint32_t edition = VTIMING_EDITION_1; edition <= VTIMING_EDITION_2; edition++) {
            TRY(CAPTURE(100, VTIMING_DEFAULT_TRO, profiles[p], edition, unused, ROOM) == VTIMING_REFUSED_OFFSET);
            TRY(CAPTURE(OFFSET, VTIMING_DEFAULT_TRO, profiles[p], edition, answers[p][edition - 1], ROOM) == refused);
            TRY(PLACE(profiles[p], edition) == place);
        }
    }
    /* The same packets as fields, of frames with twice as many: an even number, and a TRO below half a frame, which is not the default. */
    for (uint32_t edition = VTIMING_EDITION_1; edition <= VTIMING_EDITION_2; edition++) {
        TRY(CAPTURE(OFFSET, TRO, VTIMING_PROFILE_VIDEO, edition, frames, ROOM) == refused);
        TRY(FIELDS(16, TRO, edition) == refused);
        TRY(refused != VTIMING_ACCEPTED || memcmp(fields, frames, room) == 0);
        TRY(FIELDS(16, 19999, edition) == refused && FIELDS(16, 20000, edition) == VTIMING_REFUSED_TRO);
        TRY(FIELDS(16, VTIMING_DEFAULT_TRO, edition) == VTIMING_REFUSED_TRO);
        TRY(FIELDS(15, VTIMING_DEFAULT_TRO, edition) == VTIMING_REFUSED_PACKETS_PER_FRAME);
        TRY(PLACE(VTIMING_PROFILE_INTERLACED, edition) == 0);
    }
    TRY(FIELDS(16, TRO, no_editions[0]) == VTIMING_REFUSED_EDITION && FIELDS(16, 20000, no_editions[0]) == VTIMING_REFUSED_TRO);
    if (refused != VTIMING_ACCEPTED) {
        TRY(room == 0);
        printf("refused %s %" PRIu64 "\n", refusal(refused), place);
        return 0;
    }
    /* One byte less than the answer is too little. */
    TRY(room == VTIMING_CAPTURE_SUMMARY_BYTES + VTIMING_ROW_BYTES * (size_t)vtiming_number(answer, 1));
    for (size_t p = 0; p < OF_FRAMES; p++)
        TRY(CAPTURE(OFFSET, VTIMING_DEFAULT_TRO, profiles[p], VTIMING_EDITION_1, unused, room - 1) == VTIMING_REFUSED_ROOM);
    TRY(vtiming_number(answer, 0) + vtiming_number(answer, 10) == vtiming_number(answer, 9));
    put_answer(answer, VTIMING_CAPTURE_SUMMARY_NUMBERS);
    printf(" records %" PRId64 " skipped %" PRId64 "\n", vtiming_number(answer, 9), vtiming_number(answer, 10));
#undef CAPTURE
#undef PLACE
#undef FIELDS
    return try_all(answers[0][0], answers[0][1], answers[1][0], answers[1][1], VTIMING_CAPTURE_SUMMARY_NUMBERS);
}

/* By its name. */
static int is_capture(const char *name)
{
    size_t size = strlen(name);
    return size >= 5 && strcmp(name + size - 5, ".pcap") == 0;
}

/* The numbers at both ends of 64 bits, and about 0. */
static int try_decoder(void)
{
    static const uint8_t answer[] = {0x7f, 255, 255, 255, 255, 255, 255, 255, 0x80, 0, 0, 0, 0, 0, 0, 0,
                                     255,  255, 255, 255, 255, 255, 255, 255, 0,    1, 2, 3, 4, 5, 6, 7};
    TRY(vtiming_number(answer, 0) == INT64_MAX);
    TRY(vtiming_number(answer, 1) == INT64_MIN);
    TRY(vtiming_number(answer, 2) == -1);
    TRY(vtiming_number(answer, 3) == INT64_C(0x01020304050607));
    return 0;
}

/* A lead-in packet and then one frame of `count` packets, where `n` are wanted: `step` ns apart from `first` on, with another
 * timestamp at place `odd`. Written, and then measured into `answer` under that edition; and the same of a compressed stream, of which the
 * file differs in the kind of its parameters alone. */
static int measured(uint32_t edition, uint32_t n, size_t count, uint64_t first, uint64_t step, size_t odd, uint8_t *answer)
{
    uint64_t arrivals[11] = {19000000};
    uint32_t stamps[11] = {0};
    uint8_t markers[11] = {1};
    enum { ROOM = VTIMING_SUMMARY_BYTES + VTIMING_ROW_BYTES };
    uint8_t file[VTIMING_HEAD_BYTES + 11 * VTIMING_PACKET_BYTES], video[sizeof file], compressed[ROOM];
    size_t packets = count + 1, size = VTIMING_HEAD_BYTES + packets * VTIMING_PACKET_BYTES;
    for (size_t k = 0; k < count; k++) {
        arrivals[k + 1] = first + k * step;
        stamps[k + 1] = k == odd ? 1801 : 1800;
        markers[k + 1] = k + 1 == count;
    }
#define WRITE(profile, stamp_count, room)                                                                                              \
    vtiming_write(VTIMING_RECORD_VERSION, 6, 0, 1, 1080, n, 1460, VTIMING_DEFAULT_TRO, profile, arrivals, packets, stamps, stamp_count, \
                  markers, packets, file, room)
    for (size_t k = 0; k < OF_FRAMES; k++) {
        TRY(WRITE(profiles[k], count, size) == VTIMING_REFUSED_LENGTHS);
        TRY(WRITE(profiles[k], packets, size - 1) == VTIMING_REFUSED_WRITE_ROOM);
    }
    TRY(WRITE(VTIMING_PROFILE_INTERLACED, packets, size) == VTIMING_REFUSED_TRO);
    TRY(WRITE(VTIMING_PROFILE_VIDEO, packets, size) == VTIMING_ACCEPTED && file[KIND_AT] == VTIMING_PROFILE_VIDEO);
    TRY(vtiming_measure_room(file, size) == ROOM);
    TRY(vtiming_measure(file, size, edition, answer, ROOM - 1) == VTIMING_REFUSED_ROOM);
    TRY(vtiming_measure(file, size, edition, answer, ROOM) == VTIMING_ACCEPTED);
    memcpy(video, file, size);
    TRY(WRITE(VTIMING_PROFILE_COMPRESSED, packets, size) == VTIMING_ACCEPTED && file[KIND_AT] == VTIMING_PROFILE_COMPRESSED);
    TRY(vtiming_measure(file, size, edition, compressed, ROOM) == VTIMING_ACCEPTED);
    file[KIND_AT] = VTIMING_PROFILE_VIDEO;
    TRY(memcmp(file, video, size) == 0);
#undef WRITE
    return try_profiles(answer, compressed, VTIMING_SUMMARY_NUMBERS);
}

/* The one frame of an answer is broken, of that kind: under edition 1 there is no whole frame, and under edition 2 it fails. */
static int try_broken(uint32_t edition, int64_t wanted, const uint8_t *answer)
{
    int fails = edition == VTIMING_EDITION_2;
    TRY(vtiming_number(answer, 9 + 1) == wanted && vtiming_number(answer, 7) == 0);
    TRY(vtiming_number(answer, 6) == (fails ? VTIMING_BUFFER_BROKEN : VTIMING_BUFFER_NONE));
    TRY(vtiming_number(answer, 8) == (fails ? wanted : 0));
    return 0;
}

/* Each kind and each answer that examples/ does not show. */
static int try_answers(uint32_t edition)
{
    uint8_t answer[VTIMING_SUMMARY_BYTES + VTIMING_ROW_BYTES];
    /* It begins a microsecond before its frame time: FPT and VL are below 0. */
    if (measured(edition, 4, 4, 19999000, 4800000, 11, answer)) return 1;
    TRY(vtiming_number(answer, 9 + 1) == VTIMING_FRAME_WHOLE && vtiming_number(answer, 6) == VTIMING_BUFFER_PASS);
    TRY(vtiming_number(answer, 9 + 3) == -27000 && vtiming_number(answer, 9 + 5) == -27000);
    TRY(vtiming_number(answer, 9 + 6) == 20640000 + 27000);
    if (measured(edition, 4, 3, 20700000, 4800000, 11, answer)) return 1;
    if (try_broken(edition, VTIMING_FRAME_SHORT, answer)) return 1;
    /* Nothing of it is measured, but it is told where it began: after the lead-in packet. */
    for (size_t k = 3; k < 10; k++) TRY(vtiming_number(answer, 9 + k) == 0);
    TRY(vtiming_number(answer, 9 + 10) == 1);
    if (measured(edition, 4, 5, 20700000, 4800000, 11, answer)) return 1;
    if (try_broken(edition, VTIMING_FRAME_LONG, answer)) return 1;
    TRY(vtiming_number(answer, 9 + 2) == 5);
    if (measured(edition, 4, 4, 20700000, 4800000, 2, answer)) return 1;
    if (try_broken(edition, VTIMING_FRAME_STAMP, answer)) return 1;
    TRY(vtiming_number(answer, 9 + 2) == 2);
    /* The first read is 764.4 microseconds after the frame time. */
    if (measured(edition, 4, 4, 20800000, 4800000, 11, answer)) return 1;
    TRY(vtiming_number(answer, 6) == VTIMING_BUFFER_UNDER && vtiming_number(answer, 9 + 9) == -1);
    /* Ten packets at once, where the buffer holds eight and the bucket four. */
    if (measured(edition, 10, 10, 20100000, 0, 11, answer)) return 1;
    TRY(vtiming_number(answer, 6) == VTIMING_BUFFER_OVER && vtiming_number(answer, 8) == 10);
    TRY(vtiming_number(answer, 3) == VTIMING_NETWORK_BURST);
    return 0;
}

/* As many frames as packets allow, each of one packet: six times the file is enough room, five times is not. */
static int try_room(void)
{
    enum { PACKETS = 14, SIZE = VTIMING_HEAD_BYTES + PACKETS * VTIMING_PACKET_BYTES };
    uint64_t arrivals[PACKETS] = {0};
    uint32_t stamps[PACKETS] = {0};
    uint8_t markers[PACKETS], file[SIZE], answer[VTIMING_ENOUGH_BYTES(SIZE)];
    uint32_t gigabyte = UINT32_C(1000000000); /* a host may keep a length in fewer bits than the product needs */
    TRY(VTIMING_ENOUGH_BYTES(gigabyte) == UINT64_C(6000000000));
    for (size_t k = 0; k < PACKETS; k++) markers[k] = 1;
    TRY(vtiming_write(VTIMING_RECORD_VERSION, 6, 0, 1, 1080, 1, 1460, VTIMING_DEFAULT_TRO, VTIMING_PROFILE_VIDEO, arrivals, PACKETS, stamps,
                      PACKETS, markers, PACKETS, file, SIZE) == VTIMING_ACCEPTED);
    TRY(vtiming_measure_room(file, SIZE) == VTIMING_SUMMARY_BYTES + (PACKETS - 1) * VTIMING_ROW_BYTES);
    TRY(vtiming_measure(file, SIZE, VTIMING_EDITION_1, answer, 5 * SIZE) == VTIMING_REFUSED_ROOM);
    TRY(vtiming_measure(file, SIZE, VTIMING_EDITION_1, answer, VTIMING_ENOUGH_BYTES(SIZE)) == VTIMING_ACCEPTED);
    for (int64_t frame = 0; frame < PACKETS - 1; frame++)
        TRY(vtiming_number(answer, VTIMING_SUMMARY_NUMBERS + VTIMING_ROW_NUMBERS * (size_t)frame + 10) == frame + 1);
    return 0;
}

/* Two frames, where one packet a frame is wanted: one that comes after its read, and one of two packets. The first to fail decides. What is
 * no edition is refused at the parameters, where these are right, and nothing is written. */
static int try_editions(void)
{
    enum { PACKETS = 4, SIZE = VTIMING_HEAD_BYTES + PACKETS * VTIMING_PACKET_BYTES,
           ROOM = VTIMING_SUMMARY_BYTES + 2 * VTIMING_ROW_BYTES, LAST_MARKER_AT = SIZE - 1 };
    static const uint64_t late_first[PACKETS] = {19000000, 20800000, 40100000, 40200000};
    static const uint64_t broken_first[PACKETS] = {19000000, 20100000, 20200000, 40800000};
    static const uint8_t late_markers[PACKETS] = {1, 1, 0, 1}, broken_markers[PACKETS] = {1, 0, 1, 1};
    static const uint32_t stamps[PACKETS] = {0};
    uint8_t file[SIZE], answer[ROOM], untouched[ROOM];
#define WRITE(arrivals, markers)                                                                                                   \
    vtiming_write(VTIMING_RECORD_VERSION, 6, 0, 1, 1080, 1, 1460, VTIMING_DEFAULT_TRO, VTIMING_PROFILE_VIDEO, arrivals, PACKETS, stamps, \
                  PACKETS, markers, PACKETS, file, SIZE)
#define BUFFER(edition, number, frame, detail)                                                                     \
    (vtiming_measure(file, SIZE, edition, answer, ROOM) == VTIMING_ACCEPTED && vtiming_number(answer, 6) == number && \
     vtiming_number(answer, 7) == frame && vtiming_number(answer, 8) == detail)
    TRY(WRITE(late_first, late_markers) == VTIMING_ACCEPTED);
    TRY(BUFFER(VTIMING_EDITION_1, VTIMING_BUFFER_UNDER, 0, 0) && BUFFER(VTIMING_EDITION_2, VTIMING_BUFFER_UNDER, 0, 0));
    TRY(WRITE(broken_first, broken_markers) == VTIMING_ACCEPTED);
    TRY(BUFFER(VTIMING_EDITION_1, VTIMING_BUFFER_UNDER, 1, 0) && BUFFER(VTIMING_EDITION_2, VTIMING_BUFFER_BROKEN, 0, VTIMING_FRAME_LONG));
#undef WRITE
#undef BUFFER
    memset(answer, 0xA5, ROOM);
    memcpy(untouched, answer, ROOM);
    for (size_t k = 0; k < NO_EDITIONS; k++) {
        uint32_t none = no_editions[k];
        TRY(vtiming_measure(file, SIZE, none, answer, ROOM) == VTIMING_REFUSED_EDITION);
        TRY(memcmp(answer, untouched, ROOM) == 0 && vtiming_measure_offset(file, SIZE, none, ROOM) == 1);
        /* Before too little room, and before a marker of 2. */
        TRY(vtiming_measure(file, SIZE, none, answer, 0) == VTIMING_REFUSED_EDITION);
        file[LAST_MARKER_AT] = 2;
        TRY(vtiming_measure(file, SIZE, none, answer, ROOM) == VTIMING_REFUSED_EDITION);
        TRY(vtiming_measure_offset(file, SIZE, none, ROOM) == 1);
        file[LAST_MARKER_AT] = 1;
        /* After a wrong rate, and never of a file that has no parameters. */
        file[RATE_AT] = 9;
        TRY(vtiming_measure(file, SIZE, none, answer, ROOM) == VTIMING_REFUSED_RATE);
        file[RATE_AT] = 6;
        TRY(vtiming_measure(file, 0, none, answer, ROOM) == VTIMING_REFUSED_VERSION);
        TRY(vtiming_measure(file, 1, none, answer, ROOM) == VTIMING_REFUSED_PARAMETERS);
        TRY(vtiming_measure(file, VTIMING_HEAD_BYTES - 1, none, answer, ROOM) == VTIMING_REFUSED_CUT);
        TRY(vtiming_measure(file, VTIMING_HEAD_BYTES, none, answer, ROOM) == VTIMING_REFUSED_EDITION);
        TRY(memcmp(answer, untouched, ROOM) == 0);
    }
    /* The room is the same under both editions, and is told without one. */
    TRY(vtiming_measure_room(file, SIZE) == ROOM);
    return 0;
}

/* Each kind of parameters, a file that has them twice, and what is no profile: the writer refuses that after the version and before all
 * else, limits and next read before all else, and as the kind of a record it is refused there. */
static int try_no_profiles(void)
{
    enum { HEAD_RECORD = VTIMING_HEAD_BYTES - 1, SIZE = VTIMING_HEAD_BYTES + VTIMING_PACKET_BYTES,
           TWICE = VTIMING_HEAD_BYTES + HEAD_RECORD };
    static const uint64_t arrivals[1] = {0};
    static const uint32_t stamps[1] = {0};
    static const uint8_t markers[1] = {1}, wrong_markers[1] = {2};
    uint8_t file[SIZE], untouched[SIZE], twice[TWICE], answer[VTIMING_SUMMARY_BYTES];
    uint64_t out[4] = {7, 7, 7, 7};
    memset(file, 0xA5, SIZE);
    memcpy(untouched, file, SIZE);
#define OF(version, rate, profile, markers) \
    version, rate, 0, 1, 1080, 4, 1460, TRO, profile, arrivals, 1, stamps, 1, markers, 1
    for (size_t k = 0; k < NO_PROFILES; k++) {
        uint8_t none = no_profiles[k];
        TRY(vtiming_write(OF(0, 0, none, wrong_markers), file, 0) == VTIMING_REFUSED_VERSION);
        TRY(vtiming_write(OF(VTIMING_RECORD_VERSION, 0, none, wrong_markers), file, 0) == VTIMING_REFUSED_KIND);
        TRY(vtiming_write(OF(VTIMING_RECORD_VERSION, 6, none, markers), file, SIZE) == VTIMING_REFUSED_KIND);
        TRY(vtiming_write_place(OF(VTIMING_RECORD_VERSION, 6, none, wrong_markers), SIZE) == 0 && memcmp(file, untouched, SIZE) == 0);
        TRY(vtiming_limits(0, 0, 1, 1080, 4, 1460, TRO, none, out, 0) == VTIMING_REFUSED_KIND);
        TRY(vtiming_limits(6, 0, 1, 1080, 4, 1460, TRO, none, out, 4) == VTIMING_REFUSED_KIND);
        TRY(vtiming_next_read(0, 0, 1, 1080, 4, 1460, TRO, none, 1, 0, out, 0) == VTIMING_REFUSED_KIND);
        TRY(vtiming_next_read(6, 0, 1, 1080, 4, 1460, TRO, none, 0, 0, out, 3) == VTIMING_REFUSED_KIND);
        TRY(out[0] == 7 && out[1] == 7 && out[2] == 7 && out[3] == 7);
    }
    for (size_t k = 0; k < PROFILES; k++) {
        TRY(vtiming_write(OF(VTIMING_RECORD_VERSION, 6, profiles[k], markers), file, SIZE) == VTIMING_ACCEPTED);
        TRY(file[KIND_AT] == profiles[k] && vtiming_measure_room(file, SIZE) == sizeof answer);
    }
#undef OF
    for (size_t k = 0; k < PROFILES * PROFILES; k++) {
        memcpy(twice, file, VTIMING_HEAD_BYTES);
        memcpy(twice + VTIMING_HEAD_BYTES, file + 1, HEAD_RECORD);
        twice[KIND_AT] = profiles[k / PROFILES];
        twice[HEAD_RECORD + KIND_AT] = profiles[k % PROFILES];
        TRY(vtiming_measure(twice, TWICE, VTIMING_EDITION_1, answer, sizeof answer) == VTIMING_REFUSED_PARAMETERS);
        TRY(vtiming_measure_offset(twice, TWICE, VTIMING_EDITION_1, sizeof answer) == VTIMING_HEAD_BYTES);
    }
    for (size_t k = 0; k < NO_PROFILES; k++) {
        file[KIND_AT] = no_profiles[k];
        TRY(vtiming_measure(file, SIZE, VTIMING_EDITION_1, answer, sizeof answer) == VTIMING_REFUSED_KIND);
        TRY(vtiming_measure_offset(file, SIZE, VTIMING_EDITION_1, sizeof answer) == 1 && vtiming_measure_room(file, SIZE) == 0);
    }
    return 0;
}

/* Five packets at once with class 0, of any profile: a burst in version 2, where 0 is narrow and C_MAX 4, and none in version 1, where
 * it is wide. */
static int try_versions(void)
{
    enum { PACKETS = 5, SIZE = VTIMING_HEAD_BYTES + PACKETS * VTIMING_PACKET_BYTES };
    uint64_t arrivals[PACKETS] = {0}, limits[4];
    uint32_t stamps[PACKETS] = {0};
    uint8_t markers[PACKETS] = {0}, file[SIZE], answer[VTIMING_SUMMARY_BYTES];
#define WRITE(version, rate, profile, count) \
    vtiming_write(version, rate, 0, 0, 1080, 4, 1460, TRO, profile, arrivals, PACKETS, stamps, PACKETS, markers, count, file, SIZE)
    for (size_t k = 0; k < PROFILES; k++)
        for (uint8_t version = 1; version <= VTIMING_RECORD_VERSION; version++) {
            TRY(WRITE(version, 6, profiles[k], PACKETS) == VTIMING_ACCEPTED && file[0] == version && file[6] == 0);
            TRY(vtiming_measure(file, SIZE, VTIMING_EDITION_1, answer, sizeof answer) == VTIMING_ACCEPTED);
            TRY(vtiming_number(answer, 3) == (version == 1 ? VTIMING_NETWORK_PASS : VTIMING_NETWORK_BURST));
        }
    /* The version is asked first: the rate is wrong too, and a marker is missing. */
    TRY(WRITE(VTIMING_RECORD_VERSION + 1, 0, VTIMING_PROFILE_VIDEO, PACKETS - 1) == VTIMING_REFUSED_VERSION);
    TRY(WRITE(0, 6, VTIMING_PROFILE_VIDEO, PACKETS) == VTIMING_REFUSED_VERSION && file[0] == VTIMING_RECORD_VERSION);
#undef WRITE
    file[0] = VTIMING_RECORD_VERSION + 1;
    TRY(vtiming_measure(file, SIZE, VTIMING_EDITION_1, answer, sizeof answer) == VTIMING_REFUSED_VERSION);
#define LIMITS(schedule) vtiming_limits(6, schedule, 0, 1080, 4320, 1460, VTIMING_DEFAULT_TRO, VTIMING_PROFILE_VIDEO, limits, 4)
    TRY(LIMITS(0) == VTIMING_ACCEPTED && limits[2] == 5);
    TRY(LIMITS(1) == VTIMING_ACCEPTED && limits[2] == 5);
#undef LIMITS
    return 0;
}

/* examples/one-frame.rec: reads at 20,764,444.44 ns and every 4.8 ms after, the last at 35,164,444.44. A compressed stream has none, and is
 * answered alike. */
static int try_next_read(uint8_t profile)
{
    static const uint64_t first = 20700000;
    uint64_t next[4] = {7, 7, 7, 7};
#define NEXT_READ(arrival, room) vtiming_next_read(6, 0, 1, 1080, 4, 1460, VTIMING_DEFAULT_TRO, profile, first, arrival, next, room)
    TRY(NEXT_READ(first, 3) == VTIMING_ACCEPTED);
    TRY(next[0] == 1 && next[1] == 174000000 && next[2] == 100 && next[3] == 7);
    TRY(NEXT_READ(35164444, 3) == VTIMING_ACCEPTED && next[0] == 1 && next[1] == 1200);
    TRY(NEXT_READ(35164445, 3) == VTIMING_ACCEPTED && next[0] == 0 && next[1] == 0 && next[2] == 0);
    TRY(NEXT_READ(first - 1, 3) == VTIMING_REFUSED_ORDER);
    TRY(NEXT_READ(first + UINT64_C(600000000000), 3) == VTIMING_ACCEPTED);
    TRY(NEXT_READ(first + UINT64_C(600000000001), 3) == VTIMING_REFUSED_SPAN);
    TRY(NEXT_READ(first, 2) == VTIMING_REFUSED_ROOM);
    TRY(vtiming_next_read(0, 0, 1, 1080, 4, 1460, VTIMING_DEFAULT_TRO, profile, first, first - 1, next, 0) == VTIMING_REFUSED_RATE);
#undef NEXT_READ
    return 0;
}

/* examples/interlaced.rec: the reads of field 0 are at 20,764,000 ns and every 4.8 ms after, four of them. With a TRO of 10,000 microseconds
 * the last is at 44,400,000, when field 1 has begun. */
static int try_next_read_of_fields(void)
{
    static const uint64_t first = 20700000;
    uint64_t next[4] = {7, 7, 7, 7};
#define NEXT_READ(n, tro, arrival, room) \
    vtiming_next_read(3, 0, 1, 1080, n, 1460, tro, VTIMING_PROFILE_INTERLACED, first, arrival, next, room)
    TRY(NEXT_READ(8, TRO, first, 3) == VTIMING_ACCEPTED);
    TRY(next[0] == 1 && next[1] == 345600000 && next[2] == 200 && next[3] == 7);
    TRY(NEXT_READ(8, TRO, 35164000, 3) == VTIMING_ACCEPTED && next[0] == 1 && next[1] == 0 && next[2] == 200);
    TRY(NEXT_READ(8, TRO, 35164001, 3) == VTIMING_ACCEPTED && next[0] == 0 && next[1] == 0 && next[2] == 0);
    TRY(NEXT_READ(8, 10000, 40700000, 3) == VTIMING_ACCEPTED && next[0] == 1 && next[1] == UINT64_C(19980000000) && next[2] == 200);
    TRY(NEXT_READ(7, VTIMING_DEFAULT_TRO, first - 1, 0) == VTIMING_REFUSED_PACKETS_PER_FRAME);
    TRY(NEXT_READ(8, VTIMING_DEFAULT_TRO, first - 1, 0) == VTIMING_REFUSED_TRO);
    TRY(NEXT_READ(8, 20000, first - 1, 0) == VTIMING_REFUSED_TRO);
    TRY(NEXT_READ(8, 19999, first - 1, 0) == VTIMING_REFUSED_ORDER);
    TRY(NEXT_READ(8, 19999, first, 2) == VTIMING_REFUSED_ROOM);
#undef NEXT_READ
    return 0;
}

/* Both sides of what is refused of an interlaced stream: an odd n, and at each rate the last TRO below half a frame. What is accepted has the
 * limits that it has as video. */
static int try_interlaced_limits(void)
{
    static const uint32_t last_tro[8] = {20854, 20833, 19999, 16683, 16666, 9999, 8341, 8333};
    uint64_t limits[4], of_video[4];
#define LIMITS(rate, n, tro, profile, out) vtiming_limits((uint8_t)(rate), 0, 1, 1080, n, 1460, tro, profile, out, 4)
    for (uint32_t rate = 1; rate <= 8; rate++) {
        uint32_t tro = last_tro[rate - 1];
        TRY(LIMITS(rate, 4320, tro, VTIMING_PROFILE_INTERLACED, limits) == VTIMING_ACCEPTED && limits[1] == UINT64_C(27000) * tro);
        TRY(LIMITS(rate, 4320, tro, VTIMING_PROFILE_VIDEO, of_video) == VTIMING_ACCEPTED && memcmp(limits, of_video, sizeof limits) == 0);
        TRY(LIMITS(rate, 4320, tro + 1, VTIMING_PROFILE_INTERLACED, limits) == VTIMING_REFUSED_TRO);
        TRY(LIMITS(rate, 4320, tro + 1, VTIMING_PROFILE_VIDEO, limits) == VTIMING_ACCEPTED);
        TRY(LIMITS(rate, 4320, VTIMING_DEFAULT_TRO, VTIMING_PROFILE_INTERLACED, limits) == VTIMING_REFUSED_TRO);
        for (size_t k = 0; k < 4; k++) {
            static const uint32_t odd[4] = {1, 3, 4321, 19999}, even[4] = {2, 4, 4320, 20000};
            TRY(LIMITS(rate, odd[k], tro + 1, VTIMING_PROFILE_INTERLACED, limits) == VTIMING_REFUSED_PACKETS_PER_FRAME);
            TRY(LIMITS(rate, odd[k], tro, VTIMING_PROFILE_COMPRESSED, limits) == VTIMING_ACCEPTED);
            TRY(LIMITS(rate, even[k], tro, VTIMING_PROFILE_INTERLACED, limits) == VTIMING_ACCEPTED);
        }
    }
#undef LIMITS
    return 0;
}

/* One field of four packets at once, written and measured: a quarter of a frame after the start of its period, 10 ms at rate code 3, the next
 * start is as near and is taken; a nanosecond earlier it is not. */
static int try_quarters(void)
{
    enum { PACKETS = 5, SIZE = VTIMING_HEAD_BYTES + PACKETS * VTIMING_PACKET_BYTES, ROOM = VTIMING_SUMMARY_BYTES + VTIMING_ROW_BYTES };
    static const uint64_t firsts[2] = {29999999, 30000000};
    static const int64_t wanted[2] = {269999973, -270000000};
    static const uint32_t stamps[PACKETS] = {0};
    static const uint8_t markers[PACKETS] = {1, 0, 0, 0, 1};
    uint8_t file[SIZE], answer[ROOM];
    for (size_t k = 0; k < 2; k++) {
        uint64_t arrivals[PACKETS] = {19000000, firsts[k], firsts[k], firsts[k], firsts[k]};
        TRY(vtiming_write(VTIMING_RECORD_VERSION, 3, 0, 1, 1080, 8, 1460, 15000, VTIMING_PROFILE_INTERLACED, arrivals, PACKETS, stamps, PACKETS,
                          markers, PACKETS, file, SIZE) == VTIMING_ACCEPTED);
        TRY(vtiming_measure(file, SIZE, VTIMING_EDITION_2, answer, ROOM) == VTIMING_ACCEPTED);
        TRY(vtiming_number(answer, 6) == VTIMING_BUFFER_PASS && vtiming_number(answer, 9 + 1) == VTIMING_FRAME_WHOLE);
        TRY(vtiming_number(answer, 9 + 3) == wanted[k] && vtiming_number(answer, 9 + 6) == 27000 * 15000 - wanted[k]);
    }
    return 0;
}

static int try_limits_and_graph(void)
{
    uint64_t limits[4];
    double figures[3];
    TRY(vtiming_limits(6, 0, 1, 1080, 4320, 1460, VTIMING_DEFAULT_TRO, VTIMING_PROFILE_VIDEO, limits, 4) == VTIMING_ACCEPTED);
    TRY(limits[0] == 540000000 && limits[1] == 20640000 && limits[2] == 5 && limits[3] == 8);
    TRY(vtiming_graph(27000, -27000, 54000, figures, 3) == VTIMING_ACCEPTED);
    TRY(figures[0] == 1.0 && figures[1] == -1.0 && figures[2] == 2.0);
    TRY(vtiming_graph(INT64_MAX, 0, 0, figures, 3) == VTIMING_REFUSED_FIGURE);
    return 0;
}

int main(int count, char **names)
{
    static uint8_t file[LONGEST];
    if (try_decoder() || try_answers(VTIMING_EDITION_1) || try_answers(VTIMING_EDITION_2) || try_editions()) return 1;
    if (try_no_profiles() || try_room() || try_versions() || try_limits_and_graph()) return 1;
    if (try_next_read(VTIMING_PROFILE_VIDEO) || try_next_read(VTIMING_PROFILE_COMPRESSED) || try_next_read_of_fields()) return 1;
    if (try_interlaced_limits() || try_quarters()) return 1;
    printf("%s %d.%d.%d\n", VTIMING_VERSION, VTIMING_VERSION_MAJOR, VTIMING_VERSION_MINOR, VTIMING_VERSION_PATCH);
    for (int k = 1; k < count; k++) {
        FILE *from = fopen(names[k], "rb");
        TRY(from);
        size_t size = fread(file, 1, sizeof file, from);
        TRY(!ferror(from) && size < sizeof file);
        fclose(from);
        if (is_capture(names[k]) ? put_capture(file, size) : put_file(file, size)) return 1;
    }
    return fflush(stdout) ? 1 : 0;
}
