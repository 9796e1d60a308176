/* vtiming: packet timing of one ST 2110-20 video stream, progressive or interlaced, or of a compressed one, ST 2110-22, for a host
 * written in C or C++.
 *
 * Link with libvtiming.a of the package (`pkg-config --cflags --libs vtiming`), or with the archives as `rt lib --cpu x86-64`
 * makes them in crates/report_c and crates/film_c, out/libreport_c.a and out/libfilm_c.a, which has the functions of captures (x86-64
 * Linux). They need no other library and call no function of the host. The manual, MANUAL.md, says what the measured numbers mean for a station.
 *
 * What is lent. Every pointer is lent for the length of the call and no longer: nothing is kept, nothing is allocated,
 * nothing is freed. Each pointer comes with its length, counted in elements of its type; where the length is 0 the pointer
 * may be null. Input is only read. Calls share nothing, so any number of threads may call at once.
 *
 * Four things are forbidden, and nothing is promised of a call that does one of them:
 *
 *   - a pointer to fewer elements than its length says;
 *   - an area lent for writing that overlaps any other lent area (those lent for reading may overlap each other);
 *   - an array of uint64_t, uint32_t or double that is not aligned for its type, as C requires of every array (what is
 *     declared as one, or comes from malloc, is aligned); bytes need no alignment;
 *   - another thread that, during the call, writes into what was lent or reads what was lent for writing.
 *
 * Nothing else is forbidden: whatever the bytes and numbers are, every call ends and there is an answer.
 *
 * What comes back. Each function returns 0 where it has done its work, or the number by which it refuses. A refused call
 * writes nothing at all. An accepted call writes at the front of what was lent, and what lies after it stays as it was.
 * The three functions that can refuse at a place have a twin that takes the same input, writes nothing and returns that
 * place; it returns 0 for an accepted call, and also where the place is 0, so ask the number first. vtiming_measure_room
 * and vtiming_capture_room write nothing either, and return a number of bytes.
 *
 * The numbers, which vtiming_refusal below names:
 *
 *    0  accepted
 *    1  the rate code is not 1 to 8                                   give one of the codes below
 *    2  the schedule is not 0 or 1                                    0 is gapped, 1 linear
 *    3  the class is unknown or against the schedule                  1 is for schedule 0, 2 for 1; 3 and 0 are for either
 *    4  the height is 0                                               give the number of lines
 *    5  the packets per frame are not 1 to 20,000                     count the packets of a good frame
 *       of an interlaced stream: or they are odd                      give those of both fields together
 *    6  MAXUDP is not 1460 or 8960                                    1460 is the standard limit, 8960 the extended one
 *    7  TRO is a frame long or longer                                 give it in microseconds, or VTIMING_DEFAULT_TRO
 *       of an interlaced stream: half a frame or longer, or default   give it in microseconds, below half a frame
 *    8  the edition is not 1 or 2                                     give VTIMING_EDITION_1 or VTIMING_EDITION_2
 *   10  the three arrays differ in length                             lend as many of each
 *   11  a marker is above 1                                           it is one bit of the RTP header: lend 0 or 1
 *   12  a packet arrives earlier than the one before it               put the packets in order of arrival
 *   13  a packet arrives more than 600 s after the first              measure in stretches of at most ten minutes
 *   14  there are more than 1,000,000,000 packets                     measure in shorter stretches
 *   15  too little room was lent for the answer                       lend more (each function says how much), call again
 *   16  a figure for the graph is above 2^53 in size                  leave the point out: no double holds it exactly
 *   20  the file is empty, or its version is neither 1 nor 2          it is no record file; to vtiming_write give 1 or 2
 *   21  a record is cut short, or its length is 0                     the file was cut off, or was damaged there
 *   22  a record is of an unknown kind, or its length is wrong        the file was damaged there, or is another format
 *       as an argument: the profile is none of 1, 3 and 4             give one of VTIMING_PROFILE_.., below
 *   23  the parameters do not come first, or come again               one parameter record, of kind 1, 3 or 4, then packets only
 *   24  too few bytes were lent to the writer                         lend 19 + 16 for each packet
 *   30  this is no classic pcap of Ethernet, or is below 24 bytes     save the capture as classic pcap (editcap -F nsecpcap)
 *   31  a capture record is cut short                                 the capture was cut off, or was damaged there
 *   32  a record's part of a second is a second or more               the capture was damaged there
 *   33  the offset is above 99                                        37 for a capture clock of UTC, 0 for one of TAI
 *
 * vtiming_next_read gives 12 and 13 of a packet and the first packet of its frame. vtiming_measure and vtiming_capture alone
 * give 8. vtiming_measure gives 22 of a record; vtiming_write, vtiming_capture, vtiming_limits and vtiming_next_read of the profile
 * alone.
 *
 * Class 0 is the strict class of the schedule: narrow (1) on schedule 0, narrow linear (2) on schedule 1. So it is wherever a
 * class is given, and in a record file of version 2. A record file of version 1 alone keeps 0 as wide (3), as all did before
 * version 3.0.0 of this library; what vtiming_measure answers of such a file has not changed.
 *
 * The edition is that of the stations' test plan by which the buffer is judged. Edition 1 judges the whole frames alone, as all
 * was judged before version 4.0.0 of this library, so that an earlier report comes out as it did. Under edition 2 a broken frame
 * (kind 1, 2 or 3) fails the buffer too. Nothing but the buffer answer depends on it, numbers 6 to 8 of the summary. A record file
 * says nothing of an edition, and no answer does: a report should name the one that was given.
 *
 * The profile says what the stream is: 1 video (ST 2110-20, progressive), 3 compressed (ST 2110-22), 4 interlaced (ST 2110-20, each
 * marker closes a field). That is the kind of the parameter record which stands for it in a record file; any other is refused by 22.
 * Profile, edition, class and version are chosen each for itself.
 *
 * Of a compressed stream the network bucket is judged as of video, and the frames are told and timed alike: kind, detail, FPT,
 * RTP_OFFSET, VL, margin, GAP and first packet. No buffer is judged, because the receiver buffer model does not apply to ST 2110-22
 * (RP 2110-25, clause 4.10.2): the buffer answer is always VTIMING_BUFFER_NONE, so that numbers 6 to 8 of the summary are 0, and so
 * are numbers 8 and 9 of every row. That holds under both editions, and where frames are broken too. So none is no pass: it says
 * that no buffer was judged. All seven numbers of the stream must be given and are refused by the same rules, though MAXUDP then
 * decides nothing, and height nothing but a default TRO.
 *
 * Of an interlaced stream two fields make a frame. Rate and packets_per_frame, n, are those of whole frames, and n is even: a field
 * has n/2 packets. TRO must be given, and is below half a frame; there is no default. All that is told and judged of a frame is then
 * told and judged of a field, and where this page says frame of an answer, a field is meant: frames and rows are counted by fields,
 * from 0. Field periods start at whole multiples of F/2, F being the frame. FPT and RTP_OFFSET are from the nearest of these starts,
 * so that FPT is at least -F/4 and below F/4. The kinds are against n/2. A field has n/2 reads: the first comes TRO after the start of
 * its period, the others follow as far apart as the reads of a frame of n packets. Some may come after the next field has begun: each
 * field is judged by its own reads alone. C_MAX, VRX_FULL and the pace of the network bucket are those of n and the whole frame.
 * Under edition 2 a broken field fails as a broken frame does. Height, which a default TRO alone depends on, decides nothing.
 *
 * What a program must change that was made for 5.0.0: vtiming_limits, vtiming_next_read and vtiming_capture_room have the profile as
 * an argument, right behind tro: every function that is given the seven numbers is given it. Give VTIMING_PROFILE_VIDEO for the
 * answers of before, of a compressed stream too. All other functions are called as before; but vtiming_measure and its twins know
 * record files of kind 4, which they refused by 22: of such a file every row is a field's. Then compile it again: the compiler names
 * each call that lacks the argument. In an object that is only linked again these calls are refused in practice, and nothing is
 * written; nothing is promised of them. Its vtiming_capture_room hands over whatever stands behind its arguments as the profile: the
 * room, or 0. Its vtiming_limits hands over the address of the answer as the profile. It is aligned to 8, so the low byte of it is no
 * profile: 22. Its vtiming_next_read hands over `first` as
 * the profile, of which the low byte may be anything: 22 in 253 of 256 cases. In the other three the arrival stands for `first`, and
 * for the arrival the address of the answer, which is below 2^47 on x86-64 Linux. Two days after the epoch and later that is earlier
 * than the arrival: 12, or 5 or 7 before it. Of an arrival nearer to the epoch nothing can be said: such a call may write anywhere.
 *
 * Made for 4.0.0 or older, it must change this too: vtiming_write, vtiming_write_place, vtiming_capture and vtiming_capture_place
 * have the profile as an argument, right behind tro. Give VTIMING_PROFILE_VIDEO for the answers of before. vtiming_measure and its
 * twins know record files of kind 3 too, which they refused by 22: a program that measures such a file must not take
 * VTIMING_BUFFER_NONE for a pass. Only linked again, these calls too are refused in practice, and nothing is written; nothing is
 * promised of them. Its vtiming_write hands over the address of the arrivals as the profile. They are aligned to 8, so the low byte of
 * it is no profile: 22. Its vtiming_capture hands over the edition as the profile, and the address of the room as the edition.
 * Edition 2 is no profile: 22. Edition 1 is one, but the low 32 bits of an address are neither 1 nor 2 in practice: 8.
 *
 * Made for 3.0.0 or older, it must change this too: vtiming_measure, vtiming_measure_offset, vtiming_capture and
 * vtiming_capture_place have the edition as an argument, in front of the room. Give VTIMING_EDITION_1 for the answers of before; a
 * program that gives VTIMING_EDITION_2 must know 4, VTIMING_BUFFER_BROKEN, in number 6. Only linked again, it too is refused in
 * practice: vtiming_measure has the address of the room as the edition, 8; vtiming_capture has it as the profile and the room's length
 * as the edition: 22, or 8, or 5 or 7 before it.
 *
 * Made for 2.3.0 or older, it must change this too: vtiming_write and vtiming_write_place have the version as their first argument;
 * give them VTIMING_RECORD_VERSION. Where the program gives class 0 and means wide, give 3.
 *
 * 9, a state out of its range, cannot come out of these functions: no state crosses this border.
 *
 * Rate codes: 1 24000/1001, 2 24/1, 3 25/1, 4 30000/1001, 5 30/1, 6 50/1, 7 60000/1001, 8 60/1 frames a second.
 * Times in an answer are whole grains: 27 grains are one nanosecond, 27,000 one microsecond. A second has 27,000,000,000
 * grains; that, times the rate's denominator, over its numerator, is one frame, and nothing is left over. */
#ifndef VTIMING_H
#define VTIMING_H

#include <stddef.h>
#include <stdint.h>

#ifdef __cplusplus
extern "C" {
#endif

/* The version of this header and of the archive that it belongs to. */
#define VTIMING_VERSION "6.0.0"
#define VTIMING_VERSION_MAJOR 6
#define VTIMING_VERSION_MINOR 0
#define VTIMING_VERSION_PATCH 0

/* A TRO of all ones stands for the default: 43F/1125 from height 1080 on, 28F/750 below. An interlaced stream has none. */
#define VTIMING_DEFAULT_TRO UINT32_C(0xFFFFFFFF)

/* Room for vtiming_measure: the summary, and a row for each frame that closes. vtiming_measure_room adds them up. Or without
 * asking: VTIMING_ENOUGH_BYTES(file_len), six times the file's length, is always enough. That is proved of every file (in the
 * project's repository, crates/demands/specs/Calls.antt: room-at-most and always-enough). The product is made in size_t, whatever
 * type file_len has. Five times is too little where nearly every packet closes a frame. */
#define VTIMING_SUMMARY_BYTES 72
#define VTIMING_ROW_BYTES 88
#define VTIMING_ENOUGH_BYTES(file_len) ((size_t)6 * (file_len))

/* How many numbers stand in front of the rows, and how many a row has: number j of row r, both from 0, is number
 * VTIMING_SUMMARY_NUMBERS + VTIMING_ROW_NUMBERS * r + j of the answer. */
#define VTIMING_SUMMARY_NUMBERS 9
#define VTIMING_ROW_NUMBERS 11

/* The same for vtiming_capture, which has two numbers more in front of the rows; vtiming_capture_room adds up the bytes. */
#define VTIMING_CAPTURE_SUMMARY_BYTES 88
#define VTIMING_CAPTURE_SUMMARY_NUMBERS 11

/* The version of a record file to write today. Version 1 is for readers that know no other; class 0 is wide in it. */
#define VTIMING_RECORD_VERSION 2

/* Room for vtiming_write: version and parameters, and a record for each packet. */
#define VTIMING_HEAD_BYTES 19
#define VTIMING_PACKET_BYTES 16

/* The numbers by which a call refuses, as the list above has them. The functions return uint32_t, and the names compare
 * with that as they are. */
enum vtiming_refusal {
    VTIMING_ACCEPTED = 0,
    VTIMING_REFUSED_RATE = 1,
    VTIMING_REFUSED_SCHEDULE = 2,
    VTIMING_REFUSED_CLASS = 3,
    VTIMING_REFUSED_HEIGHT = 4,
    VTIMING_REFUSED_PACKETS_PER_FRAME = 5,
    VTIMING_REFUSED_MAXUDP = 6,
    VTIMING_REFUSED_TRO = 7,
    VTIMING_REFUSED_EDITION = 8,
    VTIMING_REFUSED_LENGTHS = 10,
    VTIMING_REFUSED_MARKER = 11,
    VTIMING_REFUSED_ORDER = 12,
    VTIMING_REFUSED_SPAN = 13,
    VTIMING_REFUSED_COUNT = 14,
    VTIMING_REFUSED_ROOM = 15,
    VTIMING_REFUSED_FIGURE = 16,
    VTIMING_REFUSED_VERSION = 20,
    VTIMING_REFUSED_CUT = 21,
    VTIMING_REFUSED_KIND = 22,
    VTIMING_REFUSED_PARAMETERS = 23,
    VTIMING_REFUSED_WRITE_ROOM = 24,
    VTIMING_REFUSED_CAPTURE = 30,
    VTIMING_REFUSED_CAPTURE_CUT = 31,
    VTIMING_REFUSED_SUBSECOND = 32,
    VTIMING_REFUSED_OFFSET = 33
};

/* The edition of the test plan by which the buffer is judged: what vtiming_measure and vtiming_capture are told. 1 judges whole
 * frames alone, as before version 4.0.0. 2 is the plan of the stations' interoperability group in which a broken frame fails too.
 * The functions take uint32_t, and the names are given as they are. */
enum vtiming_edition {
    VTIMING_EDITION_1 = 1,
    VTIMING_EDITION_2 = 2
};

/* The profile of a stream: what every function is told that is given the seven numbers of a stream, and the kind of a record
 * file's parameter record. Of a compressed stream no buffer is judged; of an interlaced one every row is a field's. The
 * functions take uint8_t, and the names are given as they are. */
enum vtiming_profile {
    VTIMING_PROFILE_VIDEO = 1,
    VTIMING_PROFILE_COMPRESSED = 3,
    VTIMING_PROFILE_INTERLACED = 4
};

/* The kind of a frame: number 1 of its row. It is also number 8 of the summary where number 6 is VTIMING_BUFFER_BROKEN. */
enum vtiming_frame_kind {
    VTIMING_FRAME_WHOLE = 0,
    VTIMING_FRAME_SHORT = 1,
    VTIMING_FRAME_LONG = 2,
    VTIMING_FRAME_STAMP = 3
};

/* The network answer: number 3 of what vtiming_measure and vtiming_capture fill. */
enum vtiming_network_answer {
    VTIMING_NETWORK_PASS = 0,
    VTIMING_NETWORK_BURST = 1
};

/* The buffer answer: number 6. VTIMING_BUFFER_BROKEN comes under edition 2 alone. Of a compressed stream it is VTIMING_BUFFER_NONE
 * and nothing else, which is no pass. */
enum vtiming_buffer_answer {
    VTIMING_BUFFER_NONE = 0,
    VTIMING_BUFFER_PASS = 1,
    VTIMING_BUFFER_UNDER = 2,
    VTIMING_BUFFER_OVER = 3,
    VTIMING_BUFFER_BROKEN = 4
};

/* Measures a whole record file, of version 1 or 2. The file itself says the profile: video where its parameter record is of kind 1,
 * compressed where it is of kind 3, interlaced where it is of kind 4.
 *
 *   file, file_len   the file's bytes, all of them
 *   edition          VTIMING_EDITION_1 or VTIMING_EDITION_2
 *   out, out_len     room for the answer: 72 bytes and 88 for each frame that closes; vtiming_measure_room says how many
 *
 * The answer is a row of numbers, each 8 bytes, signed, big-endian; vtiming_number reads one of them:
 *
 *   0  packets       how many there were
 *   1  frames        how many closed
 *   2  peak          the fullest the network bucket was
 *   3  network       0 pass, 1 burst
 *   4, 5             first and last packet of the failing run, from 0; 0 where the network passes
 *   6  buffer        0 none, 1 pass, 2 under (ran dry), 3 over (overflowed), 4 broken (edition 2 alone)
 *   7                the first failing frame; 0 where none fails
 *   8                under: the first packet that came too late, from 0 in its frame; over: the buffer's peak; broken: the
 *                    frame's kind, 1 to 3; else 0
 *
 * and then a row of eleven for each frame, of an interlaced stream for each field:
 *
 *   0  frame         its number, from 0
 *   1  kind          0 whole, 1 short, 2 long, 3 stamp
 *   2  detail        the count of packets for 1 and 2, the place of the first differing timestamp for 3, else 0
 *   3 to 7           FPT, RTP_OFFSET, VL, margin, GAP: five times in grains. Of the times that a timestamp may mean, 2^32 ticks
 *                    apart, the one nearest to the arrival is taken, so VL is less than 6 h 38 min either way
 *   8, 9             the buffer's peak; its least. Both are 0 of a compressed stream, where they say nothing
 *   10 first packet  where the frame began: the place of its first packet among all packets of the file, from 0, the lead-in
 *                    counted. Its record is at byte 19 + 16·place of the file
 *
 * For kinds 1 to 3 the numbers 3 to 9 are 0; the last is filled for every kind. So number j of row r is 9 + 11·r + j of all.
 *
 * The first failing frame decides. Under edition 1 whole frames alone can fail, by under before over; none means that no whole
 * frame has closed, and pass that every whole frame fits. Under edition 2 a broken frame fails by broken, and a whole one as under
 * edition 1; none means that no frame has closed, and pass that every closed frame is whole and fits. The lead-in, and a frame
 * that is still open at the end, are not judged. Of a compressed stream no frame is: it is none under both editions, however many
 * frames have closed.
 *
 * Refuses by 20 to 23, 1 to 8 and 11 to 14 at the first record that is refused, and by 15 after all else. 8 is given at the
 * parameters, at offset 1, where these are accepted otherwise, and before any later record is looked at: so a file that has no
 * parameters is never refused by 8. */
uint32_t vtiming_measure(const uint8_t *file, size_t file_len, uint32_t edition, uint8_t *out, size_t out_len);

/* The twin of vtiming_measure, given how much room there would be: the offset in the file of the refused record (0 for
 * 20, 1 for 8), the file's length for 15, 0 for an accepted file. */
uint64_t vtiming_measure_offset(const uint8_t *file, size_t file_len, uint32_t edition, size_t out_len);

/* How many bytes vtiming_measure fills for this file, so that no host has to guess: ask, lend as many, measure. That is 72
 * and 88 for each frame that closes; one byte fewer would be refused by 15. It is 0 for a file that vtiming_measure refuses
 * whatever is lent, by 20 to 23, 1 to 7 or 11 to 14. It is told no edition, since the room is the same under both; the profile, by
 * which it is the same too, is in the file. */
uint64_t vtiming_measure_room(const uint8_t *file, size_t file_len);

/* Measures one stream of a whole network capture: classic pcap, in microseconds or nanoseconds, in either byte order, of
 * Ethernet.
 *
 *   capture, capture_len  the capture's bytes, all of them
 *   port             the UDP port that the stream is sent to
 *   offset           whole seconds, 0 to 99, that are added to each time of the capture so that it counts from the SMPTE
 *                    epoch: 37 for a clock that shows UTC (since 2017), 0 for one that shows TAI
 *   rate to tro      the seven numbers of the stream, as vtiming_write has them; class 0 is 1 on schedule 0, 2 on schedule 1
 *   profile          VTIMING_PROFILE_VIDEO, VTIMING_PROFILE_COMPRESSED or VTIMING_PROFILE_INTERLACED: a capture does not say it
 *   edition          VTIMING_EDITION_1 or VTIMING_EDITION_2, as of vtiming_measure; of a compressed stream too, though both then
 *                    give the same answer
 *   out, out_len     room for the answer: 88 bytes and 88 for each frame that closes; vtiming_capture_room says how many
 *
 * A frame of the capture is a packet of the stream where its captured bytes hold all of these: Ethernet's header with type
 * 0800, or with one tag of type 8100 and then 0800; IPv4, options too, that is no fragment and carries UDP; UDP's header with
 * that destination port; RTP's header with version 2, its contributors and its extension. The captured bytes alone decide:
 * lengths of IP and UDP, checksums, addresses, payload type, sequence number, SSRC and padding are not read. So RTCP of
 * version 2 on the port is taken for a packet, and so is a keep-alive of nothing but padding. Every other frame is skipped.
 *
 * The answer is as vtiming_measure has it of the stream's packets, with two numbers more in front of the rows:
 *
 *   0 to 8           as of vtiming_measure
 *   9  records       how many records the capture has
 *   10 skipped       how many of them are no packets of the stream; records less skipped is number 0
 *
 * So number j of row r is 11 + 11·r + j of all. Packets are counted among those of the stream, from 0, and not among the
 * records: a row's last number too.
 *
 * Refuses by 22 first of all, where the profile is none of the three; by 1 to 7, then by 8; then by 33, also where the capture is
 * empty; by 30; record by record by 31, 32 (of skipped records too) and 12 to 14; and by 15 after all else. 11 cannot come: the
 * marker is one bit. A capture of no record, or of skipped ones only, is accepted. */
uint32_t vtiming_capture(const uint8_t *capture, size_t capture_len, uint16_t port, uint32_t offset, uint8_t rate,
                         uint8_t schedule, uint8_t stream_class, uint16_t height, uint32_t packets_per_frame,
                         uint16_t maxudp, uint32_t tro, uint8_t profile, uint32_t edition, uint8_t *out, size_t out_len);

/* The twin of vtiming_capture, given how much room there would be: for 31 and 32 the record of the capture, from 0; for 12 to
 * 14 the packet of the stream, from 0; else 0, for 22, 8 and 15 too. */
uint64_t vtiming_capture_place(const uint8_t *capture, size_t capture_len, uint16_t port, uint32_t offset, uint8_t rate,
                               uint8_t schedule, uint8_t stream_class, uint16_t height, uint32_t packets_per_frame,
                               uint16_t maxudp, uint32_t tro, uint8_t profile, uint32_t edition, size_t out_len);

/* How many bytes vtiming_capture fills for this capture and these numbers: 88 and 88 for each frame that closes; one byte
 * fewer would be refused by 15. It is 0 for a capture that vtiming_capture refuses whatever is lent, under both editions: it is told
 * none, since the room is the same. */
uint64_t vtiming_capture_room(const uint8_t *capture, size_t capture_len, uint16_t port, uint32_t offset, uint8_t rate,
                              uint8_t schedule, uint8_t stream_class, uint16_t height, uint32_t packets_per_frame,
                              uint16_t maxudp, uint32_t tro, uint8_t profile);

/* Number k, from 0, of what vtiming_measure or vtiming_capture has filled; k is below 9 + 11·frames, or 11 + 11·frames. It is
 * C of this header, and is tried but not proved. */
static inline int64_t vtiming_number(const uint8_t *answer, size_t k)
{
    const uint8_t *bytes = answer + 8 * k;
    uint64_t bits = 0;
    for (int i = 0; i < 8; i++) bits = (bits << 8) | bytes[i];
    /* By arithmetic, since C leaves it to the compiler what a number above INT64_MAX is converted to. */
    return bits >> 63 ? -1 - (int64_t)~bits : (int64_t)bits;
}

/* Writes a record file.
 *
 *   version          1 or 2; VTIMING_RECORD_VERSION is 2
 *   rate             rate code, 1 to 8
 *   schedule         0 gapped, 1 linear
 *   stream_class     1 narrow, 2 narrow linear, 3 wide; 0, which is written as 0, is 1 on schedule 0 and 2 on schedule 1, or in a
 *                    file of version 1 is 3
 *   height           lines of the picture, 1 to 65,535
 *   packets_per_frame  1 to 20,000; of an interlaced stream those of both fields together, an even number
 *   maxudp           1460 or 8960
 *   tro              whole microseconds, less than a frame; or VTIMING_DEFAULT_TRO. Of an interlaced stream whole microseconds, less
 *                    than half a frame, and nothing else
 *   profile          VTIMING_PROFILE_VIDEO, VTIMING_PROFILE_COMPRESSED or VTIMING_PROFILE_INTERLACED: written as the kind of the
 *                    parameter record, 1, 3 or 4
 *   arrivals         of each packet, nanoseconds since the SMPTE epoch
 *   stamps           RTP timestamps
 *   markers          0 or 1
 *   out, out_len     room for the file: 19 bytes and 16 for each packet
 *
 * Refuses by 20 first of all, then by 22 where the profile is none of the three, then by 1 to 7, 10, then packet by packet 11 to 14,
 * then 24. Nothing but 5 and 7 depends on the profile: the file has the same length, and the same bytes but the kind. What it writes,
 * vtiming_measure accepts under either edition, given room. */
uint32_t vtiming_write(uint8_t version, uint8_t rate, uint8_t schedule, uint8_t stream_class, uint16_t height,
                       uint32_t packets_per_frame, uint16_t maxudp, uint32_t tro, uint8_t profile, const uint64_t *arrivals,
                       size_t arrival_count, const uint32_t *stamps, size_t stamp_count, const uint8_t *markers,
                       size_t marker_count, uint8_t *out, size_t out_len);

/* The twin of vtiming_write: for 11 to 14 the place of the refused packet, from 0; else 0, for 22 too. */
uint64_t vtiming_write_place(uint8_t version, uint8_t rate, uint8_t schedule, uint8_t stream_class, uint16_t height,
                             uint32_t packets_per_frame, uint16_t maxudp, uint32_t tro, uint8_t profile, const uint64_t *arrivals,
                             size_t arrival_count, const uint32_t *stamps, size_t stamp_count, const uint8_t *markers,
                             size_t marker_count, size_t out_len);

/* What follows from the seven numbers of a stream, which are those of vtiming_write; class 0 is 1 on schedule 0, 2 on schedule
 * 1. Fills four numbers: F, the length of a frame in grains; TRO in grains; C_MAX, the most packets that the network bucket may
 * hold; VRX_FULL, the most that the receiver's buffer holds. Of every profile that accepts the seven numbers the four are the same: of
 * an interlaced stream F is the whole frame too, and C_MAX and VRX_FULL are those of all its packets; of a compressed one VRX_FULL is
 * not used. The profile decides what is refused. out_len counts numbers. Refuses by 22 first of all, where the profile is none of the
 * three; by 1 to 7, as the profile has them; then by 15 where there is room for fewer than four. */
uint32_t vtiming_limits(uint8_t rate, uint8_t schedule, uint8_t stream_class, uint16_t height, uint32_t packets_per_frame,
                        uint16_t maxudp, uint32_t tro, uint8_t profile, uint64_t *out, size_t out_len);

/* How long the receiver still waits, from a packet on, until it reads again: for a graph, packet by packet.
 *
 *   rate to tro      the seven numbers of the stream, as vtiming_write has them; class 0 is 1 on schedule 0, 2 on schedule 1
 *   profile          VTIMING_PROFILE_VIDEO or VTIMING_PROFILE_INTERLACED
 *   first            arrival of the first packet of the packet's frame, or field: it fixes the reads of the frame or field
 *   arrival          arrival of the packet itself; both in nanoseconds since the SMPTE epoch
 *   out, out_len     room for three numbers; out_len counts numbers
 *
 * Fills:
 *
 *   0  left          1 where a read of the frame or field is still to come, 0 where none is left
 *   1  numerator     of the grains from the packet to the next read; 0 where that read is at the packet's own arrival
 *   2  denominator   of these grains: 25·n for gapped, n for linear, n being packets_per_frame, of an interlaced stream too
 *
 * The fraction is exact and not reduced; over 27 it is nanoseconds. Where no read is left, numbers 1 and 2 are 0, which is no
 * fraction: the next frame's reads are not meant. The numerator is at most 844,589,250,000,000, so that int64_t holds it, and from
 * the frame's first read on it is below 24·F for gapped and F for linear. The frame need not be whole, nor closed. The packets up
 * to the first marker are in no frame: for these there is nothing to ask.
 *
 * Of an interlaced stream a field has n/2 reads, and the next field's are not meant, though they may come before the field's last. A
 * compressed stream has no reads, so there is nothing to ask; VTIMING_PROFILE_COMPRESSED is taken, and answered as
 * VTIMING_PROFILE_VIDEO is.
 *
 * Refuses by 22 first of all, where the profile is none of the three; by 1 to 7, as the profile has them; then by 12 where the packet
 * comes before the frame's first, by 13 where it comes more than 600 s after it, and then by 15 where there is room for fewer than
 * three. */
uint32_t vtiming_next_read(uint8_t rate, uint8_t schedule, uint8_t stream_class, uint16_t height, uint32_t packets_per_frame,
                           uint16_t maxudp, uint32_t tro, uint8_t profile, uint64_t first, uint64_t arrival, uint64_t *out,
                           size_t out_len);

/* Three figures of a row for a graph: FPT, margin and VL, taken in grains, come out as microseconds. n counts doubles.
 * Refuses by 16, which is given for no figures of a row, then by 15 where there is room for fewer than three. */
uint32_t vtiming_graph(int64_t fpt, int64_t margin, int64_t latency, double *out, size_t n);

#ifdef __cplusplus
}
#endif

#endif
