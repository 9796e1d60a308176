//! Request (i), "Read the capture itself", sentence by sentence: what a frame must
//! have to be handed on, every refusal with its place and their order, what is
//! printed and what the C call fills. Frames and captures are written out here
//! byte by byte, so that nothing hangs on how the generated ones are made.

use vtiming_reference::capture::{handed_on, read, records, Carried, Why};
use vtiming_reference::measure::measure;
use vtiming_reference::pcap::{Frame, LONGEST_HEADERS};
use vtiming_reference::*;

const PORT: u16 = 20_000;
const SECOND: u64 = 1_000_000_000;

/// Ethernet, IPv4, UDP to port 20,000, RTP with timestamp 1800 and marker 1.
const ETHERNET: [u8; 14] = [1, 0, 94, 0, 0, 1, 2, 0, 0, 0, 0, 1, 0x08, 0x00];
const IP: [u8; 20] = [
    0x45, 0, 0, 40, 0, 0, 0x40, 0, 64, 17, 0, 0, 10, 0, 0, 1, 239, 0, 0, 1,
];
const UDP: [u8; 8] = [0x13, 0x88, 0x4e, 0x20, 0, 20, 0, 0];
const RTP: [u8; 12] = [0x80, 0xe0, 0, 7, 0, 0, 0x07, 0x08, 1, 2, 3, 4];

fn plain() -> Vec<u8> {
    [&ETHERNET[..], &IP[..], &UDP[..], &RTP[..]].concat()
}

/// The plain frame with one byte changed.
fn with(place: usize, byte: u8) -> Vec<u8> {
    let mut frame = plain();
    frame[place] = byte;
    frame
}

/// The plain frame with bytes put in at a place.
fn inserted(frame: &[u8], place: usize, bytes: &[u8]) -> Vec<u8> {
    [&frame[..place], bytes, &frame[place..]].concat()
}

fn skipped(frame: &[u8], why: Why) {
    assert_eq!(handed_on(frame, PORT), Err(why));
}

fn carried(frame: &[u8]) -> Carried {
    let carried = handed_on(frame, PORT).expect("a frame that is handed on");
    assert_eq!((carried.timestamp, carried.marker), (1800, 1));
    carried
}

/// Handed on whole, and not with one byte less.
fn to_the_last_byte(frame: &[u8], why: Why) {
    carried(frame);
    skipped(&frame[..frame.len() - 1], why);
}

// --- frames ---

#[test]
fn a_plain_frame_is_handed_on_to_its_last_byte() {
    let plain = plain();
    assert_eq!(plain.len(), 54);
    to_the_last_byte(&plain, Why::RtpCut);
    let told = carried(&plain);
    assert!(!told.tagged && !told.options && !told.contributors && !told.extension);
    carried(&[plain, vec![0xff; 1400]].concat());
}

#[test]
fn every_header_must_be_captured() {
    let plain = plain();
    for length in 0..plain.len() {
        let why = match length {
            0..=13 => Why::EthernetCut,
            14..=33 => Why::IpCut,
            34..=41 => Why::UdpCut,
            _ => Why::RtpCut,
        };
        skipped(&plain[..length], why);
    }
}

#[test]
fn the_marker_and_the_timestamp_are_rtps() {
    let told = handed_on(&with(43, 0x7f), PORT).unwrap();
    assert_eq!((told.timestamp, told.marker), (1800, 0));
    let told = handed_on(&with(46, 0xff), PORT).unwrap();
    assert_eq!((told.timestamp, told.marker), (0xff00_0708, 1));
}

/// "Ethernet with at most one VLAN tag".
#[test]
fn one_tag_of_type_8100_and_no_other() {
    let tagged = inserted(&plain(), 12, &[0x81, 0x00, 0xab, 0xcd]);
    assert!(carried(&tagged).tagged);
    to_the_last_byte(&tagged, Why::RtpCut);
    for length in 14..18 {
        skipped(&tagged[..length], Why::TagCut);
    }
    for other in [[0x88, 0xa8], [0x91, 0x00], [0x81, 0x01], [0x80, 0x00]] {
        let tag = [other[0], other[1], 0, 5];
        skipped(&inserted(&plain(), 12, &tag), Why::OtherType);
        skipped(&inserted(&tagged, 16, &tag), Why::OtherType);
    }
    skipped(&inserted(&tagged, 12, &[0x81, 0x00, 0, 5]), Why::OtherType);
}

#[test]
fn other_types_are_other_traffic() {
    for (high, low) in [
        (0x86, 0xdd),
        (0x08, 0x06),
        (0x08, 0x01),
        (0x00, 0x08),
        (0x05, 0xdc),
    ] {
        let mut frame = plain();
        frame[12..14].copy_from_slice(&[high, low]);
        skipped(&frame, Why::OtherType);
    }
}

#[test]
fn ip_is_of_version_4_with_at_least_five_words() {
    for version in (0..16_u8).filter(|version| *version != 4) {
        skipped(&with(14, version << 4 | 5), Why::IpVersion);
    }
    for words in 0..5 {
        skipped(&with(14, 0x40 | words), Why::IpWords);
    }
}

#[test]
fn options_are_within_the_captured_bytes() {
    for words in 6..16_u8 {
        let mut frame = inserted(&plain(), 34, &vec![7; 4 * usize::from(words - 5)]);
        frame[14] = 0x40 | words;
        assert!(carried(&frame).options);
        to_the_last_byte(&frame, Why::RtpCut);
        let options_end = 14 + 4 * usize::from(words);
        skipped(&frame[..options_end - 1], Why::OptionsCut);
        skipped(&frame[..options_end], Why::UdpCut);
    }
}

#[test]
fn the_protocol_is_udp() {
    for protocol in (0..=255).filter(|protocol| *protocol != 17) {
        skipped(&with(23, protocol), Why::Protocol);
    }
}

/// "IP fragments [...] are skipped"; the reserved bit and "don't fragment" say
/// nothing of that.
#[test]
fn fragments_are_skipped_and_two_bits_are_not_looked_at() {
    for high in [0x00, 0x40, 0x80, 0xc0] {
        carried(&with(20, high));
        for bit in 0..6 {
            skipped(&with(20, high | 1 << bit), Why::Fragment);
        }
    }
    for bit in 0..8 {
        skipped(&with(21, 1 << bit), Why::Fragment);
    }
}

#[test]
fn the_destination_port_is_the_given_one() {
    for port in [0, 1, 5000, PORT - 1, PORT + 1, 0x204e, 65_535] {
        assert_eq!(handed_on(&plain(), port), Err(Why::Port));
    }
    for port in [0, 65_535] {
        let mut frame = plain();
        frame[36..38].copy_from_slice(&u16::to_be_bytes(port));
        assert!(handed_on(&frame, port).is_ok());
    }
}

#[test]
fn rtp_is_of_version_2() {
    for version in [0, 1, 3] {
        skipped(&with(42, version << 6), Why::RtpVersion);
    }
    // Padding is not read.
    carried(&with(42, 0xa0));
}

#[test]
fn all_contributors_must_be_captured() {
    for count in 1..16_u8 {
        let frame = [with(42, 0x80 | count), vec![9; 4 * usize::from(count)]].concat();
        assert!(carried(&frame).contributors);
        to_the_last_byte(&frame, Why::ContributorsCut);
    }
}

#[test]
fn an_extension_must_be_captured_with_all_its_words() {
    for words in [0, 1, 2, 100, 16_383, 16_384, 16_385, 65_535_u16] {
        let [high, low] = words.to_be_bytes();
        let head = [with(42, 0x90), vec![0xbe, 0xde, high, low]].concat();
        let why = match words {
            0 => Why::ExtensionCut,
            _ => Why::ExtensionWordsCut,
        };
        let frame = [head.clone(), vec![1; 4 * usize::from(words)]].concat();
        assert!(carried(&frame).extension);
        to_the_last_byte(&frame, why);
        for length in 54..58 {
            skipped(&head[..length], Why::ExtensionCut);
        }
    }
    // Without its bit there is none.
    assert!(!carried(&[plain(), vec![0, 0, 0xff, 0xff]].concat()).extension);
}

/// The extension comes after the contributors.
#[test]
fn all_parts_at_once() {
    let packet = Packet::new(0, 1800, 1);
    for words in [0, 3] {
        let frame = Frame::full(PORT, &packet, words).bytes();
        assert_eq!(frame.len(), LONGEST_HEADERS + 4 * usize::from(words));
        let told = carried(&frame);
        assert!(told.tagged && told.options && told.contributors && told.extension);
        assert!(handed_on(&frame[..frame.len() - 1], PORT).is_err());
    }
}

/// "captured bytes alone decide": no length, checksum or address is read.
#[test]
fn what_is_not_read_may_be_anything() {
    let ip = [15, 16, 17, 18, 19, 22, 24, 25, 26, 29, 30, 33];
    let udp_and_rtp = [34, 35, 38, 39, 40, 41, 44, 45, 50, 53];
    for place in (0..12).chain(ip).chain(udp_and_rtp) {
        for byte in [0, 1, 0x7f, 0xff] {
            carried(&with(place, byte));
        }
    }
}

// --- captures ---

const NARROW: Numbers = Numbers::narrow(4);

fn asked(offset: u32) -> Asked {
    Asked {
        port: PORT,
        offset,
        numbers: NARROW,
        edition: EDITION_1,
    }
}

/// A file header in little-endian microseconds, and link type 1.
const HEADER: [u8; 24] = [
    0xd4, 0xc3, 0xb2, 0xa1, 2, 0, 4, 0, 0, 0, 0, 0, 0, 0, 0, 0, 0xff, 0xff, 0, 0, 1, 0, 0, 0,
];

fn record(seconds: u32, fraction: u32, frame: &[u8]) -> Vec<u8> {
    let words = [seconds, fraction, frame.len() as u32, 1514];
    let head = words.iter().flat_map(|word| word.to_le_bytes());
    head.chain(frame.iter().copied()).collect()
}

fn capture(records: &[Vec<u8>]) -> Vec<u8> {
    [HEADER.to_vec(), records.concat()].concat()
}

/// Every number of four bytes of a capture turned round; its records are whole.
fn turned(bytes: &[u8]) -> Vec<u8> {
    let mut turned = bytes.to_vec();
    let mut turn = |from: usize| turned[from..from + 4].reverse();
    for word in [0, 8, 12, 16, 20] {
        turn(word);
    }
    let records = records(bytes, PORT, 0).records;
    for record in records {
        for word in [16, 12, 8, 4] {
            turn(record.begin - word);
        }
    }
    turned
}

fn answer(asked: &Asked, bytes: &[u8]) -> (u8, u64) {
    let (number, place, _) = expected_capture_call(asked, bytes, usize::MAX);
    (number, place)
}

/// Document 01's example with microseconds, and a frame of other traffic.
fn example() -> Vec<u8> {
    let sent = |microseconds, timestamp: u32, marker: u8| {
        let mut frame = plain();
        frame[43] = marker << 7 | 96;
        frame[46..50].copy_from_slice(&timestamp.to_be_bytes());
        record(0, microseconds, &frame)
    };
    capture(&[
        sent(19_000, 0, 1),
        sent(20_700, 1800, 0),
        sent(25_500, 1800, 0),
        record(7, 0, &with(12, 0x86)),
        sent(30_300, 1800, 0),
        sent(35_100, 1800, 1),
    ])
}

#[test]
fn the_example_of_document_01_as_a_capture() {
    let wanted = "\
frame 0 0 0 18900000 0 18900000 1740000 45900000 1 0 1
packets 5 frames 1 peak 2 network pass buffer pass records 6 skipped 1
";
    assert_eq!(expected_capture_output(&asked(0), &example()), wanted);
    let packets = "\
0 packet 19000000 0 1
1 packet 20700000 1800 0
2 packet 25500000 1800 0
3 skipped
4 packet 30300000 1800 0
5 packet 35100000 1800 1
";
    assert_eq!(expected_packets(&example(), PORT, 0), packets);
    assert_eq!(capture::ports(&example()), [PORT]);
}

/// Eleven numbers, the nine of `vtiming_measure` and the records read and
/// skipped; then the rows. One byte fewer is 15 at place 0.
#[test]
fn what_the_c_call_fills() {
    let (number, place, filled) = expected_capture_call(&asked(0), &example(), 176);
    let filled = filled.unwrap();
    let numbers: Vec<i64> = filled
        .chunks(8)
        .map(|eight| i64::from_be_bytes(eight.try_into().unwrap()))
        .collect();
    assert_eq!((number, place), (0, 0));
    assert_eq!(numbers[..11], [5, 1, 2, 0, 0, 0, 1, 0, 0, 6, 1]);
    assert_eq!(numbers[11..14], [0, 0, 0]);
    assert_eq!(filled.len(), 8 * (11 + 11));
    for room in [0, 88, 175] {
        assert_eq!(
            expected_capture_call(&asked(0), &example(), room),
            (15, 0, None)
        );
    }
    // 15 comes last.
    let cut = &example()[..100];
    assert_eq!(expected_capture_call(&asked(0), cut, 0), (31, 1, None));
}

/// "both magic numbers (microseconds, nanoseconds) in both byte orders".
#[test]
fn four_magics() {
    let little = example();
    let big = turned(&little);
    assert_eq!(big[..4], [0xa1, 0xb2, 0xc3, 0xd4]);
    let wanted = expected_capture_output(&asked(5), &little);
    assert!(wanted.ends_with("records 6 skipped 1\n"));
    assert_eq!(expected_capture_output(&asked(5), &big), wanted);
    let mut nanoseconds = little.clone();
    nanoseconds[..4].copy_from_slice(&[0x4d, 0x3c, 0xb2, 0xa1]);
    let arrivals = |bytes: &[u8]| -> Vec<u64> {
        let list = capture::packets_of(&records(bytes, PORT, 0).records);
        list.iter().map(|packet| packet.arrival).collect()
    };
    let in_nanoseconds = [19_000, 20_700, 25_500, 30_300, 35_100];
    assert_eq!(arrivals(&nanoseconds), in_nanoseconds);
    assert_eq!(arrivals(&turned(&nanoseconds)), in_nanoseconds);
    assert_eq!(arrivals(&little), in_nanoseconds.map(|n| 1000 * n));
}

#[test]
fn thirty_for_what_is_no_such_capture() {
    let good = example();
    for length in 0..24 {
        assert_eq!(answer(&asked(0), &good[..length]), (30, 0));
    }
    assert_eq!(answer(&asked(0), &good[..24]), (0, 0));
    for magic in [
        [0x0a, 0x0d, 0x0d, 0x0a],
        [0xa1, 0xb2, 0xcd, 0x34],
        [0x34, 0xcd, 0xb2, 0xa1],
        [0x1f, 0x8b, 0x08, 0x00],
        [0xd4, 0xc3, 0xb2, 0xa0],
        [0xc3, 0xd4, 0xa1, 0xb2],
    ] {
        let mut other = good.clone();
        other[..4].copy_from_slice(&magic);
        assert_eq!(answer(&asked(0), &other), (30, 0));
    }
    for link in [
        [0, 0, 0, 0],
        [0, 0, 0, 1],
        [113, 0, 0, 0],
        [1, 0, 0, 0xf0],
        [1, 0, 1, 0],
    ] {
        let mut other = good.clone();
        other[20..24].copy_from_slice(&link);
        assert_eq!(answer(&asked(0), &other), (30, 0));
    }
}

/// Version, zone, sigfigs, snap length and original length.
#[test]
fn what_is_not_read_of_a_capture() {
    let wanted = expected_capture_output(&asked(0), &example());
    for place in (4..20).chain(36..40) {
        let mut other = example();
        other[place] = !other[place];
        assert_eq!(expected_capture_output(&asked(0), &other), wanted);
    }
}

/// "33 for an offset above 99", before 30.
#[test]
fn thirty_three_for_an_offset_above_99() {
    for offset in [0, 1, 37, 99] {
        assert_eq!(answer(&asked(offset), &example()), (0, 0));
        assert_eq!(answer(&asked(offset), &[]), (30, 0));
    }
    for offset in [100, 101, 128, 256, 256 + 37, 1 << 16, u32::MAX] {
        assert_eq!(answer(&asked(offset), &example()), (33, 0));
        assert_eq!(answer(&asked(offset), &[]), (33, 0));
    }
    let text = expected_capture_output(&asked(100), &example());
    assert_eq!(text, "refused 33 0\n");
    assert_eq!(expected_packets(&example(), PORT, 100), "refused 33 0\n");
}

#[test]
fn set_up_refuses_before_all_else() {
    let changes: [fn(&mut Numbers); 7] = [
        |numbers| numbers.rate = 0,
        |numbers| numbers.schedule = 2,
        |numbers| numbers.class = 2,
        |numbers| numbers.height = 0,
        |numbers| numbers.packets_per_frame = 0,
        |numbers| numbers.maxudp = 1500,
        |numbers| numbers.tro = Some(20_000),
    ];
    for (number, change) in (1..).zip(changes) {
        let mut refused = asked(100);
        change(&mut refused.numbers);
        assert_eq!(answer(&refused, &[]), (number, 0));
        let text = expected_capture_output(&refused, &example());
        assert_eq!(text, format!("refused {} 0\n", number));
    }
}

/// "the offset [...] added to each arrival": arrivals with k are those with 0
/// plus k seconds, from the first second to the last of 32 bits.
#[test]
fn the_offset_is_added_to_each_arrival() {
    let whole = capture(&[
        record(0, 0, &plain()),
        record(1, 999_999, &plain()),
        record(u32::MAX, 999_999, &plain()),
    ]);
    let arrivals = |offset| -> Vec<u64> {
        let list = capture::packets_of(&records(&whole, PORT, offset).records);
        list.iter().map(|packet| packet.arrival).collect()
    };
    let last = 4_294_967_295_999_999_000;
    assert_eq!(arrivals(0), [0, 1_999_999_000, last]);
    for offset in [1, 37, 99] {
        let later = arrivals(0)
            .iter()
            .map(|t| t + u64::from(offset) * SECOND)
            .collect();
        let wanted: Vec<u64> = later;
        assert_eq!(arrivals(offset), wanted);
    }
}

/// "31 for a capture record cut short": wherever the file ends but between two
/// records, the record that it ends in is refused.
#[test]
fn thirty_one_wherever_the_file_ends_in_a_record() {
    let whole = example();
    let mut begins = vec![24];
    begins.extend(records(&whole, PORT, 0).records.iter().map(|r| r.end));
    for length in 24..=whole.len() {
        let inside = begins.iter().filter(|begin| **begin < length).count();
        let wanted = match begins.contains(&length) {
            true => (0, 0),
            false => (31, inside as u64 - 1),
        };
        assert_eq!(answer(&asked(0), &whole[..length]), wanted);
    }
}

#[test]
fn thirty_one_for_a_captured_length_beyond_the_end() {
    let two = capture(&[record(0, 0, &plain()), record(0, 0, &plain())]);
    let with_length = |place: usize, captured: u32| {
        let mut bytes = two.clone();
        bytes[place + 8..place + 12].copy_from_slice(&captured.to_le_bytes());
        answer(&asked(0), &bytes)
    };
    for captured in [55, 1 << 31, u32::MAX - 15, u32::MAX] {
        assert_eq!(with_length(94, captured), (31, 1));
    }
    // The first record takes all that is left, and then one byte more.
    assert_eq!(with_length(24, 54 + 70), (0, 0));
    assert_eq!(with_length(24, 54 + 71), (31, 0));
    // Shorter, what is left over is read as the next record.
    assert_eq!(with_length(94, 53), (31, 2));
}

/// "32 for a sub-second field of one second or more", of skipped frames too.
#[test]
fn thirty_two_for_a_second_in_the_sub_second_field() {
    for (second, magic) in [(1_000_000, 0xd4), (1_000_000_000, 0x4d)] {
        for frame in [plain(), with(12, 0)] {
            let at = |fraction| {
                let mut bytes = capture(&[record(3, 0, &plain()), record(3, fraction, &frame)]);
                bytes[0] = magic;
                bytes[1] = if magic == 0x4d { 0x3c } else { 0xc3 };
                answer(&asked(0), &bytes)
            };
            assert_eq!(at(second - 1), (0, 0));
            assert_eq!(at(second), (32, 1));
            assert_eq!(at(u32::MAX), (32, 1));
        }
    }
}

/// 12 and 13 name the packet's place among those handed on, as everywhere; what
/// is skipped has no arrival.
#[test]
fn twelve_and_thirteen_of_the_packets_handed_on() {
    let other = with(23, 6);
    let start = [record(1000, 0, &plain()), record(5, 0, &other)];
    let then = |seconds, fraction, frame: &[u8]| {
        let list = [start.to_vec(), vec![record(seconds, fraction, frame)]].concat();
        answer(&asked(0), &capture(&list))
    };
    assert_eq!(then(1000, 0, &plain()), (0, 0));
    assert_eq!(then(999, 999_999, &plain()), (12, 1));
    assert_eq!(then(1600, 0, &plain()), (0, 0));
    assert_eq!(then(1600, 1, &plain()), (13, 1));
    assert_eq!(then(0, 0, &other), (0, 0));
    assert_eq!(then(u32::MAX, 0, &other), (0, 0));
}

/// "record by record 31, 32, 12 to 14".
#[test]
fn the_order_of_refusals() {
    let first = record(1000, 0, &plain());
    let back = record(0, 0, &plain());
    let back_and_wrong = record(0, u32::MAX, &plain());
    let answer = |list: &[Vec<u8>]| answer(&asked(0), &capture(list));
    // At one record.
    assert_eq!(answer(&[first.clone(), back_and_wrong.clone()]), (32, 1));
    let cut = back_and_wrong[..60].to_vec();
    assert_eq!(answer(&[first.clone(), cut.clone()]), (31, 1));
    // The earlier record decides.
    assert_eq!(answer(&[first.clone(), back.clone(), cut.clone()]), (12, 1));
    let list = [first.clone(), back.clone(), back_and_wrong.clone()];
    assert_eq!(answer(&list), (12, 1));
    assert_eq!(answer(&[first, back_and_wrong, back]), (32, 1));
}

/// The rows closed before a refusal are printed.
#[test]
fn rows_come_before_a_refusal() {
    let cut = [example(), vec![0; 15]].concat();
    let wanted = "\
frame 0 0 0 18900000 0 18900000 1740000 45900000 1 0 1
refused 31 6
";
    assert_eq!(expected_capture_output(&asked(0), &cut), wanted);
    assert_eq!(read(&asked(0), &cut).records.len(), 6);
}

/// "A capture of exactly 24 bytes, or of skipped frames only, is accepted".
#[test]
fn a_capture_without_packets() {
    let none = "packets 0 frames 0 peak 0 network pass buffer none records 0 skipped 0\n";
    assert_eq!(expected_capture_output(&asked(0), &HEADER), none);
    let empty = record(0, 0, &[]);
    let three = capture(&[empty.clone(), record(9, 9, &with(42, 0)), empty]);
    let skipped = "packets 0 frames 0 peak 0 network pass buffer none records 3 skipped 3\n";
    assert_eq!(expected_capture_output(&asked(0), &three), skipped);
}

/// Frames are as long as they were captured, and the next record begins where
/// one ends.
#[test]
fn long_frames_in_a_capture() {
    let packet = Packet::new(0, 1800, 1);
    let long = Frame::full(PORT, &packet, 65_535).bytes();
    let list = [&plain(), &long, &long[..long.len() - 1], &long, &plain()];
    let records = list.map(|frame| record(0, 0, frame));
    let text = expected_packets(&capture(&records), PORT, 0);
    let told: Vec<bool> = text.lines().map(|line| line.contains("packet")).collect();
    assert_eq!(told, [true, true, false, true, true]);
}

/// The words of the program, and a default TRO among them.
#[test]
fn eleven_words() {
    let words = asked(37).words().join(" ");
    assert_eq!(words, "20000 37 6 0 1 1080 4 1460 4294967295 1 1");
}

// --- generated captures ---

/// A capture call is the measurement of the packets that it hands on; both byte
/// orders give one answer; an offset moves arrivals and nothing else.
#[test]
fn generated_captures_keep_the_promises() {
    let mut whole = 0;
    for index in 0..1500 {
        let (asked, bytes) = traffic::capture(3, index);
        let told = records(&bytes, asked.port, asked.offset);
        if told.refusal.is_some() || set_up(asked.edition, &asked.numbers).is_err() {
            continue;
        }
        whole += 1;
        let packets = capture::packets_of(&told.records);
        let skipped = told.records.iter().filter(|record| record.read.is_err());
        assert_eq!(skipped.count() + packets.len(), told.records.len());
        let reading = read(&asked, &bytes);
        match measure(asked.edition, &asked.numbers, &packets) {
            Ok(measured) => assert_eq!(reading.measurement, Some(measured)),
            Err(refusal) => assert_eq!(reading.refusal, Some(refusal)),
        }
        let text = expected_capture_output(&asked, &bytes);
        assert_eq!(expected_capture_output(&asked, &turned(&bytes)), text);
        let at_the_epoch = capture::packets_of(&records(&bytes, asked.port, 0).records);
        let moved = at_the_epoch.iter().map(|packet| Packet {
            arrival: packet.arrival + u64::from(asked.offset) * SECOND,
            ..*packet
        });
        assert_eq!(moved.collect::<Vec<Packet>>(), packets);
    }
    assert!(whole > 800, "only {} whole captures", whole);
}
