//! Request (ix) of document 02, "Interlaced": fields on small lists whose answers are
//! worked out by hand, set-up at both sides of what it refuses, parameter records of
//! kind 4, captures and next reads. What 22 and 23 say of kind 4 beside the other
//! kinds is in `profile.rs`.

use vtiming_reference::capture::NANOSECONDS;
use vtiming_reference::feed::{cut_everywhere, Lists};
use vtiming_reference::generate::OTHER_EDITIONS;
use vtiming_reference::next_read::three_numbers;
use vtiming_reference::pcap::{Capture, Frame};
use vtiming_reference::*;

/// Rate 6, gapped, narrow, n 4, TRO 700: a field has two packets, fields start 10 ms
/// apart, read 0 is 700 µs after that and read 1 4.8 ms later.
const FIELDS: Numbers = Numbers {
    tro: Some(700),
    profile: INTERLACED,
    ..Numbers::narrow(4)
};

/// A field of one packet.
const ONE: Numbers = Numbers {
    packets_per_frame: 2,
    ..FIELDS
};

fn list(packets: &[(u64, u32, u8)]) -> Vec<Packet> {
    let packet =
        |&(arrival, timestamp, marker): &(u64, u32, u8)| Packet::new(arrival, timestamp, marker);
    packets.iter().map(packet).collect()
}

/// A lead-in and two fields. The second packet of the last one comes a nanosecond
/// after read 1, which is at 25.5 ms.
fn two_fields() -> Vec<Packet> {
    list(&[
        (9_000_000, 0, 1),
        (10_600_000, 900, 0),
        (15_400_000, 900, 1),
        (20_700_000, 1800, 0),
        (25_500_001, 1800, 1),
    ])
}

/// FPT is 0.6 and 0.7 ms after 10 and 20 ms, which are the timestamps too; GAP 1.6 and
/// 5.3 ms. Drains are 100/22 ms apart: at twice that the peak would be 4.
const TWO_ROWS: &str = "\
frame 0 0 0 16200000 0 16200000 2700000 43200000 1 0 1
frame 1 0 0 18900000 0 18900000 0 143100000 1 -1 3
";
const TWO_VERDICTS: &str = "packets 5 frames 2 peak 2 network pass buffer under 1 1";

fn text_of(numbers: &Numbers, packets: &[Packet]) -> String {
    let texts = [1, 2].map(|version| expected_output(&write(version, numbers, packets)));
    assert_eq!(texts[0], texts[1]);
    texts[0].clone()
}

fn measured(edition: u32, numbers: &Numbers, packets: &[Packet]) -> Measurement {
    measure(edition, numbers, packets).unwrap()
}

// --- fields ---

#[test]
fn two_fields_as_interlaced() {
    let text = format!("{}{}\n", TWO_ROWS, TWO_VERDICTS);
    assert_eq!(text_of(&FIELDS, &two_fields()), text);
    // By edition 2 nothing else: both fields are whole.
    let [by_1, by_2] = EDITIONS.map(|edition| measured(edition, &FIELDS, &two_fields()));
    assert_eq!(by_1, by_2);
}

/// The same list as video: two short frames, and the bucket is the same.
#[test]
fn two_fields_are_two_short_frames() {
    assert_eq!(
        text_of(&FIELDS.of(VIDEO), &two_fields()),
        "frame 0 1 2 0 0 0 0 0 0 0 1\n\
         frame 1 1 2 0 0 0 0 0 0 0 3\n\
         packets 5 frames 2 peak 2 network pass buffer none\n"
    );
}

/// A nanosecond earlier the last packet is on its read, and in time.
#[test]
fn a_packet_on_its_read_is_in_time() {
    let mut packets = two_fields();
    packets[4].arrival = 25_500_000;
    let text = text_of(&FIELDS, &packets);
    assert!(text.contains("\nframe 1 0 0 18900000 0 18900000 0 143100000 1 0 3\n"));
    assert!(text.ends_with(" network pass buffer pass\n"));
    // On a linear schedule read 1 is at 25.7 ms.
    packets[4].arrival = 25_700_000;
    let linear = Numbers {
        schedule: 1,
        class: 2,
        ..FIELDS
    };
    let buffer = |packets: &[Packet]| measured(EDITION_1, &linear, packets).buffer;
    assert_eq!(buffer(&packets), Buffer::Pass);
    packets[4].arrival += 1;
    let under = Buffer::Under {
        frame: 1,
        packet: 1,
    };
    assert_eq!(buffer(&packets), under);
}

/// "FPT is at least −F/4 and below F/4." Both sides, where a quarter is a whole
/// nanosecond and where it is not; and of the field after next.
#[test]
fn first_packets_at_both_sides_of_a_quarter() {
    for (rate, arrival, first_packet_time) in [
        (6, 4_999_999, 134_999_973),
        (6, 5_000_000, -135_000_000),
        (6, 5_000_001, -134_999_973),
        (6, 24_999_999, 134_999_973),
        (6, 25_000_000, -135_000_000),
        // F/4 is 112,612,500 grains, a third of a nanosecond after 4,170,833 ns.
        (7, 4_170_833, 112_612_491),
        (7, 4_170_834, -112_612_482),
        // 281,531,250 grains are 10,427,083.3 ns.
        (1, 10_427_083, 281_531_241),
        (1, 10_427_084, -281_531_232),
    ] {
        let numbers = Numbers { rate, ..ONE };
        let packets = list(&[(arrival - 1, 0, 1), (arrival, 0, 1)]);
        let row = measured(EDITION_1, &numbers, &packets).rows[0];
        assert_eq!([row[1], row[3]], [0, first_packet_time]);
        // "Margin = TRO − FPT"; 700 µs are 18,900,000 grains.
        assert_eq!(row[6], 18_900_000 - first_packet_time);
        assert_eq!(row[7], 27);
    }
}

/// Where a field has a quarter a frame has none: half a frame off T_CF is where N
/// turns over.
#[test]
fn the_same_packet_as_video_has_another_period() {
    let packets = list(&[(5_000_000, 0, 1), (5_000_000, 0, 1)]);
    let video = Numbers {
        packets_per_frame: 1,
        ..ONE.of(VIDEO)
    };
    let row = measured(EDITION_1, &video, &packets).rows[0];
    assert_eq!(row[3], 135_000_000);
}

/// "Kinds against n/2": short, long, stamp and whole; by edition 2 a broken field is a
/// broken frame.
#[test]
fn broken_fields() {
    let packets = list(&[
        (9_000_000, 0, 1),
        (10_600_000, 0, 0),
        (15_400_000, 0, 1),
        (20_600_000, 0, 1),
        (30_600_000, 0, 0),
        (31_000_000, 0, 0),
        (35_400_000, 0, 1),
        (40_600_000, 0, 0),
        (45_400_000, 1, 1),
    ]);
    let rows = measured(EDITION_1, &FIELDS, &packets).rows;
    let kinds: Vec<&[i64]> = rows.iter().map(|row| &row[..3]).collect();
    assert_eq!(kinds, [[0, 0, 0], [1, 1, 1], [2, 2, 3], [3, 3, 1]]);
    let places: Vec<i64> = rows.iter().map(|row| row[10]).collect();
    assert_eq!(places, [1, 3, 4, 7]);
    let buffer = |edition, packets: &[Packet]| measured(edition, &FIELDS, packets).buffer;
    assert_eq!(buffer(EDITION_1, &packets), Buffer::Pass);
    let broken = Buffer::Broken { frame: 1, kind: 1 };
    assert_eq!(buffer(EDITION_2, &packets), broken);
    assert_eq!(buffer(EDITION_2, &packets[..3]), Buffer::Pass);
    assert_eq!(buffer(EDITION_2, &packets[..2]), Buffer::None);
    // Without the whole field there is none to be judged by edition 1.
    assert_eq!(buffer(EDITION_1, &packets[2..]), Buffer::None);
}

/// A buffer that holds one packet, as 12000 over 8960 is 1: both packets of a field
/// before read 0.
#[test]
fn an_overfull_field() {
    let small = Numbers {
        maxudp: 8960,
        ..FIELDS
    };
    let packets = list(&[(9_000_000, 0, 1), (10_600_000, 0, 0), (10_600_000, 0, 1)]);
    for edition in EDITIONS {
        let over = Buffer::Over { frame: 0, peak: 2 };
        assert_eq!(measured(edition, &small, &packets).buffer, over);
        assert_eq!(measured(edition, &FIELDS, &packets).buffer, Buffer::Pass);
    }
}

/// TRO 9999: a field's reads are 9.999 and 14.799 ms after its start, the second after
/// the next field has started. Each is judged "by its own reads alone": the first
/// field's last packet is on its read 1, and the next field's two, at that instant, are
/// all in the buffer.
#[test]
fn reads_that_overlap_the_next_field() {
    let late = Numbers {
        tro: Some(9_999),
        ..FIELDS
    };
    let mut packets = list(&[
        (19_000_000, 0, 1),
        (20_000_000, 1800, 0),
        (34_799_000, 1800, 1),
        (34_799_000, 2700, 0),
        (34_799_000, 2700, 1),
    ]);
    assert_eq!(
        text_of(&late, &packets),
        "frame 0 0 0 0 0 0 269973000 27000000 1 0 1\n\
         frame 1 0 0 129573000 0 129573000 140400000 0 2 0 3\n\
         packets 5 frames 2 peak 3 network pass buffer pass\n"
    );
    packets[2].arrival += 1;
    packets[3].arrival += 1;
    packets[4].arrival += 1;
    let under = Buffer::Under {
        frame: 0,
        packet: 1,
    };
    assert_eq!(measured(EDITION_1, &late, &packets).buffer, under);
}

/// However a list is cut, and with eleven numbers a field.
#[test]
fn fields_call_after_call() {
    for edition in EDITIONS {
        let calls = cut_everywhere(edition, &FIELDS, &two_fields(), 5);
        assert!(calls.iter().all(|feed| feed.number == 0));
        assert_eq!(calls[0].nine, [5, 2, 2, 0, 0, 0, 2, 1, 1]);
        let lists = Lists::of(&two_fields()[2..]);
        let answer = |room| call(edition, &FIELDS, &two_fields()[..2], lists.lent(), room);
        assert_eq!(answer(21), Err(Refusal::new(15, 2)));
        assert_eq!(answer(22).unwrap().rows[1][..3], [1, 0, 0]);
    }
}

// --- set-up ---

fn refusal(numbers: &Numbers) -> u8 {
    set_up(EDITION_1, numbers).err().unwrap_or(0)
}

/// "7 also for a default TRO or one of F/2 and above", on both sides at every rate; as
/// video all are accepted.
#[test]
fn a_time_must_be_given_below_half_a_frame() {
    let last = [20854, 20833, 19999, 16683, 16666, 9999, 8341, 8333];
    for (rate, last) in (1..=8).zip(last) {
        let with = |tro| Numbers {
            rate,
            tro,
            ..FIELDS
        };
        for (tro, number) in [
            (Some(0), 0),
            (Some(last), 0),
            (Some(last + 1), 7),
            (Some(2 * last), 7),
            (Some(0xffff_fffe), 7),
            (None, 7),
        ] {
            assert_eq!(refusal(&with(tro)), number);
        }
        assert_eq!(refusal(&with(Some(last + 1)).of(VIDEO)), 0);
        assert_eq!(refusal(&with(None).of(COMPRESSED)), 0);
    }
}

/// "5 also for odd n here": the least is 2.
#[test]
fn packets_of_a_frame_must_be_even() {
    for (n, number) in [
        (0, 5),
        (1, 5),
        (2, 0),
        (3, 5),
        (5, 5),
        (6, 0),
        (19_998, 0),
        (19_999, 5),
        (20_000, 0),
        (20_001, 5),
        (20_002, 5),
    ] {
        let numbers = Numbers {
            packets_per_frame: n,
            ..FIELDS
        };
        assert_eq!(refusal(&numbers), number);
    }
}

/// An odd n comes after 1 to 4 and before 6 and 7, a default TRO after 6 and before 8;
/// a profile that there is not comes before all of them.
#[test]
fn the_order_of_the_refusals() {
    let odd = Numbers {
        packets_per_frame: 5,
        maxudp: 1500,
        tro: None,
        ..FIELDS
    };
    assert_eq!(refusal(&odd), 5);
    assert_eq!(refusal(&Numbers { height: 0, ..odd }), 4);
    assert_eq!(refusal(&odd.of(5)), 22);
    let even = Numbers {
        packets_per_frame: 6,
        ..odd
    };
    assert_eq!(refusal(&even), 6);
    let late = Numbers {
        maxudp: 1460,
        ..even
    };
    for edition in OTHER_EDITIONS {
        assert_eq!(set_up(edition, &late), Err(7));
        assert_eq!(set_up(edition, &FIELDS), Err(8));
    }
}

/// "The limits C_MAX and VRX_FULL use n and the whole frame": document 01's cases 3 and
/// 4, with an even n before each step.
#[test]
fn limits_are_of_the_whole_frame() {
    for (n, c_max, vrx_full) in [(4146, 4, 8), (4148, 5, 8), (4858, 5, 8), (4860, 5, 9)] {
        let numbers = Numbers {
            packets_per_frame: n,
            ..FIELDS
        };
        let limits = set_up(EDITION_1, &numbers).unwrap();
        assert_eq!([limits.c_max, limits.vrx_full], [c_max, vrx_full]);
        assert_eq!([limits.frame, limits.tro], [540_000_000, 18_900_000]);
        let period = Period {
            length: 270_000_000,
            packets: n as i128 / 2,
        };
        assert_eq!(limits.period, period);
        let video = set_up(EDITION_1, &numbers.of(VIDEO)).unwrap();
        assert_eq!([video.c_max, video.vrx_full], [c_max, vrx_full]);
    }
}

// --- the record file ---

/// Version, length 16, kind 4, and then as kind 1 has it; TRO 700 is 2·256 + 188.
#[test]
fn a_parameter_record_of_kind_4_is_laid_out_as_kind_1() {
    for version in [1, 2] {
        let file = write(version, &FIELDS, &[]);
        let wanted = [
            version, 0, 16, 4, 6, 0, 1, 4, 56, 0, 0, 0, 4, 5, 180, 0, 0, 2, 188,
        ];
        assert_eq!(file, wanted);
        assert_eq!(parse(&file), Ok((version, FIELDS, vec![])));
        let lists = Lists::of(&two_fields());
        let written = writer(version, &FIELDS, lists.lent(), 99).unwrap();
        assert_eq!(parse(&written), Ok((version, FIELDS, two_fields())));
        let short = writer(version, &FIELDS, lists.lent(), 98);
        assert_eq!(short, Err(Refusal::new(24, 0)));
    }
}

/// What set-up refuses it refuses in a file, at offset 1, and of the writer.
#[test]
fn files_that_interlaced_alone_refuses() {
    let odd = Numbers {
        packets_per_frame: 5,
        ..FIELDS
    };
    let unsaid = Numbers {
        tro: None,
        ..FIELDS
    };
    let half = Numbers {
        tro: Some(10_000),
        ..FIELDS
    };
    for (numbers, number) in [(odd, 5), (unsaid, 7), (half, 7)] {
        for version in [1, 2] {
            let refused = |place| Refusal::new(number, place);
            let file = write(version, &numbers, &two_fields());
            assert_eq!(parse(&file), Err(refused(1)));
            assert_eq!(expected_c_call(3, &file, 1000), (number, 1, None));
            let lists = Lists::of(&two_fields());
            let written = writer(version, &numbers, lists.lent(), 1000);
            assert_eq!(written, Err(refused(0)));
            assert!(parse(&write(version, &numbers.of(VIDEO), &[])).is_ok());
        }
    }
    let file = write(2, &FIELDS, &two_fields());
    assert_eq!(expected_c_call(3, &file, 1000), (8, 1, None));
}

/// In a file of version 1 class 0 is wide, in one of version 2 strict: five packets at
/// one instant.
#[test]
fn class_0_is_read_by_the_version() {
    let numbers = Numbers { class: 0, ..FIELDS };
    let packets = vec![Packet::new(7, 0, 0); 5];
    let text = |version| expected_output(&write(version, &numbers, &packets));
    assert!(text(1).ends_with("network pass buffer none\n"));
    assert!(text(2).ends_with("network burst 0 4 buffer none\n"));
}

/// Nine numbers and two rows of the C call.
#[test]
fn the_c_call_of_two_fields() {
    let file = write(1, &FIELDS, &two_fields());
    let room = 72 + 2 * 88;
    let too_few = (15, 99, None);
    assert_eq!(expected_c_call(EDITION_2, &file, room - 1), too_few);
    let filled = expected_c_call(EDITION_2, &file, room).2.unwrap();
    let numbers: Vec<i64> = filled
        .chunks(8)
        .map(|eight| i64::from_be_bytes(eight.try_into().unwrap()))
        .collect();
    assert_eq!(numbers[..9], [5, 2, 2, 0, 0, 0, 2, 1, 1]);
    let last = [1, 0, 0, 18_900_000, 0, 18_900_000, 0, 143_100_000, 1, -1, 3];
    assert_eq!(numbers[20..], last);
}

// --- captures and next reads ---

#[test]
fn a_capture_as_interlaced() {
    let mut capture = Capture::new(NANOSECONDS, true);
    for packet in two_fields() {
        capture.push(packet.arrival, Frame::of(20_000, &packet).bytes());
    }
    let asked = Asked {
        port: 20_000,
        offset: 0,
        numbers: FIELDS,
        edition: EDITION_2,
    };
    let words = asked.words().join(" ");
    assert_eq!(words, "20000 0 6 0 1 1080 4 1460 700 4 2");
    let text = expected_capture_output(&asked, &capture.bytes());
    let last = format!("{} records 5 skipped 0\n", TWO_VERDICTS);
    assert_eq!(text, format!("{}{}", TWO_ROWS, last));
    // As interlaced alone it is refused before the offset is looked at.
    let mut odd = asked;
    odd.numbers.packets_per_frame = 5;
    odd.offset = 100;
    let output = |asked| expected_capture_output(asked, &capture.bytes());
    assert_eq!(output(&odd), "refused 5 0\n");
    assert_eq!(output(&odd.of(VIDEO)), "refused 33 0\n");
}

/// The field begins at 10.6 ms: its reads are at 10.7 and 15.5 ms, and there are two.
/// On a linear schedule the second is at 15.7 ms.
#[test]
fn the_next_read_of_a_field() {
    let linear = Numbers {
        schedule: 1,
        class: 2,
        ..FIELDS
    };
    for (numbers, arrival, three) in [
        (FIELDS, 10_600_000, [1, 270_000_000, 100]),
        (FIELDS, 10_700_000, [1, 0, 100]),
        (FIELDS, 10_700_001, [1, 12_959_997_300, 100]),
        (FIELDS, 15_500_000, [1, 0, 100]),
        (FIELDS, 15_500_001, [0, 0, 0]),
        (linear, 10_700_001, [1, 539_999_892, 4]),
        (linear, 15_700_000, [1, 0, 4]),
        (linear, 15_700_001, [0, 0, 0]),
        // As video its frame starts at 20 ms, and read 0 is at 20.7 ms.
        (FIELDS.of(VIDEO), 15_500_001, [1, 14_039_997_300, 100]),
        (FIELDS.of(COMPRESSED), 15_500_001, [1, 14_039_997_300, 100]),
    ] {
        let wait = Wait {
            numbers,
            first: 10_600_000,
            arrival,
        };
        assert_eq!(next_read(&wait).map(three_numbers), Ok(three));
    }
}

/// 22, then 1 to 7 of the profile, then 12 and 13.
#[test]
fn a_next_read_is_refused_by_its_profile() {
    let wait = |numbers| Wait {
        numbers,
        first: 10_600_000,
        arrival: 10_599_999,
    };
    let odd = Numbers {
        packets_per_frame: 3,
        ..FIELDS
    };
    for (numbers, number) in [(FIELDS, 12), (odd, 5), (odd.of(VIDEO), 12), (odd.of(5), 22)] {
        assert_eq!(next_read(&wait(numbers)), Err(number));
    }
}
