//! Request (viii) of document 02, "Class 0 should be strict": what class 0 means
//! without a file and in the two versions of a file, and 20 first of all. The
//! numbers are worked out by hand.

use vtiming_reference::capture::NANOSECONDS;
use vtiming_reference::generate::{file, under};
use vtiming_reference::pcap::{Capture, Frame};
use vtiming_reference::record::read;
use vtiming_reference::*;

const GAPPED: u64 = 0;
const LINEAR: u64 = 1;

/// Rate 6, height 1080, MAXUDP 1460: T is 1/50.
fn numbers(schedule: u64, class: u64, n: u64) -> Numbers {
    Numbers {
        schedule,
        class,
        ..Numbers::narrow(n)
    }
}

/// C_MAX and VRX_FULL, set up without a file.
fn limits(schedule: u64, class: u64, n: u64) -> (i128, i128) {
    let limits = set_up(EDITION_1, &numbers(schedule, class, n)).unwrap();
    (limits.c_max, limits.vrx_full)
}

/// C_MAX and VRX_FULL of a file of this version.
fn limits_in(version: u8, schedule: u64, class: u64, n: u64) -> (i128, i128) {
    let file = write(version, &numbers(schedule, class, n), &[]);
    let limits = read(EDITION_1, &file).limits.unwrap();
    (limits.c_max, limits.vrx_full)
}

/// So many packets at one instant, which is within the lead-in.
fn at_once(count: usize) -> Vec<Packet> {
    vec![Packet::new(1_000, 0, 0); count]
}

/// A frame of n packets at one instant, after a lead-in, all before read 0.
fn pile(n: u64) -> Vec<Packet> {
    let frame = (1..=n).map(|j| Packet::new(19_990_000, 0, u8::from(j == n)));
    std::iter::once(Packet::new(0, 0, 1)).chain(frame).collect()
}

/// The answers of the last line that a file of this version has.
fn verdict(version: u8, numbers: &Numbers, packets: &[Packet]) -> String {
    let text = expected_output(&write(version, numbers, packets));
    let last = text.lines().last().unwrap();
    last[last.find("network").unwrap()..].to_string()
}

fn refused(number: u8, place: u64) -> Refusal {
    Refusal::new(number, place)
}

// --- set-up without a file ---

/// Narrow: MAX(4, n over 43200·24/25·1/50, which is 829.44), and 5·829.44 is
/// 4147.2. VRX_FULL: MAX(8, n over 540).
#[test]
fn without_a_file_class_0_is_narrow_on_a_gapped_schedule() {
    assert_eq!(limits(GAPPED, 0, 4), (4, 8));
    assert_eq!(limits(GAPPED, 0, 4147), (4, 8));
    assert_eq!(limits(GAPPED, 0, 4148), (5, 8));
    assert_eq!(limits(GAPPED, 0, 4859).1, 8);
    assert_eq!(limits(GAPPED, 0, 4860).1, 9);
    assert_eq!(limits(GAPPED, 3, 4), (16, 739));
}

/// Narrow linear: MAX(4, n over 864), and 5·864 is 4320.
#[test]
fn without_a_file_class_0_is_narrow_linear_on_a_linear_schedule() {
    assert_eq!(limits(LINEAR, 0, 4), (4, 8));
    assert_eq!(limits(LINEAR, 0, 4319), (4, 8));
    assert_eq!(limits(LINEAR, 0, 4320), (5, 8));
    assert_eq!(limits(LINEAR, 0, 4859).1, 8);
    assert_eq!(limits(LINEAR, 0, 4860).1, 9);
    assert_eq!(limits(LINEAR, 3, 4), (16, 739));
}

/// At every rate, with both sizes of packets.
#[test]
fn without_a_file_class_0_sets_up_as_1_or_as_2() {
    for rate in 1..=8 {
        for maxudp in [1460, 8960] {
            for n in [1, 4, 1000, 4148, 4320, 9999, 20_000] {
                let set_up = |schedule, class| {
                    set_up(
                        EDITION_1,
                        &Numbers {
                            rate,
                            maxudp,
                            ..numbers(schedule, class, n)
                        },
                    )
                };
                assert_eq!(set_up(GAPPED, 0), set_up(GAPPED, 1));
                assert_eq!(set_up(LINEAR, 0), set_up(LINEAR, 2));
                assert_ne!(set_up(GAPPED, 0), set_up(GAPPED, 3));
                assert_ne!(set_up(LINEAR, 0), set_up(LINEAR, 3));
            }
        }
    }
}

/// An unknown schedule is refused by 2 whatever the class, before 3.
#[test]
fn class_0_is_refused_on_no_known_schedule() {
    assert_eq!(set_up(EDITION_1, &numbers(2, 0, 4)), Err(2));
    for version in [1, 2] {
        let file = write(version, &numbers(2, 0, 4), &[]);
        assert_eq!(parse(&file), Err(refused(2, 1)));
    }
}

#[test]
fn a_call_and_a_list_of_class_0_are_strict() {
    for schedule in [GAPPED, LINEAR] {
        let strict = numbers(schedule, 0, 4);
        let wide = numbers(schedule, 3, 4);
        let network = |numbers| measure(EDITION_1, numbers, &at_once(5)).unwrap().network;
        let burst = Network::Burst(bucket::Run { first: 0, last: 4 });
        assert_eq!(network(&strict), burst);
        assert_eq!(network(&wide), Network::Pass);
        let lists: (&[u64], &[u32], &[u8]) = (&[1_000], &[0], &[0]);
        let fifth = |numbers| {
            call(EDITION_1, numbers, &at_once(4), lists, 0)
                .unwrap()
                .after
                .network
        };
        assert_eq!(fifth(&strict), burst);
        assert_eq!(fifth(&wide), Network::Pass);
    }
}

/// Captures carry no numbers, so what is asked of them is set up without a file.
#[test]
fn a_capture_of_class_0_is_strict() {
    let mut capture = Capture::new(NANOSECONDS, false);
    for packet in at_once(5) {
        capture.push(packet.arrival, Frame::of(20_000, &packet).bytes());
    }
    for schedule in [GAPPED, LINEAR] {
        let text = |class| {
            let asked = Asked {
                port: 20_000,
                offset: 0,
                numbers: numbers(schedule, class, 4),
                edition: EDITION_1,
            };
            expected_capture_output(&asked, &capture.bytes())
        };
        assert!(text(0).contains("network burst 0 4"));
        assert!(text(3).contains("network pass"));
    }
}

// --- in a file ---

/// Rate 6, gapped, n 4: as wide C_MAX is 16 and VRX_FULL 1080000 over 1460, which
/// is 739; as narrow they are 4 and 8.
#[test]
fn class_0_is_wide_in_version_1_and_strict_in_version_2() {
    for schedule in [GAPPED, LINEAR] {
        assert_eq!(limits_in(1, schedule, 0, 4), (16, 739));
        assert_eq!(limits_in(2, schedule, 0, 4), (4, 8));
        // The steps of wide: 432 packets a piece, of which 17 are 7344.
        assert_eq!(limits_in(1, schedule, 0, 7343).0, 16);
        assert_eq!(limits_in(1, schedule, 0, 7344).0, 17);
    }
    assert_eq!(limits_in(2, GAPPED, 0, 4147).0, 4);
    assert_eq!(limits_in(2, GAPPED, 0, 4148).0, 5);
    assert_eq!(limits_in(2, LINEAR, 0, 4319).0, 4);
    assert_eq!(limits_in(2, LINEAR, 0, 4320).0, 5);
}

#[test]
fn five_packets_at_one_instant_in_both_versions() {
    for schedule in [GAPPED, LINEAR] {
        let verdict = |version, count| verdict(version, &numbers(schedule, 0, 4), &at_once(count));
        for version in [1, 2] {
            assert_eq!(verdict(version, 4), "network pass buffer none");
        }
        assert_eq!(verdict(1, 5), "network pass buffer none");
        assert_eq!(verdict(2, 5), "network burst 0 4 buffer none");
        assert_eq!(verdict(1, 16), "network pass buffer none");
        assert_eq!(verdict(1, 17), "network burst 0 16 buffer none");
        assert_eq!(verdict(2, 17), "network burst 0 4 buffer none");
    }
}

/// Five packets at one instant where C_MAX of narrow and of narrow linear grows
/// to 5; narrow linear on a gapped schedule would be seen at n 4148.
#[test]
fn strict_bursts_where_c_max_grows() {
    let verdict = |schedule, n| verdict(2, &numbers(schedule, 0, n), &at_once(5));
    for (schedule, last_of_4) in [(GAPPED, 4147), (LINEAR, 4319)] {
        let burst = verdict(schedule, last_of_4);
        assert_eq!(burst, "network burst 0 4 buffer none");
        let pass = verdict(schedule, last_of_4 + 1);
        assert_eq!(pass, "network pass buffer none");
    }
}

/// VRX_FULL is 8 as narrow and as narrow linear, and 739 as wide. Where MAXUDP is
/// 8960 they are 1 and 120, and two packets are no burst for either.
#[test]
fn a_buffer_that_is_over_in_version_2_alone() {
    for schedule in [GAPPED, LINEAR] {
        let eight = numbers(schedule, 0, 8);
        let nine = numbers(schedule, 0, 9);
        assert_eq!(verdict(1, &eight, &pile(8)), "network pass buffer pass");
        assert_eq!(
            verdict(2, &eight, &pile(8)),
            "network burst 1 5 buffer pass"
        );
        assert_eq!(verdict(1, &nine, &pile(9)), "network pass buffer pass");
        assert_eq!(
            verdict(2, &nine, &pile(9)),
            "network burst 1 5 buffer over 0 9"
        );
        let two = Numbers {
            maxudp: 8960,
            ..numbers(schedule, 0, 2)
        };
        assert_eq!(verdict(1, &two, &pile(2)), "network pass buffer pass");
        assert_eq!(verdict(2, &two, &pile(2)), "network pass buffer over 0 2");
    }
}

/// Nine numbers of the C call: packets, frames, peak, network, its run, buffer.
#[test]
fn the_c_call_tells_the_versions_apart() {
    let answer = |version| {
        let file = write(version, &numbers(GAPPED, 0, 4), &at_once(5));
        let filled = expected_c_call(EDITION_1, &file, 72).2.unwrap();
        let last_bytes = filled.chunks(8).map(|eight| eight[7]);
        last_bytes.collect::<Vec<u8>>()
    };
    assert_eq!(answer(1), [5, 0, 5, 0, 0, 0, 0, 0, 0]);
    assert_eq!(answer(2), [5, 0, 5, 1, 0, 4, 0, 0, 0]);
}

// --- generated files ---

/// An accepted file with class 0, its schedule, and its text in a version and with
/// a class.
struct Spoken {
    schedule: u64,
    file: Vec<u8>,
}

impl Spoken {
    fn text(&self, version: u8, class: u8) -> String {
        // Version, length and kind, rate and schedule come before the class.
        let mut file = self.file.clone();
        (file[0], file[6]) = (version, class);
        expected_output(&file)
    }
}

/// Generated files of which parameters are read, with class 0 in place of theirs.
fn class_0_files(seed: u64) -> Vec<Spoken> {
    let files = (0..1500).map(|index| file(seed, index));
    let spoken = files.filter_map(|file| {
        let numbers = read(EDITION_1, &file).numbers?;
        (file.len() < 20_000).then_some(Spoken {
            schedule: numbers.schedule,
            file,
        })
    });
    spoken.collect()
}

/// "version 1 files keep 0 as wide", and in version 2 "0 means narrow on a gapped
/// schedule and narrow linear on a linear one": to the letter. On both schedules
/// there are files that would be answered otherwise by the other meaning.
#[test]
fn class_0_is_answered_as_the_class_that_it_means() {
    let mut told_apart = [0, 0];
    for spoken in class_0_files(8) {
        let strict = if spoken.schedule == GAPPED { 1 } else { 2 };
        let (in_1, in_2) = (spoken.text(1, 0), spoken.text(2, 0));
        assert_eq!(in_1, spoken.text(1, 3));
        assert_eq!(in_2, spoken.text(2, strict));
        told_apart[spoken.schedule as usize] += i32::from(in_1 != in_2);
    }
    assert!(told_apart[0] > 50 && told_apart[1] > 50, "{:?}", told_apart);
}

/// Classes 1 to 3, and those that are refused, are the same in both versions.
#[test]
fn no_other_class_depends_on_the_version() {
    let mut refused = 0;
    for spoken in class_0_files(9) {
        for class in [1, 2, 3, 4, 255] {
            let text = spoken.text(1, class);
            assert_eq!(text, spoken.text(2, class));
            refused += i32::from(text == "refused 3 1\n");
        }
    }
    assert!(refused > 0);
}

// --- the round trip ---

/// "the writer writes the one asked for, and demand 2's round trip holds for
/// each"; class 0 is written as 0 in both.
#[test]
fn what_is_written_is_read_and_what_is_read_is_written() {
    let mut kept = [[0; 2]; 2];
    for index in 0..600 {
        for bytes in under(&[1, 2], &file(10, index)) {
            let (version, numbers, packets) = match parse(&bytes) {
                Ok(records) => records,
                Err(_) => continue,
            };
            assert_eq!(version, bytes[0]);
            let lists = feed::Lists::of(&packets);
            let written = writer(version, &numbers, lists.lent(), bytes.len());
            assert_eq!(written, Ok(bytes));
            if numbers.class == 0 {
                kept[usize::from(version) - 1][numbers.schedule as usize] += 1;
            }
        }
    }
    assert!(kept.iter().flatten().all(|count| *count > 10), "{:?}", kept);
}

// --- 20, first of all ---

#[test]
fn versions_1_and_2_alone_are_read() {
    let file = write(2, &numbers(GAPPED, 0, 4), &pile(4));
    for version in 0..=255 {
        let mut file = file.clone();
        file[0] = version;
        let number = expected_c_call(EDITION_1, &file, 1000).0;
        let lone = parse(&[version]).err();
        if version == 1 || version == 2 {
            assert_eq!((number, lone), (0, Some(refused(23, 1))));
        } else {
            assert_eq!((number, lone), (20, Some(refused(20, 0))));
        }
    }
}

#[test]
fn versions_1_and_2_alone_are_written() {
    for version in 0..=255 {
        let written = writer(version, &numbers(GAPPED, 0, 4), (&[], &[], &[]), 19);
        if version == 1 || version == 2 {
            assert_eq!(written.unwrap()[0], version);
        } else {
            assert_eq!(written, Err(refused(20, 0)));
        }
    }
}

/// Each of these files is refused otherwise in versions 1 and 2.
#[test]
fn the_reader_gives_20_before_all_else() {
    let good = write(1, &numbers(GAPPED, 1, 4), &pile(4));
    let changed = |place: usize, byte| {
        let mut file = good.clone();
        file[place] = byte;
        file
    };
    let wrong = [
        (refused(23, 1), good[..1].to_vec()),
        (refused(21, 1), good[..2].to_vec()),
        (refused(21, 1), changed(2, 0)),
        (refused(22, 1), changed(3, 9)),
        (refused(23, 1), [&good[..1], &good[19..]].concat()),
        (refused(1, 1), changed(4, 9)),
        (refused(2, 1), changed(5, 2)),
        (refused(3, 1), changed(6, 2)),
        (refused(11, 19), changed(34, 2)),
        (refused(12, 51), changed(43, 255)),
        (refused(13, 35), changed(38, 255)),
    ];
    for (refusal, file) in wrong {
        for bytes in under(&[1, 2], &file) {
            assert_eq!(parse(&bytes), Err(refusal));
        }
        for bytes in under(&[0, 3, 255], &file) {
            assert_eq!(parse(&bytes), Err(refused(20, 0)));
            // Too little room comes after all else.
            assert_eq!(expected_c_call(EDITION_1, &bytes, 0), (20, 0, None));
            assert_eq!(expected_output(&bytes), "refused 20 0\n");
        }
    }
}

/// All seven numbers wrong, mended one after the other, and then lists that are
/// wrong, and then too little room: 20 comes before each.
#[test]
fn the_writer_gives_20_before_all_else() {
    for (refusal, numbers, lists) in feed::refused_writes() {
        for version in [1, 2] {
            assert_eq!(writer(version, &numbers, lists.lent(), 50), Err(refusal));
        }
        for version in [0, 3, 255] {
            for room in [0, 50, 51, 1000] {
                let answer = writer(version, &numbers, lists.lent(), room);
                assert_eq!(answer, Err(refused(20, 0)));
            }
        }
    }
}
