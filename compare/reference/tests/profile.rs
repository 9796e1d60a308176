//! Request (vii) of document 02, "Compressed streams": video and compressed on small
//! lists whose answers are worked out by hand, parameter records of every kind in
//! files, 22 of profiles that there are not among the other refusals, and the round
//! trip of every kind. What is interlaced is in `interlaced.rs`.

use vtiming_reference::capture::NANOSECONDS;
use vtiming_reference::cases::edition_streams;
use vtiming_reference::feed::{cut_everywhere, refused_writes, Lists};
use vtiming_reference::generate::{as_profiles, file, under};
use vtiming_reference::generate::{OTHER_EDITIONS, OTHER_PROFILES, OTHER_VERSIONS, WIDE_PROFILES};
use vtiming_reference::pcap::{Capture, Frame};
use vtiming_reference::record::{packet_body, parameters_body, read, record};
use vtiming_reference::stream::mended_numbers;
use vtiming_reference::*;

/// Document 01's example: 6, 0, 1, height 1080, n 4, 1460, default TRO.
const FOUR: Numbers = Numbers::narrow(4);

/// The same where the buffer holds one packet, as 12000 over 8960 is 1.
const SMALL: Numbers = Numbers {
    maxudp: 8960,
    ..FOUR
};

/// And where every profile is accepted.
const GIVEN: Numbers = Numbers {
    tro: Some(700),
    ..FOUR
};

/// Those of which "Stream numbers are as in the base".
const OF_FRAMES: [u64; 2] = [VIDEO, COMPRESSED];

fn example() -> Vec<Packet> {
    [
        (19_000_000, 0, 1),
        (20_700_000, 1800, 0),
        (25_500_000, 1800, 0),
        (30_300_000, 1800, 0),
        (35_100_000, 1800, 1),
    ]
    .map(|(arrival, timestamp, marker)| Packet::new(arrival, timestamp, marker))
    .to_vec()
}

/// A lead-in of one packet, and one frame with its packets so many nanoseconds after
/// its frame time, each with its timestamp's difference from the first one's.
fn one_frame(packets: &[(u64, u32)]) -> Vec<Packet> {
    let mut list = vec![Packet::new(5_000_000, 0, 1)];
    for (place, (after, differs)) in packets.iter().enumerate() {
        let marker = u8::from(place == packets.len() - 1);
        list.push(Packet::new(20_000_000 + after, 1800 + differs, marker));
    }
    list
}

/// Read 0 is 764,444 ns after the frame time, the others 4.8 ms apart. The first
/// packet comes after read 0: least is -1.
fn dry() -> Vec<Packet> {
    one_frame(&[
        (800_000, 0),
        (5_500_000, 0),
        (10_200_000, 0),
        (14_900_000, 0),
    ])
}

/// All four before read 0: peak 4.
fn overfull() -> Vec<Packet> {
    one_frame(&[(700_000, 0); 4])
}

fn short() -> Vec<Packet> {
    one_frame(&[(700_000, 0), (5_500_000, 0), (10_300_000, 0)])
}

fn long() -> Vec<Packet> {
    one_frame(&[(700_000, 0); 5])
}

fn stamp() -> Vec<Packet> {
    one_frame(&[
        (700_000, 0),
        (5_500_000, 0),
        (10_300_000, 9),
        (15_100_000, 0),
    ])
}

fn refused(number: u8, place: u64) -> Refusal {
    Refusal::new(number, place)
}

fn parameters(numbers: &Numbers) -> Vec<u8> {
    record(&parameters_body(numbers))
}

fn packet(packet: &Packet) -> Vec<u8> {
    record(&packet_body(packet))
}

/// A file of these records.
fn of_records(version: u8, records: &[&[u8]]) -> Vec<u8> {
    [vec![version], records.concat()].concat()
}

// --- the example ---

/// The frame's peak and the buffer answer alone differ from document 01's own text.
#[test]
fn the_example_as_compressed() {
    for version in [1, 2] {
        let video = write(version, &FOUR, &example());
        assert_eq!(
            expected_output(&video),
            "frame 0 0 0 18900000 0 18900000 1740000 45900000 1 0 1\n\
             packets 5 frames 1 peak 2 network pass buffer pass\n"
        );
        let compressed = write(version, &FOUR.of(COMPRESSED), &example());
        assert_eq!(
            expected_output(&compressed),
            "frame 0 0 0 18900000 0 18900000 1740000 45900000 0 0 1\n\
             packets 5 frames 1 peak 2 network pass buffer none\n"
        );
    }
}

/// The first bytes of the file: version, length 16, kind 3, and then as kind 1 has it.
#[test]
fn a_parameter_record_of_kind_3_is_laid_out_as_kind_1() {
    let file = write(1, &FOUR.of(COMPRESSED), &[]);
    let wanted = [
        1, 0, 16, 3, 6, 0, 1, 4, 56, 0, 0, 0, 4, 5, 180, 255, 255, 255, 255,
    ];
    assert_eq!(file, wanted);
    let (version, numbers, packets) = parse(&file).unwrap();
    assert_eq!((version, packets.len()), (1, 0));
    assert_eq!(numbers, FOUR.of(COMPRESSED));
    assert_eq!(numbers.profile, 3);
    assert_eq!(as_profiles(&[VIDEO], &file), [write(1, &FOUR, &[])]);
}

/// Nine numbers of the C call and the row, by both editions.
#[test]
fn the_c_call_of_the_example() {
    let file = write(2, &FOUR.of(COMPRESSED), &example());
    for edition in EDITIONS {
        let filled = expected_c_call(edition, &file, 72 + 88).2.unwrap();
        let eights = filled.chunks(8);
        let numbers: Vec<i64> = eights
            .map(|eight| i64::from_be_bytes(eight.try_into().unwrap()))
            .collect();
        assert_eq!(numbers[..9], [5, 1, 2, 0, 0, 0, 0, 0, 0]);
        let row = [
            0, 0, 0, 18_900_000, 0, 18_900_000, 1_740_000, 45_900_000, 0, 0, 1,
        ];
        assert_eq!(numbers[9..], row);
        // The room is that of video.
        let too_few = (15, file.len() as u64, None);
        assert_eq!(expected_c_call(edition, &file, 72 + 87), too_few);
    }
}

// --- no buffer answer ---

/// Peak and least of a list's one row, and its buffer answer.
fn told(edition: u32, profile: u64, packets: &[Packet]) -> (i64, i64, Buffer) {
    let measured = measure(edition, &SMALL.of(profile), packets).unwrap();
    let row = measured.rows[0];
    (row[8], row[9], measured.buffer)
}

/// A frame that runs dry, one that is overfull, and one broken in each way: as video
/// they fail, the broken ones by edition 2; as compressed the answer is none.
#[test]
fn a_frame_that_fails_as_video_is_none_as_compressed() {
    let under = Buffer::Under {
        frame: 0,
        packet: 0,
    };
    let over = Buffer::Over { frame: 0, peak: 4 };
    for edition in EDITIONS {
        assert_eq!(told(edition, VIDEO, &dry()), (1, -1, under));
        assert_eq!(told(edition, VIDEO, &overfull()), (4, 0, over));
    }
    for (kind, list) in [(1, short()), (2, long()), (3, stamp())] {
        let broken = Buffer::Broken { frame: 0, kind };
        assert_eq!(told(EDITION_1, VIDEO, &list), (0, 0, Buffer::None));
        assert_eq!(told(EDITION_2, VIDEO, &list), (0, 0, broken));
    }
    for edition in EDITIONS {
        for list in [dry(), overfull(), short(), long(), stamp(), example()] {
            assert_eq!(told(edition, COMPRESSED, &list), (0, 0, Buffer::None));
        }
    }
}

/// Where nothing has closed yet, and where much has, of all sorts: always none. All
/// but peak, least and the buffer answer are those of video.
#[test]
fn all_else_is_as_of_video() {
    let mut told_apart = 0;
    for (numbers, packets) in edition_streams() {
        for edition in EDITIONS {
            let video = measure(edition, &numbers, &packets).unwrap();
            let compressed = measure(edition, &numbers.of(COMPRESSED), &packets).unwrap();
            told_apart += i32::from(video.buffer != Buffer::None);
            let mut blanked = Measurement {
                buffer: Buffer::None,
                ..video
            };
            for row in &mut blanked.rows {
                row[8..10].fill(0);
            }
            assert_eq!(compressed, blanked);
        }
    }
    assert!(told_apart > 100, "{}", told_apart);
}

/// The bucket runs: five packets at one instant are a burst where C_MAX is 4.
#[test]
fn the_network_is_judged_as_of_video() {
    let list = [Packet::new(7, 0, 0); 5];
    for profile in OF_FRAMES {
        for edition in EDITIONS {
            let network = |count| {
                let measured = measure(edition, &FOUR.of(profile), &list[..count]);
                measured.unwrap().network
            };
            assert_eq!(network(4), Network::Pass);
            let run = bucket::Run { first: 0, last: 4 };
            assert_eq!(network(5), Network::Burst(run));
        }
    }
}

/// "Stream numbers are as in the base": the profile changes no limit, TRO's default
/// and its refusal, MAXUDP's and the height's too.
#[test]
fn no_limit_depends_on_the_profile() {
    let wide = Numbers { class: 3, ..FOUR };
    let low = Numbers {
        height: 720,
        ..FOUR
    };
    let given = Numbers {
        tro: Some(19_999),
        ..FOUR
    };
    for numbers in [FOUR, SMALL, wide, low, given, Numbers::narrow(20_000)] {
        let [video, compressed] =
            OF_FRAMES.map(|profile| set_up(EDITION_1, &numbers.of(profile)).unwrap());
        assert_eq!(video.profile, Profile::Video);
        assert_eq!(compressed.profile, Profile::Compressed);
        let as_video = Limits {
            profile: Profile::Video,
            ..compressed
        };
        assert_eq!(as_video, video);
    }
    for profile in PROFILES {
        let numbers = mended_numbers().into_iter();
        let refusals: Vec<u8> = numbers
            .map(|numbers| set_up(EDITION_1, &numbers.of(profile)).err().unwrap_or(0))
            .collect();
        assert_eq!(refusals, [1, 2, 3, 4, 5, 6, 7, 0]);
    }
}

/// Class 0 is read by the version in either kind: five packets at one instant pass in
/// version 1, where it is wide, and are a burst in version 2.
#[test]
fn class_0_is_read_by_the_version() {
    let numbers = Numbers { class: 0, ..FOUR };
    let list = vec![Packet::new(7, 0, 0); 5];
    for profile in OF_FRAMES {
        let text = |version| expected_output(&write(version, &numbers.of(profile), &list));
        assert!(text(1).ends_with("network pass buffer none\n"));
        assert!(text(2).ends_with("network burst 0 4 buffer none\n"));
    }
}

/// "8 is still given": a compressed stream has an edition too.
#[test]
fn a_wrong_edition_is_refused_of_either_profile() {
    for edition in OTHER_EDITIONS {
        for profile in OF_FRAMES {
            let numbers = FOUR.of(profile);
            assert_eq!(set_up(edition, &numbers), Err(8));
            let file = write(1, &numbers, &example());
            assert_eq!(expected_c_call(edition, &file, 1000), (8, 1, None));
            let answer = expected_capture_call(&asked(edition, profile), &captured(), 1000);
            assert_eq!(answer, (8, 0, None));
        }
    }
}

// --- 22 and 23 of a file ---

/// "22 and 23 read with that kind too": parameters again, of any kind after any,
/// right after them and after packets, though set-up would refuse them too.
#[test]
fn parameters_come_once_whatever_their_kinds() {
    let lead_in = packet(&Packet::new(5, 0, 1));
    for first in PROFILES {
        let front = parameters(&GIVEN.of(first));
        for again in PROFILES {
            for rate in [6, 0] {
                let again = parameters(&Numbers {
                    rate,
                    ..GIVEN.of(again)
                });
                for version in [1, 2] {
                    let at_once = of_records(version, &[&front, &again]);
                    assert_eq!(parse(&at_once), Err(refused(23, 19)));
                    let later = of_records(version, &[&front, &lead_in, &lead_in, &again]);
                    assert_eq!(parse(&later), Err(refused(23, 51)));
                }
            }
        }
    }
}

#[test]
fn a_packet_first_is_23_before_any_kind() {
    let lead_in = packet(&Packet::new(5, 0, 1));
    for profile in PROFILES {
        let behind = of_records(1, &[&lead_in, &parameters(&GIVEN.of(profile))]);
        assert_eq!(parse(&behind), Err(refused(23, 1)));
    }
}

/// Kinds 3 and 4 have 16 bytes; of any other length they are 22, first of all, after
/// parameters of any kind and after a packet. 22 comes before 23.
#[test]
fn kinds_3_and_4_of_another_length_are_22() {
    let lead_in = packet(&Packet::new(5, 0, 1));
    let lengths = (1..40).filter(|length| *length != 16);
    for (length, kind) in lengths.flat_map(|length| [(length, 3), (length, 4)]) {
        let mut body = vec![0; length];
        body[0] = kind;
        let wrong = record(&body);
        assert_eq!(parse(&of_records(1, &[&wrong])), Err(refused(22, 1)));
        for first in PROFILES {
            let front = parameters(&GIVEN.of(first));
            let second = of_records(2, &[&front, &wrong]);
            assert_eq!(parse(&second), Err(refused(22, 19)));
            let third = of_records(2, &[&front, &lead_in, &wrong]);
            assert_eq!(parse(&third), Err(refused(22, 35)));
        }
    }
}

/// Every kind on a body of 16 bytes that is good parameters else: 1, 3 and 4 are known.
/// 21 comes before 22, and 22 before what set-up refuses.
#[test]
fn every_other_kind_of_parameters_is_22() {
    for kind in 0..=255 {
        for version in [1, 2] {
            let file = of_records(version, &[&parameters(&GIVEN.of(kind))]);
            let refusal = parse(&file).err();
            let known = [1, 3, 4].contains(&kind);
            assert_eq!(refusal, (!known).then(|| refused(22, 1)));
            assert_eq!(parse(&file[..18]), Err(refused(21, 1)));
            let wrong = Numbers { rate: 0, ..GIVEN };
            let file = of_records(version, &[&parameters(&wrong.of(kind))]);
            let number = if known { 1 } else { 22 };
            assert_eq!(parse(&file), Err(refused(number, 1)));
        }
    }
}

/// 1 to 7 and 11 to 13 have the places that they have with kind 1.
#[test]
fn the_refusals_of_a_file_are_those_of_its_video_twin() {
    let mut seen = std::collections::BTreeMap::new();
    for index in 0..1500 {
        let own = file(21, index);
        let [video, compressed] = match &as_profiles(&OF_FRAMES, &own)[..] {
            [video, compressed] => [read(EDITION_1, video), read(EDITION_1, compressed)],
            _ => continue,
        };
        assert_eq!(video.refusal, compressed.refusal);
        assert_eq!(video.packets, compressed.packets);
        let compressed = compressed.numbers.map(|numbers| numbers.of(VIDEO));
        assert_eq!(video.numbers, compressed);
        *seen
            .entry(video.refusal.map_or(0, |refusal| refusal.number))
            .or_insert(0) += 1;
    }
    let numbers: Vec<u8> = seen.into_keys().collect();
    let wanted = [0, 1, 2, 3, 4, 5, 6, 7, 11, 12, 13, 20, 21, 22, 23];
    assert_eq!(numbers, wanted);
}

// --- 22 where a profile is an argument ---

/// Before 1 to 7 and 8, of every number of a byte but 1, 3 and 4, and of such as have
/// no room in one.
#[test]
fn set_up_refuses_a_profile_by_22_first_of_all() {
    for profile in OTHER_PROFILES.into_iter().chain(WIDE_PROFILES) {
        for numbers in mended_numbers() {
            for edition in [1, 2, 0, 3] {
                assert_eq!(set_up(edition, &numbers.of(profile)), Err(22));
            }
        }
    }
    for profile in 0..=1000 {
        let accepted = set_up(EDITION_1, &GIVEN.of(profile)).is_ok();
        assert_eq!(accepted, [1, 3, 4].contains(&profile));
    }
}

#[test]
fn a_list_and_a_call_are_refused_by_22_before_all_of_the_list() {
    let wrong = [Packet::new(5, 0, 0), Packet::new(4, 0, 2)];
    for profile in OTHER_PROFILES {
        let numbers = FOUR.of(profile);
        assert_eq!(measure(3, &numbers, &wrong), Err(refused(22, 0)));
        let uneven: (&[u64], &[u32], &[u8]) = (&[5], &[], &[2, 2]);
        assert_eq!(call(3, &numbers, &[], uneven, 0), Err(refused(22, 0)));
    }
}

/// The writer: 20, then 22, then 1 to 7, 10 to 13 and 24.
#[test]
fn the_writer_gives_22_after_20_and_before_1() {
    for (refusal, numbers, lists) in refused_writes() {
        let answer = |version, profile, room| {
            let numbers = numbers.of(profile);
            writer(version, &numbers, lists.lent(), room).unwrap_err()
        };
        for version in [1, 2] {
            for profile in PROFILES {
                assert_eq!(answer(version, profile, 50), refusal);
            }
            for (profile, room) in OTHER_PROFILES.into_iter().zip([0, 50, 51, 1000]) {
                assert_eq!(answer(version, profile, room), refused(22, 0));
            }
        }
        for version in OTHER_VERSIONS {
            for profile in PROFILES.into_iter().chain(OTHER_PROFILES) {
                assert_eq!(answer(version, profile, 51), refused(20, 0));
            }
        }
    }
}

// --- captures ---

fn captured() -> Vec<u8> {
    let mut capture = Capture::new(NANOSECONDS, false);
    for packet in example() {
        capture.push(packet.arrival, Frame::of(20_000, &packet).bytes());
    }
    capture.bytes()
}

fn asked(edition: u32, profile: u64) -> Asked {
    Asked {
        port: 20_000,
        offset: 0,
        numbers: FOUR.of(profile),
        edition,
    }
}

/// `vcapture` has the profile as its tenth word, in front of the edition.
#[test]
fn a_capture_as_compressed() {
    let words = asked(EDITION_2, COMPRESSED).words().join(" ");
    assert_eq!(words, "20000 0 6 0 1 1080 4 1460 4294967295 3 2");
    for edition in EDITIONS {
        let text = |profile| expected_capture_output(&asked(edition, profile), &captured());
        assert_eq!(
            text(VIDEO),
            "frame 0 0 0 18900000 0 18900000 1740000 45900000 1 0 1\n\
             packets 5 frames 1 peak 2 network pass buffer pass records 5 skipped 0\n"
        );
        assert_eq!(
            text(COMPRESSED),
            "frame 0 0 0 18900000 0 18900000 1740000 45900000 0 0 1\n\
             packets 5 frames 1 peak 2 network pass buffer none records 5 skipped 0\n"
        );
    }
}

/// Captures that are refused as video and as compressed, where 87 bytes are lent: by which
/// number and where, by which edition and with which offset.
fn refused_captures() -> Vec<(Refusal, u32, u32, Vec<u8>)> {
    let good = captured();
    let second = 24 + 16 + 54;
    let changed = |place: usize, bytes: [u8; 4]| {
        let mut capture = good.clone();
        capture[place..place + 4].copy_from_slice(&bytes);
        capture
    };
    vec![
        (refused(15, 0), 1, 0, good.clone()),
        (refused(8, 0), 3, 100, good.clone()),
        (refused(33, 0), 1, 100, vec![]),
        (refused(30, 0), 2, 0, good[..23].to_vec()),
        (refused(31, 1), 1, 0, good[..second + 1].to_vec()),
        (refused(32, 1), 2, 0, changed(second + 4, [255; 4])),
        (refused(12, 1), 1, 0, changed(second + 4, [0; 4])),
        (refused(13, 1), 2, 0, changed(second, [89, 2, 0, 0])),
    ]
}

/// 22 comes before 1 to 7, 8, 33, 30, 31, 32, 12, 13 and 15, and its place is 0.
#[test]
fn a_capture_is_refused_by_22_first_of_all() {
    for (refusal, edition, offset, bytes) in refused_captures() {
        let answer = |numbers: Numbers, room| {
            let asked = Asked {
                offset,
                numbers,
                ..asked(edition, VIDEO)
            };
            let (number, place, filled) = expected_capture_call(&asked, &bytes, room);
            assert_eq!(filled, None);
            let text = expected_capture_output(&asked, &bytes);
            assert_eq!(number == 22, text == "refused 22 0\n");
            refused(number, place)
        };
        let late = Numbers {
            tro: Some(20_000),
            ..FOUR
        };
        for profile in OF_FRAMES {
            assert_eq!(answer(FOUR.of(profile), 87), refusal);
            assert_eq!(answer(late.of(profile), 87), refused(7, 0));
        }
        for profile in OTHER_PROFILES.into_iter().chain(WIDE_PROFILES) {
            for numbers in mended_numbers().into_iter().chain([FOUR, late]) {
                assert_eq!(answer(numbers.of(profile), 0), refused(22, 0));
                assert_eq!(answer(numbers.of(profile), 1000), refused(22, 0));
            }
        }
    }
}

// --- call after call ---

/// However a list is cut, no call of a compressed stream has a buffer answer.
#[test]
fn a_list_is_fed_as_compressed() {
    for list in [dry(), overfull(), short(), long(), stamp()] {
        for edition in EDITIONS {
            let answers = |profile| {
                let calls = cut_everywhere(edition, &SMALL.of(profile), &list, 3);
                let accepted = calls.into_iter().filter(|feed| feed.number == 0);
                accepted.map(|feed| feed.nine).collect::<Vec<[i64; 9]>>()
            };
            let (video, compressed) = (answers(VIDEO), answers(COMPRESSED));
            assert_eq!(video.len(), compressed.len());
            for (one, other) in video.iter().zip(&compressed) {
                assert_eq!(one[..6], other[..6]);
                assert_eq!(other[6..], [0, 0, 0]);
            }
        }
        let rest = Lists::of(&list[3..]);
        let numbers = SMALL.of(COMPRESSED);
        let answer = call(EDITION_2, &numbers, &list[..3], rest.lent(), 11).unwrap();
        assert_eq!(answer.after.buffer, Buffer::None);
        assert_eq!(answer.rows[0][8..10], [0, 0]);
    }
}

// --- the round trip ---

/// Every kind in both versions: what is written is read, and what is read is written.
#[test]
fn what_is_written_is_read_and_what_is_read_is_written() {
    let mut kept = std::collections::BTreeMap::new();
    for index in 0..300 {
        let twins = as_profiles(&PROFILES, &file(22, index));
        for bytes in twins.iter().flat_map(|twin| under(&[1, 2], twin)) {
            let (version, numbers, packets) = match parse(&bytes) {
                Ok(records) => records,
                Err(_) => continue,
            };
            assert_eq!([version, numbers.profile as u8], [bytes[0], bytes[3]]);
            let lists = Lists::of(&packets);
            let written = writer(version, &numbers, lists.lent(), bytes.len());
            assert_eq!(written, Ok(bytes));
            *kept.entry((version, numbers.profile)).or_insert(0) += 1;
        }
    }
    assert_eq!(kept.len(), 2 * PROFILES.len());
    assert!(kept.values().all(|count| *count > 50), "{:?}", kept);
    for (numbers, packets) in edition_streams() {
        for (version, profile) in PROFILES.into_iter().flat_map(|p| [(1, p), (2, p)]) {
            let numbers = numbers.of(profile);
            let written = writer(version, &numbers, Lists::of(&packets).lent(), 1000);
            // Of those of frames TRO is default.
            let refusal = set_up(EDITION_1, &numbers).err();
            assert_eq!(refusal.is_some(), written.is_err());
            let records = (version, numbers, packets.clone());
            assert!(written.map_or(true, |file| parse(&file) == Ok(records)));
        }
    }
}
