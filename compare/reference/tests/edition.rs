//! Request (vi) of document 02, "Test plan, edition 2": both editions on small
//! lists whose answers are worked out by hand, what none, pass and broken mean by
//! each, the lead-in and open frames, and 8 among the other refusals.

use vtiming_reference::capture::NANOSECONDS;
use vtiming_reference::cases::edition_streams;
use vtiming_reference::feed::{cut_everywhere, Lists};
use vtiming_reference::generate::{as_profiles, file, under, OTHER_EDITIONS};
use vtiming_reference::pcap::{Capture, Frame};
use vtiming_reference::record::read;
use vtiming_reference::stream::mended_numbers;
use vtiming_reference::*;

/// Rate 6, gapped, narrow, height 1080, n 4 and MAXUDP 8960: frame times are 20 ms
/// apart, TRO is 43 of 1125 parts of that, 764,444 ns, reads are 4.8 ms apart, and
/// VRX_FULL is 1, as 12000 over 8960 is.
const FOUR: Numbers = Numbers {
    maxudp: 8960,
    ..Numbers::narrow(4)
};

const NONE: Buffer = Buffer::None;
const PASS: Buffer = Buffer::Pass;

fn broken(frame: u64, kind: u64) -> Buffer {
    Buffer::Broken { frame, kind }
}

fn under_at(frame: u64, packet: u64) -> Buffer {
    Buffer::Under { frame, packet }
}

fn over_at(frame: u64, peak: i128) -> Buffer {
    Buffer::Over { frame, peak }
}

fn refused(number: u8, place: u64) -> Refusal {
    Refusal::new(number, place)
}

/// A lead-in of one packet, and a frame a letter: `g` is good, its packets just
/// before their reads; `l` has its first packet 800,000 ns after the frame time,
/// too late; `p` has all four packets 700,000 ns after it, three too many; `s` is
/// short by one packet, `n` long by one, and of `t` the third timestamp differs.
/// `o` is good and has no marker.
fn sent(frames: &str) -> Vec<Packet> {
    let mut list = vec![Packet::new(5_000_000, 0, 1)];
    for (frame, letter) in (1..).zip(frames.chars()) {
        let count = match letter {
            's' => 3,
            'n' => 5,
            _ => 4,
        };
        for j in 0..count {
            let after = match letter {
                'l' => 800_000 + 4_700_000 * j,
                'p' => 700_000,
                _ => 700_000 + 4_800_000 * j,
            };
            let differs = u32::from(letter == 't' && j == 2);
            let marker = u8::from(j == count - 1 && letter != 'o');
            let arrival = 20_000_000 * frame + after;
            list.push(Packet::new(arrival, 1800 * frame as u32 + differs, marker));
        }
    }
    list
}

/// The buffer answer of a list by edition 1 and by edition 2. All else must be the
/// same by both.
fn both(packets: &[Packet]) -> (Buffer, Buffer) {
    let [one, two] = EDITIONS.map(|edition| measure(edition, &FOUR, packets).unwrap());
    assert_eq!(
        Measurement {
            buffer: NONE,
            ..one.clone()
        },
        Measurement {
            buffer: NONE,
            ..two.clone()
        }
    );
    (one.buffer, two.buffer)
}

fn answers(frames: &str) -> (Buffer, Buffer) {
    both(&sent(frames))
}

// --- what each frame is by itself ---

/// Kind, detail, peak and least of the rows, so that the letters are what they are
/// said to be.
#[test]
fn the_frames_are_what_they_are_said_to_be() {
    let rows = measure(EDITION_2, &FOUR, &sent("glpsnt")).unwrap().rows;
    let told: Vec<[i64; 4]> = rows.iter().map(|r| [r[1], r[2], r[8], r[9]]).collect();
    assert_eq!(
        told,
        [
            [0, 0, 1, 0],
            [0, 0, 1, -1],
            [0, 0, 4, 0],
            [1, 3, 0, 0],
            [2, 5, 0, 0],
            [3, 2, 0, 0],
        ]
    );
}

#[test]
fn a_frame_alone() {
    assert_eq!(answers("g"), (PASS, PASS));
    assert_eq!(answers("l"), (under_at(0, 0), under_at(0, 0)));
    assert_eq!(answers("p"), (over_at(0, 4), over_at(0, 4)));
    assert_eq!(answers("s"), (NONE, broken(0, 1)));
    assert_eq!(answers("n"), (NONE, broken(0, 2)));
    assert_eq!(answers("t"), (NONE, broken(0, 3)));
}

// --- none and pass ---

/// "none means no frame closed": the lead-in is no frame, and an open frame is not
/// closed, however many packets it has.
#[test]
fn none_where_no_frame_has_closed() {
    assert_eq!(both(&[]), (NONE, NONE));
    assert_eq!(both(&[Packet::new(7, 0, 0)]), (NONE, NONE));
    assert_eq!(both(&sent("")), (NONE, NONE));
    assert_eq!(both(&sent("o")), (NONE, NONE));
    assert_eq!(both(&sent("oo")), (NONE, NONE));
    for open in 1..4 {
        assert_eq!(both(&sent("g")[..1 + open]), (NONE, NONE));
    }
}

/// A lead-in of any length, with any timestamps: it is judged by neither edition.
#[test]
fn the_lead_in_is_not_judged() {
    for count in 1..9_u64 {
        let lead_in = (1..=count).map(|i| Packet::new(i, i as u32, u8::from(i == count)));
        let lead_in: Vec<Packet> = lead_in.collect();
        assert_eq!(both(&lead_in), (NONE, NONE));
        let good = sent("g")[1..].to_vec();
        assert_eq!(both(&[lead_in, good].concat()), (PASS, PASS));
    }
}

/// Nor is a frame that is still open: it may be long already, or have two
/// timestamps.
#[test]
fn an_open_frame_is_not_judged() {
    for (open, cut) in [("s", 1), ("n", 1), ("t", 1), ("l", 1), ("p", 1), ("o", 0)] {
        let mut list = sent(&format!("g{}", open));
        list.truncate(list.len() - cut);
        assert_eq!(both(&list), (PASS, PASS));
    }
    assert_eq!(answers("goo"), (PASS, PASS));
    // Its marker makes it long.
    assert_eq!(answers("gog"), (PASS, broken(1, 2)));
}

#[test]
fn pass_where_every_closed_frame_is_whole_and_fits() {
    assert_eq!(answers("gggg"), (PASS, PASS));
    assert_eq!(answers("ggggs"), (PASS, broken(4, 1)));
    assert_eq!(answers("sgggg"), (PASS, broken(0, 1)));
}

// --- the first failing frame decides ---

#[test]
fn only_broken_frames() {
    assert_eq!(answers("snt"), (NONE, broken(0, 1)));
    assert_eq!(answers("nts"), (NONE, broken(0, 2)));
    assert_eq!(answers("tsn"), (NONE, broken(0, 3)));
}

#[test]
fn a_broken_frame_before_a_failing_one() {
    assert_eq!(answers("sl"), (under_at(1, 0), broken(0, 1)));
    assert_eq!(answers("np"), (over_at(1, 4), broken(0, 2)));
    assert_eq!(answers("tl"), (under_at(1, 0), broken(0, 3)));
    assert_eq!(answers("gsgp"), (over_at(3, 4), broken(1, 1)));
    assert_eq!(answers("ggtnl"), (under_at(4, 0), broken(2, 3)));
}

#[test]
fn a_broken_frame_after_a_failing_one() {
    for failing in ["ls", "ln", "lt", "lsl", "lsp"] {
        assert_eq!(answers(failing), (under_at(0, 0), under_at(0, 0)));
    }
    for failing in ["ps", "pn", "pt", "psp", "pnl"] {
        assert_eq!(answers(failing), (over_at(0, 4), over_at(0, 4)));
    }
    assert_eq!(answers("gls"), (under_at(1, 0), under_at(1, 0)));
    assert_eq!(answers("gpt"), (over_at(1, 4), over_at(1, 4)));
    assert_eq!(answers("lp"), (under_at(0, 0), under_at(0, 0)));
    assert_eq!(answers("pl"), (over_at(0, 4), over_at(0, 4)));
}

/// Of any three frames: the first that is not good decides by edition 2, the first
/// that is late or piled by edition 1.
#[test]
fn the_first_failing_frame_of_any_three_decides() {
    let letters = ['g', 'l', 'p', 's', 'n', 't'];
    let failure = |frame: usize, letter: char| match letter {
        'l' => under_at(frame as u64, 0),
        'p' => over_at(frame as u64, 4),
        's' => broken(frame as u64, 1),
        'n' => broken(frame as u64, 2),
        _ => broken(frame as u64, 3),
    };
    for index in 0..6 * 6 * 6 {
        let frames = [index / 36, index / 6 % 6, index % 6].map(|place| letters[place]);
        let first = |among: &str| {
            let at = frames.iter().position(|letter| among.contains(*letter))?;
            Some(failure(at, frames[at]))
        };
        let whole = frames.iter().any(|letter| "glp".contains(*letter));
        let by_1 = first("lp").unwrap_or(if whole { PASS } else { NONE });
        let by_2 = first("lpsnt").unwrap_or(PASS);
        assert_eq!(answers(&frames.iter().collect::<String>()), (by_1, by_2));
    }
}

/// "in one frame under goes first": a frame that is late and then has too many
/// packets at once is under by both editions. Kinds have their order too: a short
/// frame with two timestamps is short, a long one long.
#[test]
fn one_way_to_fail_of_a_frame() {
    let frame = |packets: &[(u64, u32)]| {
        let mut list = sent("");
        for (place, (after, differs)) in packets.iter().enumerate() {
            let marker = u8::from(place == packets.len() - 1);
            list.push(Packet::new(20_000_000 + after, 1800 + differs, marker));
        }
        both(&list)
    };
    // Read 0 is over, and the other three come before read 1: level 3.
    let late_and_piled = [(800_000, 0), (900_000, 0), (900_000, 0), (900_000, 0)];
    let under = under_at(0, 0);
    assert_eq!(frame(&late_and_piled), (under, under));
    let broken_and_late = [(800_000, 0), (900_000, 0), (900_000, 0), (900_000, 1)];
    assert_eq!(frame(&broken_and_late), (NONE, broken(0, 3)));
    let short_stamp = [(0, 0), (1, 1), (2, 0)];
    assert_eq!(frame(&short_stamp), (NONE, broken(0, 1)));
    let long_stamp = [(0, 0), (1, 1), (2, 0), (3, 0), (4, 0)];
    assert_eq!(frame(&long_stamp), (NONE, broken(0, 2)));
}

// --- what is printed and filled ---

/// "the C call [...] reports a broken frame as 4 with frame and kind", and
/// `vtiming` means edition 1.
#[test]
fn the_c_call_and_the_program() {
    for version in [1, 2] {
        let bytes = write(version, &FOUR, &sent("gt"));
        let nine = |edition| {
            let filled = expected_c_call(edition, &bytes, 1000).2.unwrap();
            let low_bytes = filled.chunks(8).take(9).map(|eight| eight[7]);
            low_bytes.collect::<Vec<u8>>()
        };
        assert_eq!(nine(EDITION_1), [9, 2, 1, 0, 0, 0, 1, 0, 0]);
        assert_eq!(nine(EDITION_2), [9, 2, 1, 0, 0, 0, 4, 1, 3]);
        // The room is the same.
        for edition in EDITIONS {
            let needed = 72 + 2 * 88;
            assert_eq!(expected_c_call(edition, &bytes, needed).0, 0);
            let too_few = (15, bytes.len() as u64, None);
            assert_eq!(expected_c_call(edition, &bytes, needed - 1), too_few);
        }
        let text = expected_output(&bytes);
        let last = "packets 9 frames 2 peak 1 network pass buffer pass";
        assert_eq!(text.lines().last().unwrap(), last);
    }
}

fn captured(packets: &[Packet]) -> Vec<u8> {
    let mut capture = Capture::new(NANOSECONDS, false);
    for packet in packets {
        capture.push(packet.arrival, Frame::of(20_000, packet).bytes());
    }
    capture.bytes()
}

fn asked(edition: u32) -> Asked {
    Asked {
        port: 20_000,
        offset: 0,
        numbers: FOUR,
        edition,
    }
}

/// `vcapture` has the edition as its last word, and prints `buffer broken` with
/// frame and kind.
#[test]
fn a_capture_by_both_editions() {
    let bytes = captured(&sent("gsl"));
    let last = |edition| {
        let text = expected_capture_output(&asked(edition), &bytes);
        assert_eq!(text.lines().count(), 4);
        let line = text.lines().last().unwrap().to_string();
        line[line.find("buffer").unwrap()..].to_string()
    };
    assert_eq!(last(EDITION_1), "buffer under 2 0 records 12 skipped 0");
    assert_eq!(last(EDITION_2), "buffer broken 1 1 records 12 skipped 0");
    let words = asked(EDITION_2).words().join(" ");
    assert_eq!(words, "20000 0 6 0 1 1080 4 8960 4294967295 1 2");
    for edition in OTHER_EDITIONS {
        let text = expected_capture_output(&asked(edition), &bytes);
        assert_eq!(text, "refused 8 0\n");
    }
}

// --- 8 ---

/// "8 for an edition other than 1 or 2, after 7": all seven numbers wrong, and
/// then mended one after the other.
#[test]
fn set_up_refuses_by_8_after_7() {
    for edition in OTHER_EDITIONS {
        let numbers = mended_numbers().into_iter();
        let refusals: Vec<u8> = numbers.map(|n| set_up(edition, &n).unwrap_err()).collect();
        assert_eq!(refusals, [1, 2, 3, 4, 5, 6, 7, 8]);
    }
    let good = mended_numbers()[7];
    for edition in 0..1000 {
        let accepted = set_up(edition, &good).is_ok();
        assert_eq!(accepted, edition == 1 || edition == 2);
    }
    for edition in [
        257,
        258,
        65_537,
        65_538,
        1 << 31,
        (1 << 31) + 1,
        u32::MAX - 1,
    ] {
        assert_eq!(set_up(edition, &good), Err(8));
    }
}

/// Edition apart, both derive the same.
#[test]
fn no_limit_depends_on_the_edition() {
    for n in [1, 4, 4148, 20_000] {
        let [one, two] = EDITIONS.map(|edition| set_up(edition, &Numbers::narrow(n)).unwrap());
        assert_eq!((one.edition, two.edition), (Edition::One, Edition::Two));
        assert_eq!(
            one,
            Limits {
                edition: one.edition,
                ..two
            }
        );
    }
}

#[test]
fn a_list_and_a_call_are_refused_by_8_before_all_of_the_list() {
    let wrong = [Packet::new(5, 0, 0), Packet::new(4, 0, 2)];
    for edition in OTHER_EDITIONS {
        assert_eq!(measure(edition, &FOUR, &wrong), Err(refused(8, 0)));
        let uneven: (&[u64], &[u32], &[u8]) = (&[5], &[], &[2, 2]);
        let answer = call(edition, &FOUR, &[], uneven, 0);
        assert_eq!(answer, Err(refused(8, 0)));
    }
}

/// A file with something wrong at its parameters, or before them, is refused as by
/// edition 1; one whose parameters are accepted is refused by 8 at offset 1,
/// whatever comes later and however little is lent.
#[test]
fn a_file_is_refused_by_8_at_its_parameters() {
    let good = write(1, &FOUR, &sent("g"));
    let changed = |place: usize, byte| {
        let mut file = good.clone();
        file[place] = byte;
        file
    };
    let inserted = |place: usize, bytes: &[u8]| {
        let mut file = good.clone();
        file.splice(place..place, bytes.iter().copied());
        file
    };
    let before_8 = [
        (refused(20, 0), vec![]),
        (refused(20, 0), changed(0, 0)),
        (refused(20, 0), changed(0, 3)),
        (refused(23, 1), good[..1].to_vec()),
        (refused(21, 1), good[..2].to_vec()),
        (refused(21, 1), good[..18].to_vec()),
        (refused(21, 1), changed(2, 0)),
        (refused(22, 1), changed(3, 9)),
        // A file with no parameter record never gives 8.
        (refused(23, 1), [&good[..1], &good[19..]].concat()),
        (refused(1, 1), changed(4, 9)),
        (refused(2, 1), changed(5, 2)),
        (refused(3, 1), changed(6, 2)),
        (refused(5, 1), changed(9, 1)),
        (refused(6, 1), changed(14, 1)),
        (refused(7, 1), changed(15, 0)),
    ];
    for (refusal, file) in before_8 {
        for edition in [&EDITIONS[..], &OTHER_EDITIONS].concat() {
            for room in [0, 1000] {
                let answer = (refusal.number, refusal.place, None);
                assert_eq!(expected_c_call(edition, &file, room), answer);
            }
        }
    }
    let after_8 = [
        (0, 0, good.clone()),
        (0, 0, good[..19].to_vec()),
        (21, 19, good[..20].to_vec()),
        (21, 19, inserted(19, &[0, 0])),
        (22, 19, inserted(19, &[0, 1, 9])),
        (23, 19, inserted(19, &good[1..19])),
        (11, 19, changed(34, 2)),
        (12, 51, changed(43, 255)),
        (13, 35, changed(38, 255)),
    ];
    for (number, place, file) in after_8 {
        for edition in EDITIONS {
            let answer = expected_c_call(edition, &file, 1000);
            assert_eq!((answer.0, answer.1), (number, place));
        }
        for edition in OTHER_EDITIONS {
            // With no room too: 15 is not come to.
            for room in [0, 71, 1000] {
                assert_eq!(expected_c_call(edition, &file, room), (8, 1, None));
            }
            let reading = read(edition, &file);
            assert_eq!((reading.numbers, reading.packets.len()), (None, 0));
        }
        // What takes no edition never gives it.
        assert!(!expected_output(&file).starts_with("refused 8 "));
        assert_ne!(parse(&file).map_err(|refusal| refusal.number), Err(8));
    }
}

/// 8 comes after 7 and before 33, 30, 31, 32, 12, 13 and 15, and its place is 0.
#[test]
fn a_capture_is_refused_by_8_before_33() {
    let good = captured(&sent("g"));
    let second = 24 + 16 + 54;
    let changed = |place: usize, bytes: [u8; 4]| {
        let mut capture = good.clone();
        capture[place..place + 4].copy_from_slice(&bytes);
        capture
    };
    let after_8 = [
        (0, 0, 0, good.clone()),
        (33, 0, 100, good.clone()),
        (33, 0, 100, vec![]),
        (30, 0, 0, good[..23].to_vec()),
        (30, 0, 0, changed(20, [2, 0, 0, 0])),
        (31, 1, 0, good[..second + 1].to_vec()),
        (32, 1, 0, changed(second + 4, [255; 4])),
        (12, 1, 0, changed(second + 4, [0; 4])),
        (13, 1, 0, changed(second, [89, 2, 0, 0])),
    ];
    for (number, place, offset, bytes) in after_8 {
        for edition in EDITIONS {
            let asked = Asked {
                offset,
                ..asked(edition)
            };
            let answer = expected_capture_call(&asked, &bytes, 1000);
            assert_eq!((answer.0, answer.1), (number, place));
        }
        for edition in OTHER_EDITIONS {
            let mut asked = Asked {
                offset,
                ..asked(edition)
            };
            for room in [0, 87, 1000] {
                let answer = expected_capture_call(&asked, &bytes, room);
                assert_eq!(answer, (8, 0, None));
            }
            asked.numbers.tro = Some(20_000);
            assert_eq!(expected_capture_call(&asked, &bytes, 1000).0, 7);
            asked.numbers.rate = 0;
            assert_eq!(expected_capture_call(&asked, &bytes, 1000).0, 1);
        }
    }
}

// --- call after call ---

/// However a list is cut, a call answers by the edition of its set-up, broken from
/// the call on that closes the broken frame.
#[test]
fn a_list_is_fed_by_both_editions() {
    let list = sent("gsl");
    let after = |edition, fed: usize| {
        let rest = Lists::of(&list[fed..]);
        let answer = call(edition, &FOUR, &list[..fed], rest.lent(), 1000);
        answer.unwrap().after.buffer
    };
    for fed in 0..=list.len() {
        assert_eq!(after(EDITION_1, fed), under_at(2, 0));
        assert_eq!(after(EDITION_2, fed), broken(1, 1));
    }
    // Packets 1 to 4 are frame 0, and 5 to 7 frame 1.
    let up_to = |count: usize| measure(EDITION_2, &FOUR, &list[..count]).unwrap().buffer;
    for count in 0..=list.len() {
        let wanted = match count {
            0..=4 => NONE,
            5..=7 => PASS,
            _ => broken(1, 1),
        };
        assert_eq!(up_to(count), wanted);
    }
    for edition in EDITIONS {
        let calls = cut_everywhere(edition, &FOUR, &list, 3);
        let last = calls.last().unwrap();
        let answer = if edition == EDITION_1 {
            [2, 2, 0]
        } else {
            [4, 1, 1]
        };
        assert_eq!(last.nine[6..], answer);
    }
}

// --- generated files ---

/// "Earlier reports must come out as they did, under edition 1": by it a broken
/// frame changes nothing, and the case never occurs. By edition 2 the answer is
/// that of edition 1 up to the first broken frame.
#[test]
fn edition_2_is_edition_1_up_to_the_first_broken_frame() {
    let mut seen = [0; 4];
    let as_video = |index| as_profiles(&[VIDEO], &file(11, index)).concat();
    for bytes in (0..2500).map(as_video) {
        let [one, two] = EDITIONS.map(|edition| read(edition, &bytes));
        assert_eq!(one.refusal, two.refusal);
        let (by_1, by_2) = match (one.limits, two.limits) {
            (Some(by_1), Some(by_2)) if one.packets.len() < 5000 => (by_1, by_2),
            _ => continue,
        };
        let whole = measure::measure_accepted(&by_1, &one.packets);
        let judged = measure::measure_accepted(&by_2, &two.packets);
        assert!(!matches!(whole.buffer, Buffer::Broken { .. }));
        let first = whole.rows.iter().find(|row| row[1] != 0);
        let place = first.map_or(one.packets.len(), |row| row[10] as usize);
        let front = measure::measure_accepted(&by_1, &one.packets[..place]);
        let wanted = match (front.buffer, first) {
            (Buffer::None | Buffer::Pass, Some(row)) => broken(row[0] as u64, row[1] as u64),
            (answer, _) => answer,
        };
        assert_eq!(judged.buffer, wanted);
        seen[match (wanted == whole.buffer, first) {
            (true, None) => 0,
            (true, Some(_)) => 1,
            (false, _) if front.buffer == Buffer::None => 2,
            (false, _) => 3,
        }] += 1;
    }
    assert!(seen.iter().all(|count| *count > 20), "{:?}", seen);
}

/// The writer and the reader know no edition: what is written is measured by
/// either, and by no other.
#[test]
fn files_carry_no_edition() {
    for (numbers, packets) in edition_streams() {
        let lists = Lists::of(&packets);
        for bytes in under(&[1, 2], &writer(2, &numbers, lists.lent(), 1000).unwrap()) {
            let records = (bytes[0], numbers, packets.clone());
            assert_eq!(parse(&bytes), Ok(records));
            for edition in EDITIONS {
                assert_eq!(expected_c_call(edition, &bytes, 1000).0, 0);
            }
            for edition in OTHER_EDITIONS {
                assert_eq!(expected_c_call(edition, &bytes, 1000), (8, 1, None));
            }
        }
    }
}
