//! Document 01, sentence by sentence: its twelve cases, its example, and every
//! refusal number that can occur, of files in both versions; and requests (ii),
//! (v) and (xiii) of document 02. Request (viii) itself is in `class_0.rs`.

use vtiming_reference::bucket::{drain_instant, Run};
use vtiming_reference::feed::Lists;
use vtiming_reference::fraction::Fraction;
use vtiming_reference::frame::{closed_frames, times};
use vtiming_reference::measure::Row;
use vtiming_reference::numbers::{GRAINS_PER_TICK, WRAP};
use vtiming_reference::packet::LONGEST_HISTORY;
use vtiming_reference::reads::{read_instant, reading};
use vtiming_reference::stream::mended_numbers;
use vtiming_reference::*;

const EXAMPLE: &str = "\
frame 0 0 0 18900000 0 18900000 1740000 45900000 1 0 1
packets 5 frames 1 peak 2 network pass buffer pass
";

fn narrow(n: u64) -> Numbers {
    Numbers::narrow(n)
}

fn with_tro(rate: u64, tro: u64) -> Numbers {
    Numbers {
        rate,
        tro: Some(tro),
        ..narrow(4)
    }
}

fn packets(list: &[(u64, u32, u8)]) -> Vec<Packet> {
    list.iter()
        .map(|&(arrival, timestamp, marker)| Packet::new(arrival, timestamp, marker))
        .collect()
}

fn example_packets() -> Vec<Packet> {
    packets(&[
        (19_000_000, 0, 1),
        (20_700_000, 1800, 0),
        (25_500_000, 1800, 0),
        (30_300_000, 1800, 0),
        (35_100_000, 1800, 1),
    ])
}

fn example_in(version: u8) -> Vec<u8> {
    write(version, &narrow(4), &example_packets())
}

fn example_file() -> Vec<u8> {
    example_in(1)
}

/// FPT of a frame of one packet that arrives at `t`, after a lead-in.
fn first_packet_time(t: u64) -> i64 {
    let list = packets(&[(0, 0, 1), (t, 0, 1)]);
    measure(EDITION_1, &narrow(1), &list).unwrap().rows[0][3]
}

fn refused(number: u8, place: u64) -> Refusal {
    Refusal::new(number, place)
}

// --- both sides of each limit ---

#[test]
fn case_1_tro_at_rate_6() {
    assert!(set_up(EDITION_1, &with_tro(6, 19_999)).is_ok());
    assert_eq!(set_up(EDITION_1, &with_tro(6, 20_000)), Err(7));
}

#[test]
fn case_2_tro_at_rate_7() {
    assert!(set_up(EDITION_1, &with_tro(7, 16_683)).is_ok());
    assert_eq!(set_up(EDITION_1, &with_tro(7, 16_684)), Err(7));
}

#[test]
fn case_3_c_max() {
    assert_eq!(set_up(EDITION_1, &narrow(4147)).unwrap().c_max, 4);
    assert_eq!(set_up(EDITION_1, &narrow(4148)).unwrap().c_max, 5);
}

#[test]
fn case_4_vrx_full() {
    assert_eq!(set_up(EDITION_1, &narrow(4859)).unwrap().vrx_full, 8);
    assert_eq!(set_up(EDITION_1, &narrow(4860)).unwrap().vrx_full, 9);
}

#[test]
fn case_5_an_exact_half_goes_up() {
    assert_eq!(first_packet_time(10_000_000), -270_000_000);
}

#[test]
fn case_6_just_below_half() {
    assert_eq!(first_packet_time(9_999_999), 269_999_973);
}

/// The frame of cases 7 and 8: the first packet `after` T_CF, the other three
/// in time.
fn frame_of_four(after: u64) -> Vec<Packet> {
    let t_cf = 20_000_000;
    packets(&[
        (t_cf - 1_000_000, 0, 1),
        (t_cf + after, 1800, 0),
        (t_cf + 5_500_000, 1800, 0),
        (t_cf + 10_300_000, 1800, 0),
        (t_cf + 15_100_000, 1800, 1),
    ])
}

fn levels_and_least(list: &[Packet]) -> (Vec<i128>, i128) {
    let limits = set_up(EDITION_1, &with_tro(6, 700)).unwrap();
    let frames = closed_frames(list);
    let t_cf = times(&limits, &frames[0]).t_cf;
    let reading = reading(&limits, t_cf, frames[0].packets);
    (reading.levels, reading.least)
}

#[test]
fn case_7_in_time() {
    let list = frame_of_four(700_000);
    let (levels, least) = levels_and_least(&list);
    assert_eq!((levels[0], least), (1, 0));
    let measurement = measure(EDITION_1, &with_tro(6, 700), &list).unwrap();
    assert_eq!(measurement.buffer, Buffer::Pass);
}

#[test]
fn case_8_late() {
    let list = frame_of_four(700_001);
    let (levels, least) = levels_and_least(&list);
    assert_eq!((levels[0], least), (0, -1));
    let measurement = measure(EDITION_1, &with_tro(6, 700), &list).unwrap();
    let under = Buffer::Under {
        frame: 0,
        packet: 0,
    };
    assert_eq!(measurement.buffer, under);
}

#[test]
fn case_9_five_at_one_instant() {
    let list = packets(&[(1_000, 0, 0); 5]);
    let measurement = measure(EDITION_1, &narrow(4), &list).unwrap();
    assert_eq!(measurement.peak, 5);
    assert_eq!(
        measurement.network,
        Network::Burst(Run { first: 0, last: 4 })
    );
    let four = measure(EDITION_1, &narrow(4), &list[..4]).unwrap();
    assert_eq!((four.peak, four.network), (4, Network::Pass));
}

/// Request (v): "Case 10 becomes 300,015."
#[test]
fn case_10_the_timestamp_that_went_round() {
    let t = 47_721_858_844_445;
    let list = packets(&[(t - 1, 0, 1), (t, 4_294_967_295, 1)]);
    let row = measure(EDITION_1, &narrow(1), &list).unwrap().rows[0];
    assert_eq!(row[3..6], [-31_199_985, -31_500_000, 300_015]);
}

#[test]
fn case_11_the_example() {
    assert_eq!(expected_output(&example_in(1)), EXAMPLE);
    assert_eq!(expected_output(&example_in(2)), EXAMPLE);
}

#[test]
fn case_12_the_empty_file() {
    assert_eq!(expected_output(&[]), "refused 20 0\n");
    assert_eq!(expected_c_call(EDITION_1, &[], 1000), (20, 0, None));
}

// --- the numbers ---

#[test]
fn two_to_the_32_ticks_are_p() {
    assert_eq!(GRAINS_PER_TICK << 32, WRAP);
    assert_eq!(2 * i128::from(HALF_OF_P), WRAP);
}

#[test]
fn default_tro_and_read_spacing_of_1080p50() {
    let limits = set_up(EDITION_1, &narrow(4320)).unwrap();
    // 764.444 µs and 4.4444 µs.
    assert_eq!(limits.tro, 20_640_000);
    let spacing = read_instant(&limits, -limits.tro, 1);
    assert_eq!(spacing, Fraction::whole(120_000));
    assert_eq!(drain_instant(&limits, 11), Fraction::whole(1_250_000));
}

#[test]
fn both_default_tros_are_whole_at_all_rates() {
    for rate in 1..=8 {
        for height in [1, 1079, 1080, 65_535] {
            let numbers = Numbers {
                rate,
                height,
                ..narrow(4)
            };
            let limits = set_up(EDITION_1, &numbers).unwrap();
            let (over, under) = if height < 1080 { (28, 750) } else { (43, 1125) };
            assert_eq!(limits.tro * under, over * limits.frame);
        }
    }
}

#[test]
fn wide_and_narrow_linear_limits() {
    let wide = Numbers {
        class: 3,
        maxudp: 8960,
        ..narrow(20_000)
    };
    let limits = set_up(EDITION_1, &wide).unwrap();
    assert_eq!((limits.c_max, limits.vrx_full), (46, 3333));
    let small = Numbers {
        packets_per_frame: 1,
        ..wide
    };
    let limits = set_up(EDITION_1, &small).unwrap();
    assert_eq!((limits.c_max, limits.vrx_full), (16, 120));
    let linear = Numbers {
        schedule: 1,
        class: 2,
        ..narrow(4320)
    };
    let limits = set_up(EDITION_1, &linear).unwrap();
    assert_eq!((limits.c_max, limits.vrx_full), (5, 8));
}

// --- refusals ---

#[test]
fn refusals_1_to_7_in_order() {
    // Every number is wrong; mending them one after the other shows the order.
    let all = mended_numbers();
    let seen: Vec<u8> = all
        .iter()
        .map(|numbers| set_up(EDITION_1, numbers).map_or_else(|number| number, |_| 0))
        .collect();
    assert_eq!(seen, [1, 2, 3, 4, 5, 6, 7, 0]);
    assert_eq!(
        measure(EDITION_1, &Numbers { rate: 0, ..all[7] }, &[]),
        Err(refused(1, 0))
    );
}

#[test]
fn refusal_3_against_the_schedule() {
    let class_and_schedule = |class, schedule| {
        set_up(
            EDITION_1,
            &Numbers {
                class,
                schedule,
                ..narrow(4)
            },
        )
        .is_ok()
    };
    assert!(class_and_schedule(1, 0) && !class_and_schedule(1, 1));
    assert!(class_and_schedule(2, 1) && !class_and_schedule(2, 0));
    assert!(class_and_schedule(0, 0) && class_and_schedule(0, 1));
    assert!(class_and_schedule(3, 0) && class_and_schedule(3, 1));
}

#[test]
fn refusals_4_to_6_at_their_ends() {
    let height = |height| {
        set_up(
            EDITION_1,
            &Numbers {
                height,
                ..narrow(4)
            },
        )
        .err()
    };
    assert_eq!(
        [0, 1, 65_535, 65_536].map(height),
        [Some(4), None, None, Some(4)]
    );
    let n = |n| set_up(EDITION_1, &narrow(n)).err();
    assert_eq!(
        [0, 1, 20_000, 20_001].map(n),
        [Some(5), None, None, Some(5)]
    );
    let maxudp = |maxudp| {
        set_up(
            EDITION_1,
            &Numbers {
                maxudp,
                ..narrow(4)
            },
        )
        .err()
    };
    assert_eq!([1460, 8960, 1461].map(maxudp), [None, None, Some(6)]);
}

#[test]
fn refusals_11_to_13_with_their_places() {
    let numbers = narrow(4);
    let refusal = |list: &[(u64, u32, u8)]| measure(EDITION_1, &numbers, &packets(list)).err();
    assert_eq!(refusal(&[(5, 0, 0), (5, 0, 2)]), Some(refused(11, 1)));
    assert_eq!(refusal(&[(5, 0, 0), (5, 0, 0)]), None);
    assert_eq!(refusal(&[(5, 0, 0), (4, 0, 0)]), Some(refused(12, 1)));
    let end = 5 + LONGEST_HISTORY;
    assert_eq!(refusal(&[(5, 0, 0), (end, 0, 0)]), None);
    let beyond = [(5, 0, 0), (end, 0, 0), (end + 1, 0, 0)];
    assert_eq!(refusal(&beyond), Some(refused(13, 2)));
}

#[test]
fn refusals_10_and_15_of_one_call() {
    let numbers = narrow(1);
    let history = packets(&[(1, 0, 1), (2, 0, 1)]);
    let lists: (&[u64], &[u32], &[u8]) = (&[3, 4], &[0, 0], &[1, 1]);
    assert_eq!(
        call(EDITION_1, &numbers, &history, lists, 21),
        Err(refused(15, 2))
    );
    let answer = call(EDITION_1, &numbers, &history, lists, 22).unwrap();
    assert_eq!((answer.rows.len(), answer.after.frames), (2, 3));
    assert_eq!(answer.rows[0][0], 1);
    let uneven: (&[u64], &[u32], &[u8]) = (&[3, 4], &[0], &[1, 2]);
    assert_eq!(
        call(EDITION_1, &numbers, &history, uneven, 0),
        Err(refused(10, 0))
    );
    let high: (&[u64], &[u32], &[u8]) = (&[3, 4], &[0, 0], &[1, 2]);
    assert_eq!(
        call(EDITION_1, &numbers, &history, high, 0),
        Err(refused(11, 3))
    );
    let nothing: (&[u64], &[u32], &[u8]) = (&[], &[], &[]);
    assert_eq!(
        call(EDITION_1, &numbers, &history, nothing, 0)
            .unwrap()
            .rows
            .len(),
        0
    );
}

#[test]
fn refusal_16_and_the_doubles() {
    let figures = graph(18_900_000, 1_740_000, -13_500).unwrap();
    assert_eq!(figures.first_packet_time, 700.0);
    assert_eq!(figures.margin, 1_740_000.0 / 27_000.0);
    assert_eq!(figures.latency, -0.5);
    let edge = 1_i64 << 53;
    assert!(graph(edge, -edge, edge).is_ok());
    assert_eq!(graph(edge + 1, 0, 0), Err(16));
    assert_eq!(graph(0, -edge - 1, 0), Err(16));
    assert_eq!(graph(0, 0, i64::MIN), Err(16));
}

#[test]
fn refusal_20() {
    assert_eq!(parse(&[]), Err(refused(20, 0)));
    let mut file = example_file();
    for version in [0, 3, 4, 128, 255] {
        file[0] = version;
        assert_eq!(parse(&file), Err(refused(20, 0)));
        assert_eq!(parse(&[version]), Err(refused(20, 0)));
    }
}

#[test]
fn refusal_21() {
    for file in [example_in(1), example_in(2)] {
        // 1 and 18 bytes of parameters, then 16 bytes a packet.
        assert_eq!(parse(&file[..2]), Err(refused(21, 1)));
        assert_eq!(parse(&file[..18]), Err(refused(21, 1)));
        assert!(parse(&file[..19]).is_ok());
        assert_eq!(parse(&file[..20]), Err(refused(21, 19)));
        assert_eq!(parse(&file[..21]), Err(refused(21, 19)));
        assert_eq!(parse(&file[..34]), Err(refused(21, 19)));
        assert!(parse(&file[..35]).is_ok());
        let zero = [&file[..19], &[0, 0]].concat();
        assert_eq!(parse(&zero), Err(refused(21, 19)));
    }
}

#[test]
fn refusal_22() {
    for file in [example_in(1), example_in(2)] {
        let wrong_length = [&file[..19], &[0, 1, 2]].concat();
        assert_eq!(parse(&wrong_length), Err(refused(22, 19)));
        let unknown_kind = [&file[..19], &[0, 1, 3]].concat();
        assert_eq!(parse(&unknown_kind), Err(refused(22, 19)));
        // 22 comes before 23: no parameters yet, but the kind is unknown.
        assert_eq!(parse(&[file[0], 0, 1, 9]), Err(refused(22, 1)));
    }
}

#[test]
fn refusal_23() {
    for file in [example_in(1), example_in(2)] {
        assert_eq!(parse(&file[..1]), Err(refused(23, 1)));
        let packets_first = [&file[..1], &file[19..]].concat();
        assert_eq!(parse(&packets_first), Err(refused(23, 1)));
        let again = [&file[..35], &file[1..19]].concat();
        assert_eq!(parse(&again), Err(refused(23, 35)));
        // 23 comes before set-up's own refusals.
        let mut refused_again = again;
        refused_again[35 + 3] = 0;
        assert_eq!(parse(&refused_again), Err(refused(23, 35)));
    }
}

#[test]
fn set_up_and_packet_refusals_have_the_records_offset() {
    for version in [1, 2] {
        // Version, length and kind come before the rate.
        let mut file = example_in(version);
        file[4] = 0;
        assert_eq!(parse(&file), Err(refused(1, 1)));
        let refusal = |last: Packet| {
            let mut list = example_packets();
            list[4] = last;
            parse(&write(version, &narrow(4), &list)).err()
        };
        let last = example_packets()[4];
        assert_eq!(refusal(last), None);
        let high = Packet { marker: 2, ..last };
        assert_eq!(refusal(high), Some(refused(11, 83)));
        let early = Packet::new(30_299_999, 1800, 1);
        assert_eq!(refusal(early), Some(refused(12, 83)));
        let late = Packet::new(19_000_001 + LONGEST_HISTORY, 1800, 1);
        assert_eq!(refusal(late), Some(refused(13, 83)));
    }
}

#[test]
fn the_writer_and_its_refusals() {
    let numbers = narrow(4);
    let bad = Numbers {
        tro: Some(20_000),
        ..numbers
    };
    let lists: (&[u64], &[u32], &[u8]) = (&[1, 2], &[3, 4], &[0, 1]);
    let uneven: (&[u64], &[u32], &[u8]) = (&[1], &[3, 4], &[0, 7]);
    let high: (&[u64], &[u32], &[u8]) = (&[2, 1], &[3, 4], &[0, 7]);
    let back: (&[u64], &[u32], &[u8]) = (&[2, 1], &[3, 4], &[0, 1]);
    for version in [1, 2] {
        let file = writer(version, &numbers, lists, 51).unwrap();
        assert_eq!((file[0], file.len()), (version, 51));
        let list = packets(&[(1, 3, 0), (2, 4, 1)]);
        assert_eq!(parse(&file), Ok((version, numbers, list)));
        let refusal = |numbers, lists, room| writer(version, numbers, lists, room).err();
        assert_eq!(refusal(&numbers, lists, 50), Some(refused(24, 0)));
        assert_eq!(refusal(&bad, uneven, 0), Some(refused(7, 0)));
        assert_eq!(refusal(&numbers, uneven, 0), Some(refused(10, 0)));
        assert_eq!(refusal(&numbers, high, 0), Some(refused(11, 1)));
        assert_eq!(refusal(&numbers, back, 0), Some(refused(12, 1)));
    }
}

#[test]
fn class_0_and_default_tro_stay_as_written() {
    let numbers = Numbers {
        class: 0,
        ..narrow(4)
    };
    for version in [1, 2] {
        let file = writer(version, &numbers, (&[], &[], &[]), 19).unwrap();
        let expected = [
            version, 0, 16, 1, 6, 0, 0, 4, 56, 0, 0, 0, 4, 5, 180, 255, 255, 255, 255,
        ];
        assert_eq!(file, expected);
        assert_eq!(parse(&file), Ok((version, numbers, vec![])));
    }
}

// --- output and C call ---

#[test]
fn rows_closed_before_a_refusal_are_printed() {
    let mut file = example_file();
    file.extend([0, 1]);
    let first_line = EXAMPLE.lines().next().unwrap();
    assert_eq!(
        expected_output(&file),
        format!("{}\nrefused 21 99\n", first_line)
    );
}

#[test]
fn parameters_alone_are_a_file() {
    let file = write(1, &narrow(4), &[]);
    let line = "packets 0 frames 0 peak 0 network pass buffer none\n";
    assert_eq!(expected_output(&file), line);
}

#[test]
fn the_c_call_on_the_example() {
    let file = example_file();
    let (number, offset, bytes) = expected_c_call(EDITION_1, &file, 8 * 20);
    assert_eq!((number, offset), (0, 0));
    let bytes = bytes.unwrap();
    let values: Vec<i64> = bytes
        .chunks(8)
        .map(|eight| {
            let mut array = [0; 8];
            array.copy_from_slice(eight);
            i64::from_be_bytes(array)
        })
        .collect();
    let row = [
        0, 0, 0, 18_900_000, 0, 18_900_000, 1_740_000, 45_900_000, 1, 0, 1,
    ];
    assert_eq!(values[..9], [5, 1, 2, 0, 0, 0, 1, 0, 0]);
    assert_eq!(values[9..], row);
    assert_eq!(
        expected_c_call(EDITION_1, &file, 8 * 20 - 1),
        (15, 99, None)
    );
    // After all else.
    assert_eq!(expected_c_call(EDITION_1, &file[..98], 0), (21, 83, None));
}

// --- frames, buffer and bucket ---

/// n 3; each frame at its own T_CF, all packets in time for TRO 0.
fn frames_of(list: &[&[u32]]) -> Vec<Packet> {
    let mut packets = vec![Packet::new(1_000_000, 0, 1)];
    for (i, stamps) in list.iter().enumerate() {
        for (j, stamp) in stamps.iter().enumerate() {
            let arrival = 20_000_000 * (i as u64 + 1) - 3_000 + j as u64;
            let marker = u8::from(j + 1 == stamps.len());
            packets.push(Packet::new(arrival, *stamp, marker));
        }
    }
    packets
}

fn three() -> Numbers {
    Numbers {
        packets_per_frame: 3,
        ..with_tro(6, 0)
    }
}

#[test]
fn kinds_in_their_order_and_frame_numbers() {
    let list = frames_of(&[&[1, 2], &[1, 1, 1, 2], &[1, 1, 2], &[1, 2, 1], &[1, 1, 1]]);
    let rows = measure(EDITION_1, &three(), &list).unwrap().rows;
    let heads: Vec<&[i64]> = rows.iter().map(|row| &row[..3]).collect();
    assert_eq!(
        heads,
        [[0, 1, 2], [1, 2, 4], [2, 3, 2], [3, 3, 1], [4, 0, 0]]
    );
    assert!(rows[..4].iter().all(|row| row[3..10] == [0; 7]));
    assert_eq!(rows[4][3], -81_000);
    assert_eq!(rows[4][8..10], [3, 0]);
}

#[test]
fn a_broken_frame_is_not_judged() {
    let list = frames_of(&[&[1, 2], &[1, 1, 1, 2], &[1, 1, 2]]);
    assert_eq!(
        measure(EDITION_1, &three(), &list).unwrap().buffer,
        Buffer::None
    );
}

#[test]
fn over_and_the_first_failing_frame() {
    let numbers = Numbers {
        maxudp: 8960,
        ..three()
    };
    let mut list = frames_of(&[&[1, 2], &[1, 1, 1], &[1, 1, 1]]);
    // VRX_FULL is 1 here, so frame 1 overfills the buffer.
    let over = Buffer::Over { frame: 1, peak: 3 };
    assert_eq!(measure(EDITION_1, &numbers, &list).unwrap().buffer, over);
    // Under comes before over in one frame.
    list[5].arrival += 19_000_000;
    let under = Buffer::Under {
        frame: 1,
        packet: 2,
    };
    let measurement = measure(EDITION_1, &numbers, &list).unwrap();
    assert_eq!(measurement.rows[1][8..10], [2, -1]);
    assert_eq!(measurement.buffer, under);
}

#[test]
fn the_drain_comes_before_an_arrival_at_its_instant() {
    // Rate 6, n 4: eleven drains take exactly 50 ms.
    let exact = 50_000_000;
    let list = |second| packets(&[(0, 0, 0), (second, 0, 0), (second, 0, 0)]);
    let limits = set_up(EDITION_1, &narrow(4)).unwrap();
    assert_eq!(drain_instant(&limits, 11), Fraction::whole(27 * exact));
    // One packet before the eleventh drain, one at it.
    let mut close = list(exact as u64);
    close[1].arrival -= 1;
    assert_eq!(measure(EDITION_1, &narrow(4), &close).unwrap().peak, 1);
    close[2].arrival -= 1;
    assert_eq!(measure(EDITION_1, &narrow(4), &close).unwrap().peak, 2);
}

#[test]
fn unused_drains_are_not_saved_up_and_the_run_starts_where_it_was_empty() {
    let mut list = packets(&[(0, 0, 0)]);
    list.extend(packets(&[(1_000_000_000, 0, 0); 6]));
    let measurement = measure(EDITION_1, &narrow(4), &list).unwrap();
    assert_eq!(measurement.peak, 6);
    assert_eq!(
        measurement.network,
        Network::Burst(Run { first: 1, last: 5 })
    );
}

#[test]
fn arrivals_at_the_end_of_64_bits() {
    let list = packets(&[(u64::MAX - 1, 0, 1), (u64::MAX, 0, 1)]);
    let row = measure(EDITION_1, &narrow(1), &list).unwrap().rows[0];
    let grains = 27 * i128::from(u64::MAX);
    let t_cf = (grains + 270_000_000) / 540_000_000 * 540_000_000;
    assert_eq!(i128::from(row[3]), grains - t_cf);
    // Less than P/2 after the last wrap, when the clock was at 0.
    let encoded = 386_547 * WRAP;
    assert!(2 * (grains - encoded) < WRAP);
    assert_eq!(i128::from(row[4]), encoded - t_cf);
    assert_eq!(i128::from(row[5]), grains - encoded);
    assert_eq!(row[7], 27);
}

// --- request (ii): "the place in the history of the frame's first packet" ---

/// The eleventh number of each row.
fn places(rows: &[Row]) -> Vec<i64> {
    rows.iter().map(|row| row[10]).collect()
}

/// One call with just these packets.
fn call_with(history: &[Packet], list: &[Packet], room: usize) -> Result<CallAnswer, Refusal> {
    let Lists {
        arrivals,
        timestamps,
        markers,
    } = Lists::of(list);
    call(
        EDITION_1,
        &three(),
        history,
        (&arrivals, &timestamps, &markers),
        room,
    )
}

#[test]
fn the_example_ends_its_frame_line_with_1() {
    let rows = measure(EDITION_1, &narrow(4), &example_packets())
        .unwrap()
        .rows;
    assert_eq!(places(&rows), [1]);
    let text = expected_output(&example_file());
    assert!(text.lines().next().unwrap().ends_with(" 1"));
}

#[test]
fn places_are_counted_from_0_with_the_lead_in() {
    // A lead-in of 5 packets, of which the last is its marker.
    let mut list = packets(&[(0, 0, 0); 4]);
    list.extend(frames_of(&[&[1, 1, 1], &[1, 1, 1]]));
    let rows = measure(EDITION_1, &three(), &list).unwrap().rows;
    assert_eq!(places(&rows), [5, 8]);
}

#[test]
fn a_place_is_filled_for_broken_frames_too() {
    let list = frames_of(&[&[1, 2], &[1, 1, 1, 2], &[1, 1, 2], &[1, 1, 1], &[1]]);
    let rows = measure(EDITION_1, &three(), &list).unwrap().rows;
    let kinds: Vec<i64> = rows.iter().map(|row| row[1]).collect();
    assert_eq!(kinds, [1, 2, 3, 0, 1]);
    assert_eq!(places(&rows), [1, 3, 7, 10, 13]);
}

/// Wherever a list is cut in two, and fed one packet a call: places count
/// since set-up.
#[test]
fn a_place_is_counted_from_set_up_and_not_from_the_call() {
    let list = frames_of(&[&[1, 2], &[1, 1, 1], &[1, 1, 2]]);
    let of_call = |from, to| call_with(&list[..from], &list[from..to], 33).unwrap().rows;
    for cut in 0..=list.len() {
        let rows = [of_call(0, cut), of_call(cut, list.len())].concat();
        assert_eq!(places(&rows), [1, 3, 6]);
    }
    let singly: Vec<Row> = (0..list.len()).flat_map(|i| of_call(i, i + 1)).collect();
    assert_eq!(places(&singly), [1, 3, 6]);
}

#[test]
fn fifteen_is_given_below_eleven_numbers_per_frame() {
    let list = frames_of(&[&[1, 1, 1], &[1, 2], &[1, 1, 1, 1]]);
    // The call closes the frames after the first; a broken one needs as many.
    for (end, needed) in [(4, 0), (5, 0), (6, 11), (9, 11), (10, 22)] {
        let answer = |room| call_with(&list[..4], &list[4..end], room).err();
        assert_eq!(answer(needed), None);
        if needed > 0 {
            assert_eq!(answer(needed - 1), Some(refused(15, 4)));
        }
    }
}

/// The C call fills 8·(9 + 11·frames) bytes.
#[test]
fn a_row_of_the_c_call_is_88_bytes() {
    let stamps: [&[u32]; 3] = [&[1, 1, 1], &[1, 2], &[1, 1, 1, 1]];
    for frames in 0..=3 {
        let file = write(1, &three(), &frames_of(&stamps[..frames]));
        let needed = 72 + 88 * frames;
        assert_eq!(
            expected_c_call(EDITION_1, &file, needed).2.unwrap().len(),
            needed
        );
        let too_few = (15, file.len() as u64, None);
        assert_eq!(expected_c_call(EDITION_1, &file, needed - 1), too_few);
    }
}

// --- request (v): "the encoded time shall instead be the one nearest to the arrival" ---

const HALF_OF_P: i64 = 644_245_094_400_000;

/// FPT, RTP_OFFSET and VL at rate 6, of a frame of one packet that arrives at
/// `t` with its marker before it.
fn offsets(t: u64, timestamp: u32) -> [i64; 3] {
    let list = packets(&[(t, 0, 1), (t, timestamp, 1)]);
    let row = measure(EDITION_1, &narrow(1), &list).unwrap().rows[0];
    assert_eq!(row[4], row[3] - row[5], "RTP_OFFSET follows as FPT less VL");
    [row[3], row[4], row[5]]
}

fn latency(t: u64, timestamp: u32) -> i64 {
    offsets(t, timestamp)[2]
}

#[test]
fn an_encoded_time_may_be_before_the_epoch() {
    assert_eq!(offsets(0, 0), [0, 0, 0]);
    assert_eq!(offsets(0, u32::MAX), [0, -300_000, 300_000]);
    assert_eq!(offsets(1, u32::MAX), [27, -300_000, 300_027]);
    assert_eq!(offsets(0, 1), [0, 300_000, -300_000]);
}

/// The first wrap is 12 grains after one nanosecond and 15 before the next.
#[test]
fn timestamps_of_both_sides_of_a_wrap_received_on_both_sides() {
    let (before, after) = (47_721_858_844_444, 47_721_858_844_445);
    assert_eq!(
        offsets(before, u32::MAX),
        [-31_200_012, -31_500_000, 299_988]
    );
    assert_eq!(offsets(before, 0), [-31_200_012, -31_200_000, -12]);
    assert_eq!(
        offsets(after, u32::MAX),
        [-31_199_985, -31_500_000, 300_015]
    );
    assert_eq!(offsets(after, 0), [-31_199_985, -31_200_000, 15]);
}

/// The ninth wrap is the first on a whole nanosecond.
#[test]
fn an_arrival_exactly_on_a_wrap() {
    let wrap = 429_496_729_600_000;
    assert_eq!(27 * i128::from(wrap), 9 * WRAP);
    let stamps = [u32::MAX, 0, 1];
    let around = |t| stamps.map(|timestamp| latency(t, timestamp));
    assert_eq!(around(wrap - 1), [299_973, -27, -300_027]);
    assert_eq!(around(wrap), [300_000, 0, -300_000]);
    assert_eq!(around(wrap + 1), [300_027, 27, -299_973]);
}

/// "VL is at least minus P/2 and below plus P/2": exactly half is minus P/2,
/// with the later encoded time; a nanosecond earlier the earlier is nearer.
#[test]
fn an_exact_tie_and_a_nanosecond_to_each_side() {
    let timestamp = (1 << 31) + 9;
    let (earlier, later) = (-644_245_091_700_000, 644_245_097_100_000);
    let near = HALF_OF_P - 27;
    assert_eq!(offsets(99_999, timestamp), [2_699_973, earlier, near]);
    assert_eq!(offsets(100_000, timestamp), [2_700_000, later, -HALF_OF_P]);
    assert_eq!(offsets(100_001, timestamp), [2_700_027, later, -near]);
}

/// The arrival of that tie, with the timestamps of the ticks around it.
#[test]
fn a_tie_and_a_tick_to_each_side() {
    let around = [8, 9, 10].map(|past| latency(100_000, (1 << 31) + past));
    let near = HALF_OF_P - 300_000;
    assert_eq!(around, [-near, -HALF_OF_P, near]);
}

/// At the first arrival, just after P/2, where the later encoded time is after
/// the next wrap, in our days, and at the last tie of 64 bits.
#[test]
fn ties_from_the_epoch_to_the_end_of_64_bits() {
    assert_eq!(latency(0, 1 << 31), -HALF_OF_P);
    assert_eq!(latency(1, 1 << 31), -HALF_OF_P + 27);
    for (t, timestamp) in [
        (23_860_929_500_000, 7),
        (1_760_000_000_000_000_000, 3_753_607_168),
        (18_446_744_073_709_500_000, 2_390_750_591),
    ] {
        assert_eq!(latency(t - 1, timestamp), HALF_OF_P - 27);
        assert_eq!(latency(t, timestamp), -HALF_OF_P);
        assert_eq!(latency(t + 1, timestamp), -HALF_OF_P + 27);
    }
}

/// Nine ticks are 100,000 ns. In the middle, 4.5 ticks after the epoch, no
/// timestamp is exactly half of P away.
#[test]
fn between_ticks_there_is_no_tie() {
    let half = 1 << 31;
    assert_eq!(latency(50_000, half + 4), -HALF_OF_P + 150_000);
    assert_eq!(latency(50_000, half + 5), HALF_OF_P - 150_000);
}

/// Nothing is different at the last nanosecond of 64 bits: an encoded time may
/// be before the last wrap, and later than any arrival.
#[test]
fn the_last_arrival_with_timestamps_of_all_sides() {
    let last = u64::MAX;
    let first_packet_time = 257_893_605;
    let before_the_wrap = [first_packet_time, -72_979_826_700_000, 72_980_084_593_605];
    assert_eq!(offsets(last, u32::MAX), before_the_wrap);
    // The clock is at 243,266,947, and 193,605 grains beyond it.
    assert_eq!(latency(last, 243_266_947), 193_605);
    assert_eq!(latency(last, 243_266_948), 193_605 - 300_000);
    let later = [first_packet_time, 644_245_352_100_000, -644_245_094_206_395];
    assert_eq!(offsets(last, 2_390_750_595), later);
    let earlier = [first_packet_time, -644_244_836_400_000, 644_245_094_293_605];
    assert_eq!(offsets(last, 2_390_750_596), earlier);
}

/// 16 stays for figures that are lent; VL is nowhere near it.
#[test]
fn the_graph_takes_the_greatest_latencies() {
    let [first_packet_time, _, latency] = offsets(99_999, (1 << 31) + 9);
    let figures = graph(first_packet_time, 0, latency).unwrap();
    assert_eq!(figures.latency, 644_245_094_399_973.0 / 27_000.0);
    let [first_packet_time, _, latency] = offsets(100_000, (1 << 31) + 9);
    let figures = graph(first_packet_time, 0, latency).unwrap();
    assert_eq!(figures.latency, -644_245_094_400_000.0 / 27_000.0);
}

// --- request (xiii): "How long until the next read?" ---

/// The j of the next read, numerator and denominator; none where no read is left.
type Next = Option<(i128, i128, i128)>;

fn next_of(numbers: Numbers, first: u64, arrival: u64) -> Result<Next, u8> {
    let wait = Wait {
        numbers,
        first,
        arrival,
    };
    let parts = |next: NextRead| (next.read, next.numerator, next.denominator);
    next_read(&wait).map(|next| next.map(parts))
}

/// The stream of cases 7 and 8, with a frame whose first packet comes at read 0.
/// T_CF is 20 ms. Read 0 is 700 µs after it and a read comes every 4.8 ms, which
/// is 129,600,000 grains, or 12,960,000,000 over 25·4.
fn next_in_frame_of_four(arrival: u64) -> Next {
    next_of(with_tro(6, 700), 20_700_000, arrival).unwrap()
}

/// In case 7 the packet is in time and read 0 takes it; in case 8 read 0 is over,
/// 27 grains ago.
#[test]
fn the_next_read_in_cases_7_and_8() {
    let at = |first| next_of(with_tro(6, 700), first, first).unwrap();
    assert_eq!(at(20_699_999), Some((0, 2_700, 100)));
    assert_eq!(at(20_700_000), Some((0, 0, 100)));
    assert_eq!(at(20_700_001), Some((1, 12_959_997_300, 100)));
}

/// Read 1 is at 25.5 ms, read 2 at 30.3 ms.
#[test]
fn a_read_at_the_arrivals_own_instant_is_the_next() {
    assert_eq!(next_in_frame_of_four(25_499_999), Some((1, 2_700, 100)));
    assert_eq!(next_in_frame_of_four(25_500_000), Some((1, 0, 100)));
    let after = Some((2, 12_959_997_300, 100));
    assert_eq!(next_in_frame_of_four(25_500_001), after);
    assert_eq!(next_in_frame_of_four(30_300_000), Some((2, 0, 100)));
}

/// The last read is at 35.1 ms. At 40.7 ms the next frame has its read 0, which is
/// not meant.
#[test]
fn no_read_is_left_after_the_last() {
    assert_eq!(next_in_frame_of_four(35_099_999), Some((3, 2_700, 100)));
    assert_eq!(next_in_frame_of_four(35_100_000), Some((3, 0, 100)));
    for arrival in [
        35_100_001,
        40_000_000,
        40_700_000,
        20_700_000 + LONGEST_HISTORY,
    ] {
        assert_eq!(next_in_frame_of_four(arrival), None);
    }
}

/// The first packet of document 01's example comes 1,740,000 grains, its margin,
/// before read 0.
#[test]
fn before_read_0_the_first_packet_waits_for_its_margin() {
    let at = |arrival| next_of(narrow(4), 20_700_000, arrival).unwrap();
    assert_eq!(at(20_700_000), Some((0, 174_000_000, 100)));
    // Read 0 is 764,444.4 ns after T_CF: 12 grains after one nanosecond, 15 before
    // the next.
    assert_eq!(at(20_764_444), Some((0, 1_200, 100)));
    assert_eq!(at(20_764_445), Some((1, 12_960_000_000 - 1_500, 100)));
}

/// Three reads a frame of 20 ms: two of them lie between nanoseconds, 18 and 9
/// grains after one.
#[test]
fn the_next_read_of_a_linear_stream() {
    let numbers = Numbers {
        schedule: 1,
        class: 2,
        ..three()
    };
    let at = |arrival| next_of(numbers, 20_000_000, arrival).unwrap();
    assert_eq!(at(20_000_000), Some((0, 0, 3)));
    assert_eq!(at(20_000_001), Some((1, 540_000_000 - 81, 3)));
    assert_eq!(at(26_666_666), Some((1, 54, 3)));
    assert_eq!(at(26_666_667), Some((2, 540_000_000 - 27, 3)));
    assert_eq!(at(33_333_333), Some((2, 27, 3)));
    assert_eq!(at(33_333_334), None);
}

/// 24·450,450,000 over 25·17 is no whole number of grains. A nanosecond is 27·425
/// of these parts, 11,475; and 942,117 of them are 7,425 short of it.
#[test]
fn a_wait_that_is_no_whole_number_of_grains() {
    let numbers = Numbers {
        packets_per_frame: 17,
        ..with_tro(7, 0)
    };
    let at = |arrival| next_of(numbers, 0, arrival).unwrap();
    assert_eq!(at(1), Some((1, 10_810_800_000 - 11_475, 425)));
    assert_eq!(at(942_117), Some((1, 7_425, 425)));
    let after = 10_810_800_000 - (11_475 - 7_425);
    assert_eq!(at(942_118), Some((2, after, 425)));
}

/// The packet at 35 ms is nearer to the next frame's T_CF, but its frame began
/// with a packet at 20.7 ms; if it is the first itself, its T_CF is 40 ms.
#[test]
fn the_reads_are_those_of_the_frames_first_packet() {
    let numbers = with_tro(6, 700);
    let read_3 = Some((3, 270_000_000, 100));
    assert_eq!(next_of(numbers, 20_700_000, 35_000_000), Ok(read_3));
    let read_0 = Some((0, 15_390_000_000, 100));
    assert_eq!(next_of(numbers, 35_000_000, 35_000_000), Ok(read_0));
    // Cases 5 and 6: half a frame from two frame times.
    let one = Numbers {
        packets_per_frame: 1,
        ..with_tro(6, 0)
    };
    let at = |first| next_of(one, first, 10_000_000);
    assert_eq!(at(9_999_999), Ok(None));
    assert_eq!(at(10_000_000), Ok(Some((0, 6_750_000_000, 25))));
}

/// 62,562,500 ns are exactly one frame and a half at rate 1, so T_CF is two frames.
/// Read 0 is 1,126,116,000 grains after that, and 1,689,178,500 after the packet.
#[test]
fn the_longest_wait() {
    let numbers = Numbers {
        packets_per_frame: 20_000,
        ..with_tro(1, 41_708)
    };
    let at = |first| next_of(numbers, first, first).unwrap();
    let longest = Some((0, 844_589_250_000_000, 500_000));
    assert_eq!(at(62_562_500), longest);
    // A nanosecond before, T_CF is one frame.
    let shorter = Some((0, 281_526_763_500_000, 500_000));
    assert_eq!(at(62_562_499), shorter);
    let linear = Numbers {
        schedule: 1,
        class: 2,
        ..numbers
    };
    let longest = Some((0, 33_783_570_000_000, 20_000));
    assert_eq!(next_of(linear, 62_562_500, 62_562_500), Ok(longest));
    let late = Numbers {
        tro: Some(41_709),
        ..numbers
    };
    assert_eq!(next_of(late, 62_562_500, 62_562_500), Err(7));
}

/// 12 is for a packet before the frame's first, 13 for one more than 600 s after
/// it; both are tried after set-up, and no sum of 64 bits goes round.
#[test]
fn refusals_of_the_next_read() {
    let numbers = narrow(4);
    let wrong = Numbers { rate: 0, ..numbers };
    let end = u64::MAX;
    for (first, arrival, refusal) in [
        (5, 5, None),
        (5, 4, Some(12)),
        (5, 5 + LONGEST_HISTORY, None),
        (5, 6 + LONGEST_HISTORY, Some(13)),
        (0, end, Some(13)),
        (end, 0, Some(12)),
        (end - LONGEST_HISTORY, end, None),
        (end - LONGEST_HISTORY - 1, end, Some(13)),
        (end - 1, 7, Some(12)),
    ] {
        assert_eq!(next_of(numbers, first, arrival).err(), refusal);
        assert_eq!(next_of(wrong, first, arrival).err(), Some(1));
    }
}

/// The last arrival is 257,893,605 grains after T_CF, and read 2 is 279,840,000
/// after it: later than any arrival.
#[test]
fn the_next_read_of_the_last_arrival() {
    let last = next_of(narrow(4), u64::MAX, u64::MAX).unwrap();
    assert_eq!(last, Some((2, 2_194_639_500, 100)));
    // At the epoch T_CF is 0, and read 0 is at TRO.
    let first = next_of(narrow(4), 0, 0).unwrap();
    assert_eq!(first, Some((0, 2_064_000_000, 100)));
}
