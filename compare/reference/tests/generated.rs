//! The generated files reach what they are meant to reach: every refusal of a
//! file, every kind and verdict, arrivals exactly on reads and drains, and
//! timestamps from both sides of a wrap and of a tie. So do the captures, what is
//! asked for the next read, and files and lists under every version, by every edition
//! and as every profile.

use std::collections::BTreeMap;

use vtiming_reference::bucket::{drain_instant, drains_by};
use vtiming_reference::capture::{Carried, Why};
use vtiming_reference::cases::{captures, cases, fixed, waits, Call, Case, ROUND};
use vtiming_reference::feed::Feed;
use vtiming_reference::fraction::Fraction;
use vtiming_reference::frame::{closed_frames, t_cf, Kind};
use vtiming_reference::generate::{as_profiles, file, under, FIRST_KIND};
use vtiming_reference::generate::{LOOKALIKES, OTHER_EDITIONS, OTHER_VERSIONS};
use vtiming_reference::generate::{OTHER_PROFILES, PROFILE_LOOKALIKES, WIDE_PROFILES};
use vtiming_reference::measure::{measure_accepted, Row};
use vtiming_reference::numbers::{GRAINS_PER_NANOSECOND, GRAINS_PER_SECOND, GRAINS_PER_TICK, WRAP};
use vtiming_reference::packet::LONGEST_HISTORY;
use vtiming_reference::random::Random;
use vtiming_reference::ranges::STATE_WORDS;
use vtiming_reference::reads::{read_instant, reading};
use vtiming_reference::record::read;
use vtiming_reference::waits::wait;
use vtiming_reference::*;

const FILES: u64 = 1500;

#[derive(Default)]
struct Seen(BTreeMap<String, u64>);

impl Seen {
    fn add(&mut self, what: &str) {
        *self.0.entry(what.to_string()).or_default() += 1;
    }
}

fn look_at_lines(seen: &mut Seen, text: &str) {
    for line in text.lines() {
        let words: Vec<&str> = line.split(' ').collect();
        match words[0] {
            "frame" => seen.add(&format!("kind {}", words[2])),
            "refused" => seen.add(&format!("refused {}", words[1])),
            _ => look_at_verdict(seen, line),
        }
    }
}

fn look_at_verdict(seen: &mut Seen, line: &str) {
    for verdict in [
        "network pass",
        "network burst 0",
        "network burst",
        "buffer none",
        "buffer pass",
        "buffer under",
        "buffer over",
        "buffer broken",
    ] {
        if line.contains(verdict) {
            seen.add(verdict);
        }
    }
}

fn look_at_ties(seen: &mut Seen, bytes: &[u8]) {
    let reading = read(EDITION_1, bytes);
    let limits = match reading.limits {
        Some(limits) => limits,
        None => return,
    };
    for packet in &reading.packets {
        let after = packet.grains() - reading.packets[0].grains();
        let k = drains_by(&limits, after);
        if k > 0 && drain_instant(&limits, k) == Fraction::whole(after) {
            seen.add("on a drain");
        }
    }
    for frame in closed_frames(&reading.packets) {
        if frame.kind(limits.period) == Kind::Whole {
            look_at_reads(seen, &limits, frame.packets);
        }
    }
}

fn look_at_reads(seen: &mut Seen, limits: &Limits, packets: &[Packet]) {
    let start = t_cf(&packets[0], limits.period);
    for (j, packet) in packets.iter().enumerate() {
        let before = Fraction::whole(packet.grains() - 27);
        let exact = Fraction::whole(packet.grains());
        let read = read_instant(limits, start, j as i128);
        if read == exact {
            seen.add("on its read");
        } else if read == before {
            seen.add("one nanosecond after its read");
        }
    }
}

#[test]
fn generated_files_reach_everything() {
    let mut seen = Seen::default();
    for index in 0..FILES {
        let bytes = file(1, index);
        look_at_lines(&mut seen, &expected_output(&bytes));
        look_at_ties(&mut seen, &bytes);
    }
    println!("{:#?}", seen.0);
    let refusals = [1, 2, 3, 4, 5, 6, 7, 11, 12, 13, 20, 21, 22, 23];
    let mut wanted: Vec<String> = refusals.iter().map(|n| format!("refused {}", n)).collect();
    wanted.extend((0..4).map(|kind| format!("kind {}", kind)));
    for other in [
        "network pass",
        "network burst",
        "network burst 0",
        "buffer none",
        "buffer pass",
        "buffer under",
        "buffer over",
        "on a drain",
        "on its read",
        "one nanosecond after its read",
    ] {
        wanted.push(other.to_string());
    }
    for what in wanted {
        assert!(seen.0.contains_key(&what), "never seen: {}", what);
    }
}

/// Every rate with every schedule and class, both ends of n and of time, and
/// first packets on and beside the half frame or the half field, where N turns over.
#[test]
fn generated_files_reach_every_stream_and_both_ends() {
    let mut seen = Seen::default();
    for index in 0..6000 {
        let reading = read(EDITION_1, &file(2110, index));
        let (numbers, limits) = match (reading.numbers, reading.limits) {
            (Some(numbers), Some(limits)) => (numbers, limits),
            _ => continue,
        };
        let Numbers {
            rate,
            schedule,
            class,
            ..
        } = numbers;
        seen.add(&format!("stream {} {} {}", rate, schedule, class));
        for packet in &reading.packets {
            match packet.arrival {
                0 => seen.add("the first nanosecond"),
                u64::MAX => seen.add("the last nanosecond"),
                _ => {}
            }
        }
        for frame in closed_frames(&reading.packets) {
            look_at_start(&mut seen, &limits, frame.packets);
        }
    }
    for rate in 1..=8 {
        for (schedule, class) in [(0, 0), (0, 1), (0, 3), (1, 0), (1, 2), (1, 3)] {
            let what = format!("stream {} {} {}", rate, schedule, class);
            assert!(seen.0.contains_key(&what), "never seen: {}", what);
        }
    }
    for what in [
        "a frame of 1",
        "a frame of 20000",
        "a field of 1",
        "a field of 10000",
        "the first nanosecond",
        "the last nanosecond",
        "on a half frame",
        "the nanosecond after a half frame",
        "the nanosecond before a half frame",
        "on a half field",
        "the nanosecond after a half field",
        "the nanosecond before a half field",
        "no packets in a frame but its marker",
        "no packets in a field but its marker",
        "reads after the next field's start",
    ] {
        assert!(seen.0.contains_key(what), "never seen: {}", what);
    }
}

fn look_at_start(seen: &mut Seen, limits: &Limits, packets: &[Packet]) {
    let what = match limits.profile {
        Profile::Interlaced => "field",
        _ => "frame",
    };
    let Period {
        length,
        packets: all,
    } = limits.period;
    if packets.len() as i128 == all && [1, 10_000, 20_000].contains(&all) {
        seen.add(&format!("a {} of {}", what, all));
    }
    if packets.len() == 1 && all > 1 {
        seen.add(&format!("no packets in a {} but its marker", what));
    }
    let start = t_cf(&packets[0], limits.period);
    let twice = 2 * (packets[0].grains() - start);
    if twice == -length {
        seen.add(&format!("on a half {}", what));
    } else if twice - 2 * 27 < -length {
        seen.add(&format!("the nanosecond after a half {}", what));
    } else if twice + 2 * 27 >= length {
        seen.add(&format!("the nanosecond before a half {}", what));
    }
    if read_instant(limits, start, all - 1) > Fraction::whole(start + length) {
        seen.add(&format!("reads after the next {}'s start", what));
    }
}

/// How many packets a frame has, as its row tells it.
fn count_of(row: &Row, n: i128) -> usize {
    match row[1] {
        1 | 2 => row[2] as usize,
        _ => n as usize,
    }
}

/// A marker comes just before the frame and one is its last packet; there is
/// none in between.
fn begins_and_ends_there(packets: &[Packet], place: usize, count: usize) -> bool {
    let (last, others) = packets[place..place + count].split_last().unwrap();
    packets[place - 1].marker == 1
        && others.iter().all(|packet| packet.marker == 0)
        && last.marker == 1
}

/// Request (ii): "the place in the history of the frame's first packet, filled
/// for broken frames too". At least one packet, the lead-in's, comes before it.
#[test]
fn the_eleventh_number_is_the_place_where_the_frame_begins() {
    let mut seen = Seen::default();
    for index in 0..FILES {
        let reading = read(EDITION_1, &file(1, index));
        let limits = match reading.limits {
            Some(limits) => limits,
            None => continue,
        };
        let mut before = 0;
        for row in measure_accepted(&limits, &reading.packets).rows {
            assert!(before < row[10] && row[10] <= 999_999_999);
            before = row[10];
            let count = count_of(&row, limits.period.packets);
            let place = row[10] as usize;
            assert!(begins_and_ends_there(&reading.packets, place, count));
            seen.add(&format!("kind {}", row[1]));
        }
    }
    assert_eq!(seen.0.len(), 4, "not of every kind: {:?}", seen.0);
}

// --- request (v) ---

/// The rows of a file's whole frames, which alone have VL, each with the first
/// packet of its frame.
fn whole_rows(seed: u64, index: u64) -> Vec<(Row, Packet)> {
    let reading = read(EDITION_1, &file(seed, index));
    let limits = match reading.limits {
        Some(limits) => limits,
        None => return vec![],
    };
    let rows = measure_accepted(&limits, &reading.packets).rows;
    rows.into_iter()
        .filter(|row| row[1] == 0)
        .map(|row| (row, reading.packets[row[10] as usize]))
        .collect()
}

/// Half of P before such an arrival is before the epoch, or half of P after it
/// is after the last arrival there is. The last wrap is among the latter.
fn end_of_time(first: &Packet) -> &'static str {
    if 2 * first.grains() < WRAP {
        "near the epoch"
    } else if 2 * (first.grains() - (GRAINS_PER_NANOSECOND << 64)) >= -WRAP {
        "near the end of 64 bits"
    } else {
        "in between"
    }
}

/// Arrival and encoded time less than a second apart, and a wrap between them.
fn side_of_a_wrap(first: &Packet, latency: i128) -> Option<&'static str> {
    let encoded = first.grains() - latency;
    match encoded.div_euclid(WRAP) - first.grains().div_euclid(WRAP) {
        _ if latency.abs() >= GRAINS_PER_SECOND => None,
        -1 => Some("stamped before a wrap and received after it"),
        1 => Some("stamped after a wrap and received before it"),
        _ => None,
    }
}

/// "VL is at least minus P/2 and below plus P/2."
fn side_of_a_tie(latency: i128) -> Option<&'static str> {
    match 2 * latency + WRAP {
        0 => Some("on a tie"),
        54 => Some("the nanosecond after a tie"),
        above if above == 2 * WRAP - 54 => Some("the nanosecond before a tie"),
        _ => None,
    }
}

fn look_at_encoded_time(seen: &mut Seen, first: &Packet, latency: i128) {
    let wrap = side_of_a_wrap(first, latency);
    for side in wrap.into_iter().chain(side_of_a_tie(latency)) {
        seen.add(&format!("{}, {}", side, end_of_time(first)));
    }
    let since_wrap = first.grains().rem_euclid(WRAP);
    match wrap {
        Some(side) if !(27..WRAP - 27).contains(&since_wrap) => {
            seen.add(&format!("{}, in the nanosecond beside it", side));
        }
        None if since_wrap == 0 && first.arrival > 0 => seen.add("exactly on a wrap"),
        _ => {}
    }
    if 2 * latency == -WRAP && since_wrap - latency >= WRAP {
        seen.add("on a tie, the later after the next wrap");
    } else if 2 * latency == -WRAP {
        seen.add("on a tie, the later before the next wrap");
    }
}

/// All that there is to see. Nothing is received before the epoch.
fn sides_and_ends() -> Vec<String> {
    let mut all = vec![
        "exactly on a wrap".to_string(),
        "on a tie, the later after the next wrap".to_string(),
        "on a tie, the later before the next wrap".to_string(),
        "stamped after a wrap and received before it, in the nanosecond beside it".to_string(),
        "stamped before a wrap and received after it, in the nanosecond beside it".to_string(),
    ];
    let ends = ["near the epoch", "in between", "near the end of 64 bits"];
    for (side, from) in [
        ("stamped before a wrap and received after it", 0),
        ("stamped after a wrap and received before it", 1),
        ("on a tie", 0),
        ("the nanosecond after a tie", 0),
        ("the nanosecond before a tie", 0),
    ] {
        all.extend(ends[from..].iter().map(|end| format!("{}, {}", side, end)));
    }
    all.sort();
    all
}

#[test]
fn generated_files_lie_on_both_sides_of_wraps_and_ties() {
    let mut seen = Seen::default();
    for (row, first) in (0..6000).flat_map(|index| whole_rows(2110, index)) {
        look_at_encoded_time(&mut seen, &first, i128::from(row[5]));
    }
    println!("{:#?}", seen.0);
    let seen: Vec<String> = seen.0.into_keys().collect();
    assert_eq!(seen, sides_and_ends());
}

/// "VL is at least minus P/2 and below plus P/2. [...] RTP_OFFSET follows as FPT
/// less VL." One encoded time alone of a timestamp is so near.
#[test]
fn every_latency_is_to_the_nearest_encoded_time() {
    for (row, first) in (0..FILES).flat_map(|index| whole_rows(1, index)) {
        let latency = i128::from(row[5]);
        assert!(-WRAP <= 2 * latency && 2 * latency < WRAP);
        let stamped = GRAINS_PER_TICK * i128::from(first.timestamp);
        assert_eq!((first.grains() - latency - stamped).rem_euclid(WRAP), 0);
        assert_eq!(row[4], row[3] - row[5]);
    }
}

/// "a figure for the graph above 2^53 in size": of FPT, margin and VL of a row
/// none is.
#[test]
fn the_graph_takes_every_whole_row() {
    let rows: Vec<(Row, Packet)> = (0..FILES).flat_map(|index| whole_rows(1, index)).collect();
    assert!(!rows.is_empty());
    for (row, _) in rows {
        assert!(graph(row[3], row[6], row[5]).is_ok());
    }
}

#[test]
fn a_file_is_the_same_each_time() {
    for index in 0..50 {
        assert_eq!(file(7, index), file(7, index));
    }
    assert!((0..50).any(|index| file(7, index) != file(8, index)));
}

#[test]
fn what_is_read_is_written_back_byte_for_byte() {
    for index in 0..300 {
        let bytes = file(3, index);
        if let Ok((version, numbers, packets)) = parse(&bytes) {
            assert_eq!(write(version, &numbers, &packets), bytes);
        }
    }
}

/// "If a list fails at a packet by 11 to 14, the first refused call of any
/// cutting names the same number and place, given room"; and rows come out
/// once, in the call that closes them.
#[test]
fn cutting_the_list_changes_nothing() {
    for index in 0..400 {
        let reading = read(EDITION_1, &file(4, index));
        let numbers = match reading.numbers {
            Some(numbers) if reading.packets.len() <= 300 => numbers,
            _ => continue,
        };
        let whole = measure(EDITION_1, &numbers, &reading.packets).unwrap();
        let cut = reading.packets.len() * (index as usize % 5) / 4;
        let cut = cut.min(reading.packets.len());
        let (front, back) = reading.packets.split_at(cut);
        let arrivals: Vec<u64> = back.iter().map(|p| p.arrival).collect();
        let timestamps: Vec<u32> = back.iter().map(|p| p.timestamp).collect();
        let markers: Vec<u8> = back.iter().map(|p| p.marker).collect();
        let lists = (&arrivals[..], &timestamps[..], &markers[..]);
        let answer = call(EDITION_1, &numbers, front, lists, usize::MAX).unwrap();
        let before = measure(EDITION_1, &numbers, front).unwrap();
        assert_eq!([before.rows, answer.rows].concat(), whole.rows);
        assert_eq!(answer.after, whole);
    }
}

// --- request (xiii) ---

/// "All that counts reads is built on it; levels and least stay as they are": as
/// many reads are over before a packet as its level says. Until read 0 a packet
/// waits for that one: the first packet for its margin.
#[test]
fn next_reads_agree_with_levels_and_margins() {
    let mut seen = Seen::default();
    for index in 0..FILES {
        let reading = read(EDITION_1, &file(1, index));
        let numbers = match reading.numbers {
            Some(numbers) if numbers.packets_per_frame <= 64 => numbers,
            _ => continue,
        };
        let limits = set_up(EDITION_1, &numbers).unwrap();
        for frame in closed_frames(&reading.packets) {
            if frame.kind(limits.period) == Kind::Whole {
                look_at_levels(&mut seen, &numbers, &limits, frame.packets);
            }
        }
    }
    for what in ["left", "none left", "until read 0"] {
        assert!(seen.0.contains_key(what), "never seen: {}", what);
    }
}

fn look_at_levels(seen: &mut Seen, numbers: &Numbers, limits: &Limits, packets: &[Packet]) {
    let start = t_cf(&packets[0], limits.period);
    let levels = reading(limits, start, packets).levels;
    for (j, packet) in packets.iter().enumerate() {
        let next = next_read(&Wait {
            numbers: *numbers,
            first: packets[0].arrival,
            arrival: packet.arrival,
        });
        let next = next.expect("these packets are accepted");
        seen.add(if next.is_some() { "left" } else { "none left" });
        let over = next.map_or(limits.period.packets, |next| next.read);
        assert_eq!(levels[j], j as i128 + 1 - over);
        let to_read_0 = start + limits.tro - packet.grains();
        if to_read_0 >= 0 {
            seen.add("until read 0");
            let next = next.expect("read 0 is left");
            assert_eq!(next.numerator, to_read_0 * next.denominator);
        }
    }
}

/// What is seen of one wait: its refusal; or which reads its arrival lies by, and
/// what is special of the two arrivals.
fn look_at_wait(seen: &mut Seen, wait: &Wait) {
    match next_read(wait) {
        Err(number) => seen.add(&format!("refused {}", number)),
        Ok(next) => {
            let limits = set_up(EDITION_1, &wait.numbers).unwrap();
            look_at_next(seen, next, limits.period.packets - 1);
            look_at_over(seen, wait, &limits, next);
            look_at_arrivals(seen, wait);
        }
    }
}

fn look_at_next(seen: &mut Seen, next: Option<NextRead>, last: i128) {
    let next = match next {
        Some(next) => next,
        None => return seen.add("none left"),
    };
    let which = match next.read {
        0 => "read 0",
        j if j == last => "the last read",
        _ => "a read between",
    };
    if next.numerator == 0 {
        seen.add(&format!("on {}", which));
    } else {
        seen.add(&format!("before {}", which));
        if next.numerator <= 27 * next.denominator {
            seen.add("at most a nanosecond before a read");
        }
    }
}

/// The read before, which is over, and the last one.
fn look_at_over(seen: &mut Seen, wait: &Wait, limits: &Limits, next: Option<NextRead>) {
    let start = t_cf(&Packet::new(wait.first, 0, 0), limits.period);
    let arrival = Packet::new(wait.arrival, 0, 0).grains();
    let read = |j| read_instant(limits, start, j);
    let reads = limits.period.packets;
    let over = next.map_or(reads, |next| next.read);
    if over > 0 && read(over - 1) >= Fraction::whole(arrival - 27) {
        seen.add(match next {
            Some(_) => "at most a nanosecond after a read",
            None => "none left, at most a nanosecond after the last",
        });
    }
    if Fraction::whole(arrival - limits.frame) >= read(reads - 1) {
        seen.add("none left, a frame or more after the last");
    }
}

fn look_at_arrivals(seen: &mut Seen, wait: &Wait) {
    for (holds, what) in [
        (wait.first == wait.arrival, "the first packet itself"),
        (wait.arrival == 0, "the first nanosecond"),
        (wait.arrival == u64::MAX, "the last nanosecond"),
        (wait.arrival - wait.first == LONGEST_HISTORY, "600 s after"),
    ] {
        if holds {
            seen.add(what);
        }
    }
}

/// All that there is to see.
fn everything_of_waits() -> Vec<String> {
    let mut all: Vec<String> = [
        "before read 0",
        "before a read between",
        "before the last read",
        "on read 0",
        "on a read between",
        "on the last read",
        "none left",
        "at most a nanosecond before a read",
        "at most a nanosecond after a read",
        "none left, at most a nanosecond after the last",
        "none left, a frame or more after the last",
        "the first packet itself",
        "the first nanosecond",
        "the last nanosecond",
        "600 s after",
    ]
    .map(str::to_string)
    .to_vec();
    let refusals = [1, 2, 3, 4, 5, 6, 7, 12, 13];
    all.extend(refusals.iter().map(|number| format!("refused {}", number)));
    all.sort();
    all
}

/// The fixed waits reach all of it as every profile, so that nothing depends on the
/// seed; and generated ones reach it too.
#[test]
fn waits_reach_everything() {
    let generated: Vec<Wait> = (0..3000)
        .map(|index| wait(&mut Random::new(2110, index)))
        .collect();
    for waits in [waits(), generated] {
        for profile in PROFILES {
            let mut seen = Seen::default();
            for wait in &waits {
                look_at_wait(&mut seen, &wait.of(profile));
            }
            println!("{:#?}", seen.0);
            let seen: Vec<String> = seen.0.into_keys().collect();
            assert_eq!(seen, everything_of_waits());
        }
    }
}

/// What is compressed has no reads, and is answered as video is; an interlaced stream
/// has others.
#[test]
fn waits_of_the_profiles_are_answered_by_their_reads() {
    let mut others = 0;
    for wait in waits() {
        let [video, compressed, interlaced] = PROFILES.map(|profile| next_read(&wait.of(profile)));
        assert_eq!(video, compressed);
        others += i32::from(interlaced.is_ok() && interlaced != video);
    }
    assert!(others > 2000, "{}", others);
}

/// Every rate with both schedules, small n and great, and a TRO that is default
/// or given: before read 0, between reads and after the last; and on read 0,
/// where TRO is whole nanoseconds. Of fields n is even and TRO given.
#[test]
fn fixed_waits_reach_every_stream() {
    let mut seen = Seen::default();
    for wait in waits() {
        let Numbers { rate, schedule, .. } = wait.numbers;
        let n = wait.numbers.packets_per_frame;
        let tro = match (wait.numbers.profile, wait.numbers.tro) {
            (INTERLACED, _) => "fields",
            (_, Some(_)) => "given",
            (_, None) => "default",
        };
        let place = match next_read(&wait) {
            Err(_) => continue,
            Ok(None) => "after",
            Ok(Some(next)) if next.read > 0 => "between",
            Ok(Some(next)) if next.numerator > 0 => "before",
            Ok(Some(_)) => "on read 0",
        };
        seen.add(&format!("{} {} {} {} {}", rate, schedule, n, tro, place));
    }
    for rate in 1..=8 {
        for schedule in 0..=1 {
            let of_frames = [1, 2, 3, 8, 4320, 20_000].into_iter();
            let mut streams: Vec<(u64, &str, bool)> = of_frames
                .flat_map(|n| [(n, "default", n > 1), (n, "given", n > 1)])
                .collect();
            streams.extend([2, 4, 6, 4320, 20_000].map(|n| (n, "fields", n > 2)));
            for (n, tro, several) in streams {
                let stream = format!("{} {} {} {}", rate, schedule, n, tro);
                let mut places = vec!["before", "after"];
                places.extend(several.then_some("between"));
                places.extend((tro != "default").then_some("on read 0"));
                for place in places {
                    let what = format!("{} {}", stream, place);
                    assert!(seen.0.contains_key(&what), "never seen: {}", what);
                }
            }
        }
    }
}

/// 15 is given below three numbers, after all else; a refusal before it is given
/// with no room too.
#[test]
fn two_numbers_and_three_are_lent_for_a_next_read() {
    let mut seen = Seen::default();
    for case in fixed_cases() {
        if let Call::NextRead(_) = case.call {
            for room in &case.rooms {
                seen.add(&format!("{} for {}", room.number, room.lent.min(4)));
            }
        }
    }
    let mut wanted: Vec<String> = (0..3).map(|lent| format!("15 for {}", lent)).collect();
    wanted.extend(["0 for 3", "0 for 4"].map(str::to_string));
    for number in [1, 2, 3, 4, 5, 6, 7, 12, 13, 22] {
        wanted.extend([0, 4].map(|lent| format!("{} for {}", number, lent)));
    }
    wanted.sort();
    let seen: Vec<String> = seen.0.into_keys().collect();
    assert_eq!(seen, wanted);
}

// --- captures ---

/// What a capture shows: its magic and order, why frames are skipped, which
/// parts those have that are handed on, refusals, kinds and verdicts.
fn look_at_capture(seen: &mut Seen, asked: &Asked, bytes: &[u8]) {
    look_at_lines(seen, &expected_capture_output(asked, bytes));
    let reading = capture::read(asked, bytes);
    for record in &reading.records {
        match record.read {
            Err(why) => seen.add(&format!("skipped: {:?}", why)),
            Ok((_, carried)) => look_at_parts(seen, &carried, record.end - record.begin),
        }
    }
    if !reading.records.is_empty() {
        seen.add(&format!("magic {:02x?}", &bytes[..4]));
    }
    match bytes.len() {
        0 => seen.add("nothing at all"),
        1..=23 => seen.add("less than a header"),
        24 => seen.add("a header alone"),
        _ => {}
    }
}

fn look_at_parts(seen: &mut Seen, carried: &Carried, length: usize) {
    for (has, what) in [
        (carried.tagged, "a tag"),
        (carried.options, "options"),
        (carried.contributors, "contributors"),
        (carried.extension, "an extension"),
        (length >= 262_140, "65,535 words"),
    ] {
        if has {
            seen.add(&format!("handed on with {}", what));
        }
    }
}

/// All of it, as a debug print has the reasons and the magics.
fn everything_of_captures() -> Vec<String> {
    let mut all: Vec<String> = [
        "nothing at all",
        "less than a header",
        "a header alone",
        "handed on with a tag",
        "handed on with options",
        "handed on with contributors",
        "handed on with an extension",
        "handed on with 65,535 words",
        "network pass",
        "network burst",
        "network burst 0",
        "buffer none",
        "buffer pass",
        "buffer under",
        "buffer over",
        "buffer broken",
    ]
    .map(str::to_string)
    .to_vec();
    for magic in [
        "a1, b2, c3, d4",
        "d4, c3, b2, a1",
        "a1, b2, 3c, 4d",
        "4d, 3c, b2, a1",
    ] {
        all.push(format!("magic [{}]", magic));
    }
    all.extend((0..4).map(|kind| format!("kind {}", kind)));
    let refusals = [1, 2, 3, 4, 5, 6, 7, 8, 12, 13, 22, 30, 31, 32, 33];
    all.extend(refusals.iter().map(|number| format!("refused {}", number)));
    all.extend(REASONS.iter().map(|why| format!("skipped: {:?}", why)));
    all.sort();
    all
}

const REASONS: [Why; 16] = [
    Why::EthernetCut,
    Why::TagCut,
    Why::OtherType,
    Why::IpCut,
    Why::IpVersion,
    Why::IpWords,
    Why::OptionsCut,
    Why::Protocol,
    Why::Fragment,
    Why::UdpCut,
    Why::RtpCut,
    Why::RtpVersion,
    Why::ContributorsCut,
    Why::ExtensionCut,
    Why::ExtensionWordsCut,
    Why::Port,
];

/// The fixed captures reach all of it, so that nothing depends on the seed; and
/// generated ones reach it too.
#[test]
fn captures_reach_everything() {
    let mut seen = Seen::default();
    for (asked, bytes) in captures() {
        for (edition, profile) in [(1, 1), (2, 1), (3, 1), (2, 3), (2, 4), (1, 5)] {
            look_at_capture(&mut seen, &asked.by(edition).of(profile), &bytes);
        }
    }
    let fixed: Vec<String> = seen.0.into_keys().collect();
    assert_eq!(fixed, everything_of_captures());
    let mut seen = Seen::default();
    for index in 0..10_000 {
        let (asked, bytes) = traffic::capture(2110, index);
        look_at_capture(&mut seen, &asked, &bytes);
    }
    println!("{:#?}", seen.0);
    let generated: Vec<String> = seen.0.into_keys().collect();
    assert_eq!(generated, everything_of_captures());
}

/// Of the captures that a run of the comparison makes as many are accepted as
/// are not, nearly; else it would try one side alone.
#[test]
fn generated_captures_are_accepted_and_refused() {
    let mut accepted = 0;
    for index in 0..1000 {
        let (asked, bytes) = traffic::capture(4, index);
        assert_eq!((asked, bytes.clone()), traffic::capture(4, index));
        accepted += i32::from(capture::read(&asked, &bytes).refusal.is_none());
    }
    assert!((400..800).contains(&accepted), "{} accepted", accepted);
}

// --- the cases for the C host ---

fn fixed_cases() -> Vec<Case> {
    fixed().into_iter().flatten().collect()
}

fn name_of(call: &Call) -> &'static str {
    match call {
        Call::Measure { .. } => "measure",
        Call::Write { .. } => "write",
        Call::Limits(_) => "limits",
        Call::Graph { .. } => "graph",
        Call::SetUp { .. } => "set-up",
        Call::Feed { .. } => "feed",
        Call::Capture { .. } => "capture",
        Call::NextRead(_) => "next-read",
    }
}

fn answers_of(cases: &[Case]) -> BTreeMap<String, u64> {
    let mut seen = Seen::default();
    for case in cases {
        for room in &case.rooms {
            seen.add(&format!("{} {}", name_of(&case.call), room.number));
        }
        if let Call::Feed { calls, .. } = &case.call {
            for feed in calls {
                seen.add(&format!("feed {}", feed.number));
            }
        }
    }
    seen.0
}

fn reach_every_answer(cases: &[Case]) {
    let answers = answers_of(cases);
    let wanted: [(&str, &[u8]); 8] = [
        (
            "measure",
            &[0, 1, 2, 3, 4, 5, 6, 7, 8, 11, 12, 13, 15, 20, 21, 22, 23],
        ),
        (
            "write",
            &[0, 1, 2, 3, 4, 5, 6, 7, 10, 11, 12, 13, 20, 22, 24],
        ),
        ("limits", &[0, 1, 2, 3, 4, 5, 6, 7, 15, 22]),
        ("graph", &[0, 15, 16]),
        ("set-up", &[0, 1, 2, 3, 4, 5, 6, 7, 8, 15, 22]),
        ("feed", &[0, 9, 10, 11, 12, 13, 14, 15]),
        (
            "capture",
            &[0, 1, 2, 3, 4, 5, 6, 7, 8, 12, 13, 15, 22, 30, 31, 32, 33],
        ),
        ("next-read", &[0, 1, 2, 3, 4, 5, 6, 7, 12, 13, 15, 22]),
    ];
    for (call, numbers) in wanted {
        for number in numbers {
            let what = format!("{} {}", call, number);
            assert!(answers.contains_key(&what), "never seen: {}", what);
        }
        let other = |what: &&String| what.starts_with(&format!("{} ", call));
        assert_eq!(
            answers.keys().filter(other).count(),
            numbers.len(),
            "{}",
            call
        );
    }
}

/// What the host counts must not depend on the seed, so the fixed cases alone
/// reach it all; and generated ones reach it too.
#[test]
fn the_cases_reach_every_answer_of_every_call() {
    reach_every_answer(&fixed_cases());
    let generated: Vec<Case> = (0..200 * ROUND).flat_map(|i| cases(2, i)).collect();
    reach_every_answer(&generated);
}

#[test]
fn the_fixed_files_reach_every_kind_and_verdict() {
    let mut seen = Seen::default();
    for case in fixed_cases() {
        if let Call::Measure { file, .. } = &case.call {
            look_at_lines(&mut seen, &expected_output(file));
        }
    }
    for what in [
        "kind 0",
        "kind 1",
        "kind 2",
        "kind 3",
        "network pass",
        "network burst",
        "buffer none",
        "buffer pass",
        "buffer under",
        "buffer over",
    ] {
        assert!(seen.0.contains_key(what), "never seen: {}", what);
    }
}

// --- request (viii) ---

/// The version byte of a file, or the version that lists are to be written as.
fn version_of(call: &Call) -> Option<u8> {
    match call {
        Call::Measure { file, .. } => file.first().copied(),
        Call::Write { version, .. } => Some(*version),
        _ => None,
    }
}

/// The edition of a call that takes one.
fn edition_of(call: &Call) -> Option<u32> {
    match call {
        Call::Measure { edition, .. } | Call::SetUp { edition, .. } => Some(*edition),
        Call::Feed { edition, .. } => Some(*edition),
        Call::Capture { asked, .. } => Some(asked.edition),
        _ => None,
    }
}

/// The profile of a call that takes one; of a file the kind of its first record, if
/// that is one of parameters.
fn profile_of(call: &Call) -> Option<u64> {
    match call {
        Call::Measure { file, .. } => {
            let kind = file.get(FIRST_KIND).map(|kind| u64::from(*kind));
            kind.filter(|kind| PROFILES.contains(kind))
        }
        Call::Write { numbers, .. } | Call::SetUp { numbers, .. } => Some(numbers.profile),
        Call::Feed { numbers, .. } | Call::Limits(numbers) => Some(numbers.profile),
        Call::NextRead(wait) => Some(wait.numbers.profile),
        Call::Capture { asked, .. } => Some(asked.numbers.profile),
        Call::Graph { .. } => None,
    }
}

/// The same call, as another profile.
fn as_profile(call: &Call, profile: u64) -> Call {
    let mut other = call.clone();
    match &mut other {
        Call::Measure { file, .. } => file[FIRST_KIND] = profile as u8,
        Call::Write { numbers, .. } | Call::SetUp { numbers, .. } => numbers.profile = profile,
        Call::Capture { asked, .. } => asked.numbers.profile = profile,
        Call::Limits(numbers) => numbers.profile = profile,
        Call::NextRead(wait) => wait.numbers.profile = profile,
        _ => unreachable!("no other call is the same as another profile"),
    }
    other
}

/// The same call, under another version.
fn in_version(call: &Call, version: u8) -> Call {
    let mut other = call.clone();
    match &mut other {
        Call::Measure { file, .. } => file[0] = version,
        Call::Write { version: asked, .. } => *asked = version,
        _ => unreachable!("no other call has a version"),
    }
    other
}

/// The same call, by another edition.
fn by_edition(call: &Call, by: u32) -> Call {
    let mut other = call.clone();
    match &mut other {
        Call::Measure { edition, .. } | Call::SetUp { edition, .. } => *edition = by,
        Call::Capture { asked, .. } => asked.edition = by,
        _ => unreachable!("no other call is the same by another edition"),
    }
    other
}

/// Under which version, by which edition and as which profile a case comes.
#[derive(Clone, Copy, Debug, PartialEq, Eq)]
struct Tried {
    version: Option<u8>,
    edition: Option<u32>,
    profile: Option<u64>,
}

fn tried(case: &Case) -> Tried {
    Tried {
        version: version_of(&case.call),
        edition: edition_of(&case.call),
        profile: profile_of(&case.call),
    }
}

/// The first call of an input, as it is tried otherwise.
fn as_tried(first: &Call, tried: &Tried) -> Call {
    let mut call = first.clone();
    if let Some(version) = tried.version {
        call = in_version(&call, version);
    }
    if let Some(edition) = tried.edition {
        call = by_edition(&call, edition);
    }
    if let Some(profile) = tried.profile {
        call = as_profile(&call, profile);
    }
    call
}

/// How an input that has a version is tried; it comes under versions 1 and 2 and then
/// under others, and is else the same.
fn versions_of(input: &[Case]) -> Vec<Tried> {
    let first = version_of(&input[0].call);
    if !matches!(first, Some(1 | 2)) {
        return vec![];
    }
    let all: Vec<Tried> = input.iter().map(tried).collect();
    for (case, tried) in input.iter().zip(&all) {
        assert_eq!(case.call, as_tried(&input[0].call, tried));
    }
    all
}

/// The case of an input in that version, as video, by edition 1 if it takes any.
fn case_in(input: &[Case], version: u8) -> &Case {
    let wanted = |case: &&Case| {
        let tried = tried(case);
        matches!(tried.edition, None | Some(EDITION_1))
            && matches!(tried.profile, None | Some(VIDEO))
            && tried.version == Some(version)
    };
    let found = input.iter().find(wanted);
    found.expect("every input of a version has both")
}

fn is_other_version(version: u8) -> bool {
    version != 1 && version != 2
}

fn is_other_edition(edition: u32) -> bool {
    !EDITIONS.contains(&edition)
}

fn is_other_profile(profile: u64) -> bool {
    !PROFILES.contains(&profile)
}

/// The fixed inputs, and some generated ones; and whether an input is fixed.
fn all_inputs(seed: u64) -> Vec<(bool, Vec<Case>)> {
    let generated = (0..100 * ROUND).map(|index| (false, cases(seed, index)));
    let fixed = fixed().into_iter().map(|input| (true, input));
    fixed.chain(generated).collect()
}

fn sort_of(fixed: bool) -> &'static str {
    if fixed {
        "fixed"
    } else {
        "generated"
    }
}

/// What an input that is not video comes with, of the two that there are: as compressed
/// and then as interlaced with both, or with one.
fn beside_video<T: PartialEq>(fixed: bool, all: &[(T, u64)]) {
    let each = if fixed { 2 } else { 1 };
    assert_eq!(all.len(), 2 * each);
    for (place, (_, profile)) in all.iter().enumerate() {
        assert_eq!(*profile, [COMPRESSED, INTERLACED][place / each]);
    }
    assert!(!fixed || (all[0].0 != all[1].0 && all[2].0 != all[3].0));
}

/// Lists are to be written as video in both versions, and as compressed and as
/// interlaced in both or in one; then in versions and as profiles that there are not.
fn look_at_written(seen: &mut Seen, fixed: bool, all: &[Tried]) {
    let asked: Vec<(u8, u64)> = all
        .iter()
        .map(|tried| (tried.version.unwrap(), tried.profile.unwrap()))
        .collect();
    let (beside, versions) = if fixed { (4, 3) } else { (2, 1) };
    assert_eq!(asked.len(), if fixed { 14 } else { 6 });
    assert_eq!(asked[..2], [(1, VIDEO), (2, VIDEO)]);
    let (good, others) = asked[2..].split_at(beside);
    beside_video(fixed, good);
    for (version, profile) in good {
        assert!(!is_other_version(*version));
        seen.add(&format!("{} {} in {}", sort_of(fixed), profile, version));
    }
    let (by_20, by_22) = others.split_at(versions);
    assert!(by_20.iter().all(|(version, _)| is_other_version(*version)));
    assert!(by_22
        .iter()
        .all(|(version, profile)| { !is_other_version(*version) && is_other_profile(*profile) }));
    let versions: Vec<u8> = by_20.iter().map(|(version, _)| *version).collect();
    let profiles: Vec<u64> = by_22.iter().map(|(_, profile)| *profile).collect();
    assert!(!fixed || versions == OTHER_VERSIONS);
    assert!(!fixed || profiles[..4] == OTHER_PROFILES);
    assert!(!fixed || PROFILE_LOOKALIKES.contains(&profiles[4]));
    for (version, profile) in others {
        let of = (version.clamp(&0, &3), profile.clamp(&0, &5));
        let sort = sort_of(fixed);
        seen.add(&format!("{} list version {} as {}", sort, of.0, of.1));
    }
}

/// A file is measured as video in both versions by both editions; as compressed and as
/// interlaced in both versions, by both editions or by one, if its first record is one
/// of parameters; then in versions and by editions that there are not.
fn look_at_measured(seen: &mut Seen, fixed: bool, all: &[Tried]) {
    let asked: Vec<(u8, u32)> = all
        .iter()
        .map(|tried| (tried.version.unwrap(), tried.edition.unwrap()))
        .collect();
    // Of each of the other two profiles.
    let each = match (all[0].profile, fixed) {
        (None, _) => 0,
        (_, true) => 4,
        (_, false) => 2,
    };
    let good = 4 + 2 * each;
    let (versions, editions) = if fixed { (3, 5) } else { (1, 1) };
    assert_eq!(asked.len(), good + versions + editions);
    assert_eq!(asked[..4], [(1, 1), (1, 2), (2, 1), (2, 2)]);
    for (place, tried) in all[..good].iter().enumerate() {
        let profile = match place {
            0..=3 => VIDEO,
            _ if place < 4 + each => COMPRESSED,
            _ => INTERLACED,
        };
        assert!(tried.profile.map_or(each == 0, |own| own == profile));
        let (version, edition) = asked[place];
        assert!(!is_other_version(version) && !is_other_edition(edition));
        let sort = sort_of(fixed);
        seen.add(&format!(
            "{} {} in {} by {}",
            sort, profile, version, edition
        ));
        // Nothing comes twice.
        assert!(!all[..place].contains(tried));
    }
    let others = &asked[good..];
    let (by_20, by_8) = others.split_at(versions);
    assert!(by_20.iter().all(|(version, _)| is_other_version(*version)));
    assert!(by_8
        .iter()
        .all(|(version, edition)| { !is_other_version(*version) && is_other_edition(*edition) }));
    let versions: Vec<u8> = by_20.iter().map(|(version, _)| *version).collect();
    assert!(!fixed || versions == OTHER_VERSIONS);
    for (tried, (version, edition)) in all[good..].iter().zip(others) {
        let (sort, of) = (sort_of(fixed), version.clamp(&0, &3));
        let by = edition.clamp(&0, &3);
        seen.add(&format!("{} version {} by {}", sort, of, by));
        if let Some(profile) = tried.profile {
            seen.add(&format!("{} version {} as {}", sort, of, profile));
        }
    }
}

/// A version that there is not is tried by all sorts of editions and as all sorts of
/// profiles, an edition or a profile that there is not in both versions; and what is
/// compressed or interlaced in both, by both.
const TRIED_IN_VERSIONS: [&str; 36] = [
    "version 0 by 0",
    "version 3 by 1",
    "version 3 by 2",
    "version 3 by 3",
    "version 1 by 3",
    "version 2 by 3",
    "version 1 by 0",
    "version 2 by 0",
    "version 0 as 1",
    "version 0 as 3",
    "version 0 as 4",
    "version 1 as 3",
    "version 1 as 4",
    "version 2 as 1",
    "version 2 as 4",
    "list version 0 as 0",
    "list version 3 as 1",
    "list version 3 as 3",
    "list version 3 as 4",
    "list version 3 as 5",
    "list version 1 as 0",
    "list version 2 as 2",
    "list version 1 as 5",
    "list version 2 as 5",
    "3 in 1",
    "3 in 2",
    "4 in 1",
    "4 in 2",
    "3 in 1 by 1",
    "3 in 1 by 2",
    "3 in 2 by 1",
    "3 in 2 by 2",
    "4 in 1 by 1",
    "4 in 1 by 2",
    "4 in 2 by 1",
    "4 in 2 by 2",
];

/// Every file that has a version, and all lists: the fixed ones under 1, 2, 0, 3
/// and 255, the generated ones under 1, 2 and one that there is not.
#[test]
fn every_file_and_every_list_is_tried_in_both_versions() {
    let mut seen = Seen::default();
    for (fixed, input) in all_inputs(2) {
        let tried = versions_of(&input);
        let name = name_of(&input[0].call);
        if tried.is_empty() {
            continue;
        }
        seen.add(&format!("{} {}", sort_of(fixed), name));
        if name == "write" {
            look_at_written(&mut seen, fixed, &tried);
        } else {
            look_at_measured(&mut seen, fixed, &tried);
        }
    }
    // Of 1,200 files some are empty or of no version; of lists there are 400.
    assert!(seen.0["generated measure"] > 1000);
    assert_eq!(seen.0["generated write"], 400);
    assert!(seen.0["fixed measure"] > 500 && seen.0["fixed write"] > 200);
    for what in TRIED_IN_VERSIONS {
        for sort in ["fixed", "generated"] {
            let what = format!("{} {}", sort, what);
            assert!(seen.0.contains_key(&what), "never seen: {}", what);
        }
    }
}

/// What else is wrong with inputs that come under a version that there is not,
/// as version 2 has it: each such case is refused by 20, at 0.
fn look_at_faults(seen: &mut Seen, input: &[Case]) {
    if versions_of(input).is_empty() {
        return;
    }
    let name = name_of(&input[0].call);
    let other = |case: &&Case| is_other_version(version_of(&case.call).unwrap());
    for case in input.iter().filter(other) {
        assert!(case.filled.is_empty() && case.measured.is_empty());
        assert!(case.rooms.iter().any(|room| room.lent == 0));
        assert!(case.rooms.iter().any(|room| room.lent >= 1000));
        for room in &case.rooms {
            assert_eq!((room.number, room.place), (20, 0));
        }
        for room in &case_in(input, 2).rooms {
            seen.add(&format!("{} {}", name, room.number));
        }
        if edition_of(&case.call).map_or(false, is_other_edition) {
            seen.add(&format!("{} 8", name));
        }
        if profile_of(&case.call).map_or(false, is_other_profile) {
            seen.add(&format!("{} 22", name));
        }
    }
}

/// 20 "is given, first of all": tried with every other fault, by the fixed inputs
/// alone and by generated ones.
#[test]
fn other_versions_are_tried_with_every_other_fault() {
    let of_files = [0, 1, 2, 3, 4, 5, 6, 7, 8, 11, 12, 13, 15, 21, 22, 23];
    let of_lists = [0, 1, 2, 3, 4, 5, 6, 7, 10, 11, 12, 13, 22, 24];
    let named = |name, number: &i32| format!("{} {}", name, number);
    let mut wanted: Vec<String> = of_files.iter().map(|n| named("measure", n)).collect();
    wanted.extend(of_lists.iter().map(|n| named("write", n)));
    wanted.sort();
    let generated = (0..100 * ROUND).map(|index| cases(3, index)).collect();
    for inputs in [fixed(), generated] {
        let mut seen = Seen::default();
        inputs
            .iter()
            .for_each(|input| look_at_faults(&mut seen, input));
        let seen: Vec<String> = seen.0.into_keys().collect();
        assert_eq!(seen, wanted);
    }
}

/// Generated files have every version too, so that the program meets them.
#[test]
fn generated_files_have_versions_of_every_sort() {
    let files: Vec<Vec<u8>> = (0..FILES).map(|index| file(2110, index)).collect();
    let count = |version| files.iter().filter(|f| f.first() == Some(&version)).count();
    assert!(count(1) > 500 && count(2) > 500);
    for version in OTHER_VERSIONS {
        assert!(count(version) > 0, "never seen: {}", version);
    }
    let other = |file: &&Vec<u8>| (4..255).contains(&file.first().copied().unwrap_or(0));
    assert!(files.iter().any(|file| other(&file)));
}

/// The network and the buffer answer of what a case fills in or, of a file that
/// is written, of what is measured then.
fn answers_filled(case: &Case) -> Option<(u8, u8)> {
    let filled = match case.call {
        Call::Write { .. } => &case.measured,
        _ => &case.filled,
    };
    // Numbers 3 and 6, of 8 bytes each.
    (filled.len() >= 72).then(|| (filled[31], filled[55]))
}

/// Schedule and class of a file that is accepted, or of lists.
fn stream_of(call: &Call) -> Option<(u64, u64)> {
    let numbers = match call {
        Call::Measure { file, .. } => parse(file).ok()?.1,
        Call::Write { numbers, .. } => *numbers,
        _ => return None,
    };
    Some((numbers.schedule, numbers.class))
}

/// Files of class 0 that pass in version 1 and not in version 2; where the class
/// is another, both versions have one answer.
fn look_at_meaning(seen: &mut Seen, input: &[Case]) {
    if versions_of(input).is_empty() {
        return;
    }
    let answers = [1, 2].map(|version| answers_filled(case_in(input, version)));
    let (in_1, in_2) = match answers {
        [Some(in_1), Some(in_2)] => (in_1, in_2),
        _ => return,
    };
    let (schedule, class) = stream_of(&input[0].call).expect("it is accepted");
    assert!(class == 0 || in_1 == in_2);
    let what = format!("{} {}", name_of(&input[0].call), schedule);
    if (in_1.0, in_2.0) == (0, 1) {
        seen.add(&format!("{} bursts", what));
    }
    if (in_1.1, in_2.1) == (1, 3) {
        seen.add(&format!("{} overflows", what));
    }
}

/// On both schedules, read and written, by the fixed inputs alone and by generated
/// ones: else the comparison would not see what class 0 means.
#[test]
fn what_class_0_means_shows_in_the_cases() {
    let mut wanted = vec![];
    for name in ["measure", "write"] {
        for schedule in 0..=1 {
            for what in ["bursts", "overflows"] {
                wanted.push(format!("{} {} {}", name, schedule, what));
            }
        }
    }
    let generated = (0..100 * ROUND).map(|index| cases(4, index)).collect();
    for inputs in [fixed(), generated] {
        let mut seen = Seen::default();
        inputs
            .iter()
            .for_each(|input| look_at_meaning(&mut seen, input));
        println!("{:#?}", seen.0);
        let seen: Vec<String> = seen.0.into_keys().collect();
        assert_eq!(seen, wanted);
    }
}

// --- request (vi) ---

/// By which editions and as which profiles an input without a version comes: as video
/// by both, as compressed and as interlaced by both or by one, then by editions and as
/// profiles that there are not.
fn look_at_by(seen: &mut Seen, what: &str, fixed: bool, by: &[(u32, u64)]) {
    let (beside, others) = if fixed { (4, 5) } else { (2, 1) };
    assert_eq!(by.len(), 2 + beside + 2 * others);
    assert_eq!(by[..2], [(EDITION_1, VIDEO), (EDITION_2, VIDEO)]);
    let (good, rest) = by[2..].split_at(beside);
    beside_video(fixed, good);
    for (edition, profile) in good {
        assert!(!is_other_edition(*edition));
        seen.add(&format!("{} as {} by {}", what, profile, edition));
    }
    let (by_8, by_22) = rest.split_at(others);
    assert!(by_8
        .iter()
        .all(|(edition, profile)| { is_other_edition(*edition) && !is_other_profile(*profile) }));
    assert!(by_22.iter().all(|(_, profile)| is_other_profile(*profile)));
    let editions: Vec<u32> = by_8.iter().map(|(edition, _)| *edition).collect();
    let profiles: Vec<u64> = by_22.iter().map(|(_, profile)| *profile).collect();
    if fixed {
        assert!(editions[..4] == OTHER_EDITIONS && LOOKALIKES.contains(&editions[4]));
        assert!(profiles[..4] == OTHER_PROFILES && PROFILE_LOOKALIKES.contains(&profiles[4]));
    }
}

/// A list that is fed has its numbers set up by what is refused, and as interlaced
/// where that is.
fn look_at_fed(seen: &mut Seen, fixed: bool, input: &[Case]) {
    let good = if fixed { 6 } else { 4 };
    let video = match &input[0].call {
        Call::Feed { numbers, .. } => *numbers,
        _ => unreachable!("it is fed"),
    };
    for case in &input[..good] {
        let profile = profile_of(&case.call).unwrap();
        let same = |numbers: &Numbers| *numbers == video.of(profile);
        let fed = matches!(&case.call, Call::Feed { numbers, .. } if same(numbers));
        assert_eq!(fed, set_up(EDITION_1, &video.of(profile)).is_ok());
        assert!(fed || profile == INTERLACED);
        seen.add(&format!("{} fed as {}: {}", sort_of(fixed), profile, fed));
    }
    for case in &input[good..] {
        let profile = profile_of(&case.call).unwrap();
        let same = |numbers: &Numbers| *numbers == video.of(profile);
        assert!(matches!(&case.call, Call::SetUp { numbers, .. } if same(numbers)));
        let accepted = set_up(EDITION_1, &video.of(profile));
        let number = accepted.err().unwrap_or(8);
        assert!(case.rooms.iter().all(|room| room.number == number));
    }
}

/// Captures and set-ups come by each edition, as each profile and by others, the
/// fixed ones by all of these. A list is fed by each edition and as each profile, and
/// its numbers are set up by the others. Files of no version come by each edition and
/// by others.
#[test]
fn every_input_is_tried_by_both_editions_as_every_profile_and_by_others() {
    let mut seen = Seen::default();
    for (fixed, input) in all_inputs(2) {
        let first = &input[0].call;
        if edition_of(first).is_none() || !versions_of(&input).is_empty() {
            assert!(edition_of(first).is_some() || input.iter().all(|c| c.rooms.len() < 6));
            continue;
        }
        let name = name_of(first);
        let what = format!("{} {}", sort_of(fixed), name);
        seen.add(&what);
        let tried: Vec<Tried> = input.iter().map(tried).collect();
        if name == "measure" {
            let editions: Vec<u32> = tried.iter().map(|tried| tried.edition.unwrap()).collect();
            assert_eq!(editions[..2], EDITIONS);
            assert!(editions[2..]
                .iter()
                .all(|edition| is_other_edition(*edition)));
            assert_eq!(editions.len(), if fixed { 7 } else { 3 });
            continue;
        }
        let by = tried
            .iter()
            .map(|tried| (tried.edition.unwrap(), tried.profile.unwrap()));
        look_at_by(&mut seen, &what, fixed, &by.collect::<Vec<(u32, u64)>>());
        if name == "feed" {
            look_at_fed(&mut seen, fixed, &input);
        } else {
            for (case, tried) in input.iter().zip(&tried) {
                assert_eq!(case.call, as_tried(first, tried));
            }
        }
    }
    assert_eq!(seen.0["generated feed"], 200);
    assert_eq!(seen.0["generated set-up"], 50);
    assert_eq!(seen.0["generated capture"], 1000);
    assert!(seen.0["generated measure"] > 10 && seen.0["fixed measure"] > 10);
    assert!(seen.0["fixed capture"] > 3000 && seen.0["fixed feed"] > 100);
    // By turns, so about half of them by each edition.
    for (name, count) in [("feed", 200), ("set-up", 50), ("capture", 1000)] {
        for (edition, profile) in [(1, 3), (2, 3), (1, 4), (2, 4)] {
            let what = format!("generated {} as {} by {}", name, profile, edition);
            assert!((count / 3..count).contains(&seen.0[&what]), "{}", what);
        }
    }
    // Half of the lists that are fed have fields too, and more.
    assert!(seen.0["generated fed as 4: true"] > 100, "{:#?}", seen.0);
    assert!(seen.0["generated fed as 4: false"] > 20 && seen.0["fixed fed as 4: true"] > 200);
}

/// Limits and next reads come as every profile; limits as others too, and so do
/// generated next reads, and of the fixed ones some.
#[test]
fn limits_and_next_reads_are_asked_as_every_profile_and_as_others() {
    let mut seen = Seen::default();
    for (fixed, input) in all_inputs(2) {
        let (first, name) = (&input[0].call, name_of(&input[0].call));
        if !["limits", "next-read"].contains(&name) {
            continue;
        }
        let profiles: Vec<u64> = input.iter().flat_map(|c| profile_of(&c.call)).collect();
        let known = profiles
            .iter()
            .filter(|profile| !is_other_profile(**profile));
        let known: Vec<u64> = known.copied().collect();
        // Of the fixed next reads some are not asked as compressed.
        assert!(profiles.starts_with(&known) && known[0] == VIDEO);
        assert!(known == PROFILES || (fixed && known == [VIDEO, INTERLACED]));
        assert!(known == PROFILES || name == "next-read");
        for (case, profile) in input.iter().zip(&profiles) {
            assert_eq!(case.call, as_profile(first, *profile));
            let number = case.rooms[0].number;
            seen.add(&format!(
                "{} {} as {}: {}",
                sort_of(fixed),
                name,
                profile,
                number
            ));
        }
        seen.add(&format!(
            "{} {} of {}",
            sort_of(fixed),
            name,
            profiles.len()
        ));
    }
    for sort in ["fixed", "generated"] {
        for name in ["limits", "next-read"] {
            for (profile, number) in [(1, 0), (3, 0), (4, 0), (4, 5), (4, 7), (5, 22)] {
                let what = format!("{} {} as {}: {}", sort, name, profile, number);
                assert!(seen.0.contains_key(&what), "never seen: {}", what);
            }
        }
    }
    for alike in [
        "fixed limits of 8",
        "fixed next-read of 4",
        "generated limits of 4",
    ] {
        assert!(seen.0.contains_key(alike), "never seen: {}", alike);
    }
    assert!(!seen.0.contains_key("generated next-read of 3"));
}

/// What a whole list is answered: the nine numbers and the rows.
struct Answer {
    nine: Vec<i64>,
    rows: Vec<Vec<i64>>,
}

/// What a case fills in; of a list that is fed, what its first call does, which has
/// all of it.
fn answer_of(case: &Case) -> Option<Answer> {
    let of_bytes = |head: usize| {
        let eights = case.filled.chunks(8);
        let numbers: Vec<i64> = eights
            .map(|eight| i64::from_be_bytes(eight.try_into().unwrap()))
            .collect();
        (!numbers.is_empty()).then(|| Answer {
            nine: numbers[..9].to_vec(),
            rows: numbers[head..].chunks(11).map(<[i64]>::to_vec).collect(),
        })
    };
    match &case.call {
        Call::Measure { .. } => of_bytes(9),
        Call::Capture { .. } => of_bytes(11),
        Call::Feed { calls, .. } => Some(Answer {
            nine: calls[0].nine.to_vec(),
            rows: calls[0].written.iter().map(|row| row.to_vec()).collect(),
        }),
        _ => None,
    }
}

const BUFFERS: [&str; 5] = ["none", "pass", "under", "over", "broken"];

/// What two answers to one input say, by edition 1 and by edition 2; and what must
/// hold of them: all but the buffer answer is the same.
fn look_at_editions(seen: &mut Seen, name: &str, by_1: &Answer, by_2: &Answer) {
    assert_eq!(by_1.nine[..6], by_2.nine[..6]);
    assert_eq!(by_1.rows, by_2.rows);
    let buffer = |answer: &Answer| BUFFERS[answer.nine[6] as usize];
    seen.add(&format!("{}: {} and {}", name, buffer(by_1), buffer(by_2)));
    let broken_after = |frame: i64| by_2.rows.iter().any(|r| r[0] > frame && r[1] > 0);
    match buffer(by_2) {
        "broken" => {
            let (frame, kind) = (by_2.nine[7] as usize, by_2.nine[8]);
            assert_eq!(by_2.rows[frame][1], kind);
            assert!(by_2.rows[..frame]
                .iter()
                .all(|row| row[1] == 0 && row[9] >= 0));
            // What fails by edition 1 comes later.
            assert!(by_1.nine[6] < 2 || by_1.nine[7] > by_2.nine[7]);
            seen.add(&format!("{}: broken, kind {}", name, kind));
            if frame > 0 {
                seen.add(&format!("{}: broken after a whole frame", name));
            }
        }
        "none" => assert!(by_2.rows.is_empty()),
        "pass" => {
            assert!(!by_2.rows.is_empty() && by_2.rows.iter().all(|row| row[1] == 0));
            assert_eq!(by_1.nine, by_2.nine);
            if by_2.rows.len() > 1 {
                seen.add(&format!("{}: pass, of several frames", name));
            }
        }
        fails => {
            assert_eq!(by_1.nine, by_2.nine);
            if broken_after(by_2.nine[7]) {
                seen.add(&format!("{}: {} before a broken frame", name, fails));
            }
        }
    }
}

/// By edition 1 and by edition 2, in one version, as video and, of a fixed input, as
/// interlaced.
fn look_at_input(seen: &mut Seen, input: &[Case]) {
    let by_1 = |case: &&Case| edition_of(&case.call) == Some(EDITION_1) && !compressed(case);
    for by_1 in input.iter().filter(by_1) {
        let one = tried(by_1);
        let same = |case: &&Case| {
            tried(case)
                == Tried {
                    edition: Some(EDITION_2),
                    ..one
                }
        };
        let by_2 = match input.iter().find(same) {
            Some(by_2) => by_2,
            // In a version or as a profile that there is not, and if generated as
            // interlaced, it comes by one edition alone.
            None => {
                let other_version = one.version.map_or(false, is_other_version);
                let of_frames = [None, Some(VIDEO), Some(COMPRESSED)].contains(&one.profile);
                assert!(other_version || !of_frames);
                continue;
            }
        };
        let name = match one.profile {
            Some(INTERLACED) => format!("interlaced {}", name_of(&by_1.call)),
            _ => name_of(&by_1.call).to_string(),
        };
        match (answer_of(by_1), answer_of(by_2)) {
            (Some(one), Some(two)) => look_at_editions(seen, &name, &one, &two),
            (one, two) => assert!(one.is_none() && two.is_none()),
        }
    }
}

fn compressed(case: &Case) -> bool {
    profile_of(&case.call) == Some(COMPRESSED)
}

/// All that two editions can answer to one input, files, captures and feeds alike; as
/// interlaced too, if it is fixed.
fn everything_of_editions(fixed: bool) -> Vec<String> {
    let mut names = ["capture", "feed", "measure"].map(str::to_string).to_vec();
    if fixed {
        names.extend(
            names
                .clone()
                .iter()
                .map(|name| format!("interlaced {}", name)),
        );
    }
    let mut all = vec![];
    for name in names {
        for what in [
            "none and none",
            "none and broken",
            "pass and pass",
            "pass and broken",
            "under and under",
            "under and broken",
            "over and over",
            "over and broken",
            "broken, kind 1",
            "broken, kind 2",
            "broken, kind 3",
            "broken after a whole frame",
            "pass, of several frames",
            "under before a broken frame",
            "over before a broken frame",
        ] {
            all.push(format!("{}: {}", name, what));
        }
    }
    all.sort();
    all
}

/// By the fixed inputs alone, and by generated ones.
#[test]
fn the_editions_answer_in_every_way() {
    let generated = (0..100 * ROUND).map(|index| cases(6, index)).collect();
    for (inputs, is_fixed) in [(fixed(), true), (generated, false)] {
        let mut seen = Seen::default();
        inputs
            .iter()
            .for_each(|input| look_at_input(&mut seen, input));
        println!("{:#?}", seen.0);
        let seen: Vec<String> = seen.0.into_keys().collect();
        assert_eq!(seen, everything_of_editions(is_fixed));
    }
}

/// The same input in the same version, as video and by edition 1, if it comes so.
fn by_1_as_video<'a>(input: &'a [Case], case: &Case) -> Option<&'a Case> {
    input.iter().find(|by_1| {
        edition_of(&by_1.call).map_or(true, |edition| edition == EDITION_1)
            && version_of(&by_1.call) == version_of(&case.call)
            && matches!(profile_of(&by_1.call), None | Some(VIDEO))
            && name_of(&by_1.call) == name_of(&case.call)
    })
}

/// The refusal of the same input in the same version and as the same profile, by an
/// edition that there is, if it comes so.
fn refusal_as_profile(input: &[Case], case: &Case) -> Option<u8> {
    let same = |other: &&Case| {
        !edition_of(&other.call).map_or(false, is_other_edition)
            && version_of(&other.call) == version_of(&case.call)
            && profile_of(&other.call) == profile_of(&case.call)
    };
    let room = |other: &Case| other.rooms.first().map(|room| room.number);
    input.iter().find(same).and_then(room)
}

/// An edition that there is not, with whatever else is wrong: what comes before 8
/// is given as by edition 1, and what comes after it is not. As a profile that there
/// is not it is refused by 22, before 8.
fn look_at_other_editions(seen: &mut Seen, input: &[Case]) {
    let other = |case: &&Case| {
        edition_of(&case.call).map_or(false, is_other_edition)
            && !profile_of(&case.call).map_or(false, is_other_profile)
    };
    for case in input.iter().filter(other) {
        let name = name_of(&case.call);
        let by_1 = by_1_as_video(input, case);
        for room in &case.rooms {
            if room.number != 8 {
                seen.add(&format!("{} wins {}", name, room.number));
                let by_any = refusal_as_profile(input, case);
                assert_eq!(room.number, by_any.unwrap_or(20));
                continue;
            }
            let place = if name == "measure" { 1 } else { 0 };
            assert_eq!(room.place, place);
            assert!(case.filled.is_empty());
            for lost in by_1.iter().flat_map(|by_1| &by_1.rooms) {
                seen.add(&format!("{} loses {}", name, lost.number));
            }
        }
    }
}

/// "8 for an edition other than 1 or 2, after 7": tried with every other refusal,
/// by the fixed inputs alone and by generated ones. At the parameter record 21 to
/// 23 come before it, at a later one they are not come to.
#[test]
fn other_editions_are_tried_with_every_other_fault() {
    let mut wanted = vec![];
    for (what, numbers) in [
        ("measure wins", &[1, 2, 3, 4, 5, 6, 7, 20, 21, 22, 23][..]),
        ("measure loses", &[0, 11, 12, 13, 15, 21, 22, 23]),
        ("capture wins", &[1, 2, 3, 4, 5, 6, 7]),
        ("capture loses", &[0, 12, 13, 15, 30, 31, 32, 33]),
        ("set-up wins", &[1, 2, 3, 4, 5, 6, 7]),
        ("set-up loses", &[0, 15]),
    ] {
        wanted.extend(numbers.iter().map(|number| format!("{} {}", what, number)));
    }
    wanted.sort();
    let generated = (0..200 * ROUND).map(|index| cases(7, index)).collect();
    for inputs in [fixed(), generated] {
        let mut seen = Seen::default();
        inputs
            .iter()
            .for_each(|input| look_at_other_editions(&mut seen, input));
        let seen: Vec<String> = seen.0.into_keys().collect();
        assert_eq!(seen, wanted);
    }
}

/// Generated captures have every sort of edition, so that the program meets them.
#[test]
fn generated_captures_have_editions_of_every_sort() {
    let editions: Vec<u32> = (0..2000)
        .map(|index| traffic::capture(2110, index).0.edition)
        .collect();
    let count = |edition| editions.iter().filter(|e| **e == edition).count();
    assert!(count(1) > 500 && count(2) > 500);
    for edition in OTHER_EDITIONS {
        assert!(count(edition) > 0, "never seen: {}", edition);
    }
    // 1 or 2 in the last byte, and neither.
    assert!(editions
        .iter()
        .any(|e| *e > 255 && [1, 2].contains(&(e & 255))));
}

/// A state holds the edition: both sides of its range, and of a broken answer's,
/// are fed by each edition, and a state that has one is among them.
#[test]
fn states_of_both_editions_are_changed_on_both_sides() {
    let mut seen = Seen::default();
    for case in fixed_cases() {
        let (edition, calls) = match case.call {
            Call::Feed { numbers, .. } if numbers.profile != VIDEO => continue,
            Call::Feed { edition, calls, .. } => (edition, calls),
            _ => continue,
        };
        let mut buffer = 0;
        for feed in calls {
            assert!(
                feed.number != 0 || feed.nine[6] != 4 || edition == 2 || !feed.changes.is_empty()
            );
            if feed.changes.is_empty() && feed.number == 0 {
                buffer = feed.nine[6];
            }
            let word = |word| feed.changes.iter().find(|(w, _)| *w == word);
            if let (Some((_, to)), 1) = (word(7), feed.changes.len()) {
                let told = BUFFERS[buffer as usize];
                seen.add(&format!(
                    "by {}, {}, edition {}: {}",
                    edition, told, to, feed.number
                ));
            }
            if let (Some((_, 4)), None) = (word(32), word(8)) {
                let to = word(7).map_or(edition, |(_, to)| *to as u32);
                let kind = word(34).unwrap().1.min(4);
                seen.add(&format!(
                    "by {}, broken of kind {}: {}",
                    to, kind, feed.number
                ));
            }
        }
    }
    for what in [
        "by 1, none, edition 2: 0",
        "by 1, pass, edition 2: 0",
        "by 1, under, edition 2: 0",
        "by 1, none, edition 1: 0",
        "by 2, none, edition 1: 0",
        "by 2, pass, edition 1: 0",
        "by 2, broken, edition 1: 9",
        "by 2, broken, edition 2: 0",
        "by 1, none, edition 0: 9",
        "by 1, none, edition 3: 9",
        "by 1, none, edition 255: 9",
        "by 1, none, edition 4294967295: 9",
        "by 1, none, edition 4294967297: 9",
        "by 2, broken, edition 4294967298: 9",
        "by 1, broken of kind 1: 9",
        "by 1, broken of kind 3: 9",
        "by 2, broken of kind 0: 9",
        "by 2, broken of kind 1: 0",
        "by 2, broken of kind 2: 0",
        "by 2, broken of kind 3: 0",
        "by 2, broken of kind 4: 9",
    ] {
        assert!(seen.0.contains_key(what), "never seen: {}", what);
    }
    assert!(!seen.0.contains_key("by 1, broken of kind 1: 0"));
    assert!(!seen.0.contains_key("by 2, broken, edition 1: 0"));
}

// --- requests (vii) and (ix) ---

/// What one input is answered as compressed and as video, in one version and by one
/// edition: "peak and least 0 for whole frames", the buffer answer "always none", and
/// all else the same.
fn look_at_profiles(seen: &mut Seen, what: &str, compressed: &Answer, video: &Answer) {
    assert_eq!(compressed.nine[..6], video.nine[..6]);
    assert_eq!(compressed.nine[6..], [0, 0, 0]);
    let mut rows = video.rows.clone();
    for row in &mut rows {
        row[8] = 0;
        row[9] = 0;
    }
    assert_eq!(compressed.rows, rows);
    seen.add(&format!("{}: {}", what, BUFFERS[video.nine[6] as usize]));
    for row in &video.rows {
        if row[1] != 0 {
            seen.add(&format!("{}: a broken frame", what));
        } else if row[8] != 0 && row[9] < 0 {
            seen.add(&format!("{}: a whole frame with peak and least", what));
        }
    }
}

/// Every case of an input that is of a profile, in a version and by an edition that
/// there are, beside the one that is video.
fn beside_their_video(input: &[Case], profile: u64) -> Vec<(&Case, &Case)> {
    let both = |case: &&Case| {
        let tried = tried(case);
        tried.profile == Some(profile)
            && !tried.version.map_or(false, is_other_version)
            && !tried.edition.map_or(false, is_other_edition)
    };
    let as_video = |case| {
        let wanted = Tried {
            profile: Some(VIDEO),
            ..tried(case)
        };
        let video = input.iter().find(|other| tried(other) == wanted);
        (case, video.expect("it comes as video too"))
    };
    input.iter().filter(both).map(as_video).collect()
}

fn named_by(call: &Call) -> String {
    match edition_of(call) {
        Some(edition) => format!("{} by {}", name_of(call), edition),
        None => name_of(call).to_string(),
    }
}

/// By what the calls that take a profile, or a file that has one, are refused or not.
const REFUSED_OF_ANY: [(&str, &[u8]); 6] = [
    (
        "measure",
        &[0, 1, 2, 3, 4, 5, 6, 7, 11, 12, 13, 15, 21, 22, 23],
    ),
    (
        "capture",
        &[0, 1, 2, 3, 4, 5, 6, 7, 12, 13, 15, 30, 31, 32, 33],
    ),
    ("set-up", &[0, 1, 2, 3, 4, 5, 6, 7, 15]),
    ("write", &[0, 1, 2, 3, 4, 5, 6, 7, 10, 11, 12, 13, 24]),
    ("limits", &[0, 1, 2, 3, 4, 5, 6, 7, 15]),
    ("next-read", &[0, 1, 2, 3, 4, 5, 6, 7, 12, 13, 15]),
];

/// Every case of an input that is compressed beside the one that is video.
fn look_at_compressed(seen: &mut Seen, input: &[Case]) {
    for (case, video) in beside_their_video(input, COMPRESSED) {
        let (name, what) = (name_of(&case.call), named_by(&case.call));
        assert_eq!(case.rooms.len(), video.rooms.len());
        match (answer_of(case), answer_of(video)) {
            (Some(one), Some(other)) => look_at_profiles(seen, &what, &one, &other),
            (one, other) => assert!(one.is_none() && other.is_none()),
        }
        if case.rooms.iter().any(|room| room.number == 0) && name == "write" {
            // Written they are the same but for the kind.
            assert_eq!(case.filled[FIRST_KIND], 3);
            let twin = as_profiles(&[VIDEO], &case.filled);
            assert_eq!(twin, std::slice::from_ref(&video.filled));
        }
        for room in case.rooms.iter().filter(|_| name != "feed") {
            seen.add(&format!("{}: {}", name, room.number));
        }
    }
}

/// What must be seen of files, captures and feeds that are compressed: by each edition
/// each answer that the stream has as video; and every refusal.
fn everything_of_profiles() -> Vec<String> {
    let mut all = vec![];
    for name in ["capture", "feed", "measure"] {
        for edition in EDITIONS {
            let answers = if edition == EDITION_1 { 4 } else { 5 };
            for answer in &BUFFERS[..answers] {
                all.push(format!("{} by {}: {}", name, edition, answer));
            }
            for frame in ["a broken frame", "a whole frame with peak and least"] {
                all.push(format!("{} by {}: {}", name, edition, frame));
            }
        }
    }
    for (name, numbers) in REFUSED_OF_ANY {
        all.extend(numbers.iter().map(|number| format!("{}: {}", name, number)));
    }
    all.sort();
    all
}

/// By the fixed inputs alone, and by generated ones: streams that would fail by under,
/// by over, or by a broken frame, and are answered none as compressed.
#[test]
fn what_is_compressed_is_answered_as_video_is_but_for_reads() {
    let generated = (0..200 * ROUND).map(|index| cases(12, index)).collect();
    for inputs in [fixed(), generated] {
        let mut seen = Seen::default();
        inputs
            .iter()
            .for_each(|input| look_at_compressed(&mut seen, input));
        println!("{:#?}", seen.0);
        let seen: Vec<String> = seen.0.into_keys().collect();
        assert_eq!(seen, everything_of_profiles());
    }
}

/// What one input is answered as interlaced and as video, in one version and by one
/// edition: the bucket is the same, and so is where fields or frames begin and end.
fn look_at_fields(seen: &mut Seen, what: &str, interlaced: &Answer, video: &Answer) {
    assert_eq!(interlaced.nine[..6], video.nine[..6]);
    let [fields, frames] = [interlaced, video].map(|answer| BUFFERS[answer.nine[6] as usize]);
    seen.add(&format!("{}: {}", what, fields));
    if fields != frames {
        seen.add(&format!("{}: {} and not as video", what, fields));
    }
    assert_eq!(interlaced.rows.len(), video.rows.len());
    for (field, frame) in interlaced.rows.iter().zip(&video.rows) {
        assert_eq!([field[0], field[10]], [frame[0], frame[10]]);
        seen.add(&format!("{}: a field of kind {}", what, field[1]));
        if [field[1], frame[1]] == [0, 1] {
            seen.add(&format!("{}: a field that is a short frame", what));
        }
    }
}

/// Every case of an input that is interlaced beside the one that is video. Where both
/// are refused it is by one number, but that 5 comes before 6 and all else, and 7
/// before what comes after set-up.
fn look_at_interlaced(seen: &mut Seen, input: &[Case]) {
    for (case, video) in beside_their_video(input, INTERLACED) {
        let (name, what) = (name_of(&case.call), named_by(&case.call));
        match (answer_of(case), answer_of(video)) {
            (Some(one), Some(other)) => look_at_fields(seen, &what, &one, &other),
            (one, _) => assert!(one.is_none()),
        }
        let first = |case: &Case| case.rooms.first().map_or(0, |room| room.number);
        let (own, other) = (first(case), first(video));
        if own != other {
            // What is fed as video may be refused as interlaced by set-up.
            assert!([5, 7].contains(&own) && (other == 0 || own < other));
            seen.add(&format!("{}: {} alone", name, own));
        }
        for room in &case.rooms {
            seen.add(&format!("{}: {}", name, room.number));
        }
    }
}

/// What must be seen of what is interlaced.
fn everything_of_fields() -> Vec<String> {
    let mut all = vec![];
    for name in ["capture", "feed", "measure"] {
        for edition in EDITIONS {
            let what = format!("{} by {}", name, edition);
            let answers = if edition == EDITION_1 { 4 } else { 5 };
            for answer in &BUFFERS[..answers] {
                all.push(format!("{}: {}", what, answer));
                all.push(format!("{}: {} and not as video", what, answer));
            }
            all.extend((0..4).map(|kind| format!("{}: a field of kind {}", what, kind)));
            all.push(format!("{}: a field that is a short frame", what));
        }
    }
    for (name, numbers) in REFUSED_OF_ANY {
        all.extend(numbers.iter().map(|number| format!("{}: {}", name, number)));
        all.extend([5, 7].map(|number| format!("{}: {} alone", name, number)));
    }
    // By edition 2 none is that no frame has closed, and no field then.
    all.retain(|what| !what.contains("by 2: none and not as video"));
    all.sort();
    all
}

/// By the fixed inputs alone, and by generated ones.
#[test]
fn what_is_interlaced_is_answered_in_every_way() {
    let generated = (0..200 * ROUND).map(|index| cases(16, index)).collect();
    for inputs in [fixed(), generated] {
        let mut seen = Seen::default();
        inputs
            .iter()
            .for_each(|input| look_at_interlaced(&mut seen, input));
        println!("{:#?}", seen.0);
        let seen: Vec<String> = seen.0.into_keys().collect();
        assert_eq!(seen, everything_of_fields());
    }
}

/// A profile that there is not, with whatever else is wrong: 22 at 0, and nothing is
/// written; 20 alone comes before it.
fn look_at_other_profiles(seen: &mut Seen, input: &[Case]) {
    let other = |case: &&Case| profile_of(&case.call).map_or(false, is_other_profile);
    for case in input.iter().filter(other) {
        let name = name_of(&case.call);
        assert!(case.filled.is_empty() && case.measured.is_empty());
        let number = match version_of(&case.call) {
            Some(version) if is_other_version(version) => 20,
            _ => 22,
        };
        for room in &case.rooms {
            assert_eq!((room.number, room.place), (number, 0));
        }
        assert!(case.rooms.iter().any(|room| room.lent == 0));
        if number == 20 {
            seen.add(&format!("{} wins 20", name));
            continue;
        }
        if edition_of(&case.call).map_or(false, is_other_edition) {
            seen.add(&format!("{} loses 8", name));
        }
        for lost in by_1_as_video(input, case).iter().flat_map(|c| &c.rooms) {
            seen.add(&format!("{} loses {}", name, lost.number));
        }
        let profile = profile_of(&case.call).unwrap();
        if OTHER_PROFILES.contains(&profile) {
            seen.add(&format!("{} as {}", name, profile));
        }
    }
}

/// "unknown kind", after 20 and before 1: tried with every other refusal, by the fixed
/// inputs alone and by generated ones.
#[test]
fn other_profiles_are_tried_with_every_other_fault() {
    let mut wanted = vec!["write wins 20".to_string()];
    for (what, numbers) in [
        (
            "write loses",
            &[0, 1, 2, 3, 4, 5, 6, 7, 10, 11, 12, 13, 24][..],
        ),
        (
            "capture loses",
            &[0, 1, 2, 3, 4, 5, 6, 7, 8, 12, 13, 15, 30, 31, 32, 33],
        ),
        ("set-up loses", &[0, 1, 2, 3, 4, 5, 6, 7, 8, 15]),
        ("limits loses", &[0, 1, 2, 3, 4, 5, 6, 7, 15]),
        ("next-read loses", &[0, 1, 2, 3, 4, 5, 6, 7, 12, 13, 15]),
        ("write as", &[0, 2, 5, 255]),
        ("capture as", &[0, 2, 5, 255]),
        ("set-up as", &[0, 2, 5, 255]),
        ("limits as", &[0, 2, 5, 255]),
        ("next-read as", &[0, 2, 5, 255]),
    ] {
        wanted.extend(numbers.iter().map(|number| format!("{} {}", what, number)));
    }
    wanted.sort();
    let generated = (0..200 * ROUND).map(|index| cases(13, index)).collect();
    for inputs in [fixed(), generated] {
        let mut seen = Seen::default();
        inputs
            .iter()
            .for_each(|input| look_at_other_profiles(&mut seen, input));
        let seen: Vec<String> = seen.0.into_keys().collect();
        assert_eq!(seen, wanted);
    }
}

/// Of a file that is refused by 22 or 23: the kind of the record that is refused, and
/// of the first one. Parameters take 18 bytes with their length, and come after the
/// version.
fn look_at_kinds(seen: &mut Seen, file: &[u8], number: u8, place: usize) {
    let (length, kind) = match file.get(place..place + 3) {
        Some(record) => (u16::from_be_bytes([record[0], record[1]]), record[2]),
        // A lone version byte.
        None => return,
    };
    match number {
        23 if place == 1 => seen.add(&format!("23: kind {} first", kind)),
        23 => {
            let between = if place == 19 { "" } else { " and packets" };
            let first = file[FIRST_KIND];
            seen.add(&format!("23: kind {} after {}{}", kind, first, between));
        }
        22 if (1..=4).contains(&kind) => {
            assert_ne!(length, if kind == 2 { 14 } else { 16 });
            seen.add(&format!("22: kind {} of a wrong length", kind));
        }
        22 => {
            let of = if length == 16 { " of 16 bytes" } else { "" };
            seen.add(&format!("22: kind {}{}", kind.min(6), of));
        }
        _ => {}
    }
}

/// "22 and 23 read with that kind too": each order of two kinds of parameters, right
/// after one another and with packets between them, a packet first, each known kind
/// of a wrong length, and kind 5; by the fixed inputs alone and by generated ones.
#[test]
fn files_are_refused_with_every_kind() {
    let mut wanted = vec!["23: kind 2 first".to_string()];
    for (first, again) in PROFILES.iter().flat_map(|f| PROFILES.map(|a| (f, a))) {
        for between in ["", " and packets"] {
            wanted.push(format!("23: kind {} after {}{}", again, first, between));
        }
    }
    wanted.extend((1..=4).map(|kind| format!("22: kind {} of a wrong length", kind)));
    for kind in [0, 5, 6] {
        wanted.extend(["", " of 16 bytes"].map(|of| format!("22: kind {}{}", kind, of)));
    }
    wanted.sort();
    let generated = (0..200 * ROUND).map(|index| cases(14, index)).collect();
    for inputs in [fixed(), generated] {
        let mut seen = Seen::default();
        for case in inputs.iter().flatten() {
            if let Call::Measure { file, .. } = &case.call {
                let room = &case.rooms[0];
                look_at_kinds(&mut seen, file, room.number, room.place as usize);
            }
        }
        println!("{:#?}", seen.0);
        let seen: Vec<String> = seen.0.into_keys().collect();
        assert_eq!(seen, wanted);
    }
}

/// Generated files have every kind, and generated captures every sort of profile, so
/// that the programs meet them.
#[test]
fn generated_inputs_have_profiles_of_every_sort() {
    let files: Vec<Vec<u8>> = (0..FILES).map(|index| file(2110, index)).collect();
    for profile in PROFILES {
        let own = |file: &&Vec<u8>| read(EDITION_1, file).numbers.map(|n| n.profile);
        let count = files.iter().filter(|file| own(file) == Some(profile));
        assert!(count.count() > 250);
    }
    let profiles: Vec<u64> = (0..6000)
        .map(|index| traffic::capture(2110, index).0.numbers.profile)
        .collect();
    let count = |profile| profiles.iter().filter(|p| **p == profile).count();
    assert!(PROFILES.iter().all(|profile| count(*profile) > 1000));
    for profile in [&OTHER_PROFILES[..], &PROFILE_LOOKALIKES, &WIDE_PROFILES].concat() {
        assert!(count(profile) > 0, "never seen: {}", profile);
    }
}

/// Words of a state: n, TRO, the profile; and those that a compressed state has as 0,
/// which are reads, wait, top, late, deficit and the buffer answer.
const N_WORD: u8 = 4;
const TRO_WORD: u8 = 6;
const PROFILE_WORD: u8 = 8;
const WORDS_OF_READS: [u8; 6] = [26, 27, 29, 30, 31, 32];

/// What is seen of the states of one list that are changed.
fn look_at_changes(seen: &mut Seen, profile: u64, calls: &[Feed]) {
    for feed in calls.iter().filter(|feed| !feed.changes.is_empty()) {
        let word = feed.changes.iter().find(|(word, _)| *word == PROFILE_WORD);
        let to = word.map_or(profile, |(_, to)| *to);
        if feed.changes.len() == 1 && word.is_some() {
            seen.add(&format!("{} to {}: {}", profile, to, feed.number));
        }
        for (word, value) in &feed.changes {
            match (*word, *value) {
                (N_WORD, n) if n % 2 == 1 && n < 20_000 => {
                    seen.add(&format!("{}, odd n: {}", to, feed.number));
                }
                (TRO_WORD, 0xffff_ffff) => {
                    seen.add(&format!("{}, TRO default: {}", to, feed.number));
                }
                _ => {}
            }
        }
        let of_reads = |change: &&(u8, u64)| WORDS_OF_READS.contains(&change.0);
        for (at, value) in feed.changes.iter().filter(of_reads) {
            let some = if *value == 0 { "0" } else { "more" };
            seen.add(&format!("{}, word {} {}: {}", to, at, some, feed.number));
            assert!(to != COMPRESSED || *value == 0 || feed.number != 0);
        }
    }
}

/// A state holds the profile: both sides of its range; of a compressed state each
/// number of reads, and each buffer answer, is 9 where it is not 0 or none; and of an
/// interlaced one an odd n and a default TRO are.
#[test]
fn states_of_every_profile_are_changed_on_both_sides() {
    let mut seen = Seen::default();
    for case in fixed_cases() {
        if let Call::Feed { numbers, calls, .. } = case.call {
            look_at_changes(&mut seen, numbers.profile, &calls);
        }
    }
    let each = [
        "1 to 1: 0",
        "1 to 3: 0",
        "1 to 3: 9",
        "1 to 4: 0",
        "1 to 4: 9",
        "3 to 1: 0",
        "3 to 3: 0",
        "3 to 4: 0",
        "3 to 4: 9",
        "4 to 1: 0",
        "4 to 3: 0",
        "4 to 3: 9",
        "4 to 4: 0",
        "1, odd n: 0",
        "3, odd n: 0",
        "4, odd n: 9",
        "1, TRO default: 0",
        "3, TRO default: 0",
        "4, TRO default: 9",
    ];
    let mut wanted = each.map(str::to_string).to_vec();
    for other in [0, 2, 5, 255, 257, 259, 260, (1 << 32) + 3, u64::MAX] {
        wanted.extend(PROFILES.map(|own| format!("{} to {}: 9", own, other)));
    }
    for word in WORDS_OF_READS {
        wanted.push(format!("1, word {} more: 0", word));
        wanted.push(format!("4, word {} more: 0", word));
        wanted.push(format!("3, word {} more: 9", word));
        wanted.push(format!("3, word {} 0: 0", word));
    }
    for what in wanted {
        assert!(seen.0.contains_key(&what), "never seen: {}", what);
    }
    for never in ["3 to 1: 9", "3 to 3: 9", "4 to 1: 9", "4 to 4: 9"] {
        assert!(!seen.0.contains_key(never), "seen: {}", never);
    }
    for never in ["4, odd n: 0", "4, TRO default: 0"] {
        assert!(!seen.0.contains_key(never), "seen: {}", never);
    }
}

/// A file is tried as the other kinds with nothing else changed; one whose first record
/// is no parameters stays as it is.
#[test]
fn only_the_first_kind_is_changed() {
    let all = [[1, 0, 16, 1, 7], [1, 0, 16, 3, 7], [1, 0, 16, 4, 7]];
    for file in all {
        assert_eq!(as_profiles(&PROFILES, &file), all);
    }
    assert_eq!(as_profiles(&[3], &[2, 9, 9, 1]), [[2, 9, 9, 3]]);
    for alone in [&[][..], &[1, 0, 16], &[1, 0, 16, 2], &[1, 0, 14, 5, 1]] {
        assert_eq!(as_profiles(&PROFILES, alone), [alone]);
    }
}

/// A file is tried under other versions with nothing else changed; one that has
/// none stays as it is.
#[test]
fn only_the_version_byte_is_changed() {
    assert_eq!(
        under(&[1, 2, 0], &[2, 7, 8]),
        [[1, 7, 8], [2, 7, 8], [0, 7, 8]]
    );
    assert_eq!(under(&[1, 2], &[1]), [[1], [2]]);
    assert_eq!(under(&[1, 2], &[0, 7]), [[0, 7]]);
    assert_eq!(under(&[1, 2], &[3, 7]), [[3, 7]]);
    assert_eq!(under(&[1, 2], &[]), [[]]);
}

/// A call is accepted exactly where what it writes has room, and a refusal for
/// want of room is 15, or 24 of the writer.
#[test]
fn a_case_is_accepted_where_there_is_room() {
    for case in (0..2000).flat_map(|index| cases(5, index)) {
        let size = match case.call {
            Call::Measure { .. } | Call::Write { .. } | Call::Capture { .. } => 1,
            _ => 8,
        };
        // What set-up writes is not known here, but how much it is.
        let needed = match case.call {
            Call::SetUp { numbers, edition } if set_up(edition, &numbers).is_ok() => STATE_WORDS,
            _ => case.filled.len() as u64 / size,
        };
        for room in &case.rooms {
            let short = match case.call {
                Call::Write { .. } => 24,
                _ => 15,
            };
            if needed > 0 {
                let wanted = if room.lent < needed { short } else { 0 };
                assert_eq!(room.number, wanted);
            } else {
                assert!(room.number != 0 && room.number != short);
            }
            assert!(room.number != 0 || room.place == 0);
        }
    }
}

/// Number and place of a call on bytes, or of the writer, with so much lent.
fn answer_with(call: &Call, lent: usize) -> Option<(u8, u64)> {
    let (number, place, _) = match call {
        Call::Measure { file, edition } => expected_c_call(*edition, file, lent),
        Call::Capture { asked, bytes } => expected_capture_call(asked, bytes, lent),
        Call::Write {
            version,
            numbers,
            lists,
        } => match writer(*version, numbers, lists.lent(), lent) {
            Ok(file) => (0, 0, Some(file)),
            Err(refusal) => (refusal.number, refusal.place, None),
        },
        _ => return None,
    };
    Some((number, place))
}

/// The answers of a case are worked out from the one with ample room, and must be
/// those of the call with each room.
#[test]
fn a_case_answers_for_each_room_as_the_call_does() {
    let generated = (0..20 * ROUND).flat_map(|index| cases(9, index));
    for case in fixed_cases().into_iter().chain(generated) {
        for room in &case.rooms {
            if let Some(answer) = answer_with(&case.call, room.lent as usize) {
                assert_eq!((room.number, room.place), answer);
            }
        }
    }
}

/// However a list is dealt out, the accepted calls lend all of it, in order,
/// write the rows of the whole list, once, and end in its nine numbers.
#[test]
fn calls_in_a_row_give_what_one_call_gives() {
    let generated = (0..400).flat_map(|index| cases(7, ROUND * index + 17));
    for case in fixed_cases().into_iter().chain(generated) {
        let calls = match case.call {
            Call::Feed { calls, .. } => calls,
            _ => continue,
        };
        let mut runs: Vec<(Vec<u64>, Vec<Row>, [i64; 9])> = vec![];
        for feed in calls {
            if feed.anew {
                runs.push((vec![], vec![], [0; 9]));
            }
            let (arrivals, rows, nine) = runs.last_mut().expect("set up first");
            if feed.number == 0 && feed.changes.is_empty() {
                assert!(feed.rows >= 11 * feed.written.len() as u64 && feed.out >= 9);
                arrivals.extend(feed.lists.arrivals);
                rows.extend(feed.written);
                *nine = feed.nine;
            }
        }
        let (list, rows, nine) = runs[0].clone();
        for (arrivals, written, end) in &runs {
            assert_eq!(arrivals[..], list[..arrivals.len()]);
            assert_eq!(written[..], rows[..written.len()]);
            if arrivals.len() == list.len() {
                assert_eq!((written, end), (&rows, &nine));
            }
        }
    }
}

/// Request (ii): "15 is given below eleven numbers per frame". For calls that
/// close one frame, both sides of that are among the fixed cases.
#[test]
fn ten_numbers_and_eleven_are_lent_for_one_frame() {
    let mut seen = Seen::default();
    for case in fixed_cases() {
        let calls = match case.call {
            Call::Feed { calls, .. } => calls,
            _ => continue,
        };
        for feed in calls {
            let markers = feed.lists.markers.iter().filter(|marker| **marker == 1);
            let refused = feed.number == 15 && feed.out >= 9 && markers.count() == 1;
            if refused || feed.written.len() == 1 {
                seen.add(&format!("{} for {}", feed.number, feed.rows));
            }
        }
    }
    assert!(seen.0.contains_key("15 for 10") && seen.0.contains_key("0 for 11"));
    assert!(!seen.0.contains_key("15 for 11") && !seen.0.contains_key("0 for 10"));
}

#[test]
fn a_case_is_as_long_as_it_says() {
    for index in 0..200 {
        assert_eq!(cases(6, index), cases(6, index));
        for case in cases(6, index) {
            let bytes = case.bytes(index);
            let size = u32::from_be_bytes([bytes[0], bytes[1], bytes[2], bytes[3]]);
            assert_eq!(bytes.len(), 4 + size as usize);
        }
    }
}
