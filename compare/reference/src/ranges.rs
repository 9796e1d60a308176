//! docs/STATE.md: which number of a state stands in which word, and its range,
//! on both sides. What a range depends on is taken from the list of packets
//! alone; of the library's state nothing else is known here.

use crate::measure::{Buffer, Measurement};
use crate::numbers::{set_up, Edition, Limits, Numbers, Period, Profile};
use crate::numbers::{COMPRESSED, EDITION_1, EDITION_2, GRAINS_PER_MICROSECOND};
use crate::numbers::{INTERLACED, PROFILES, VIDEO};
use crate::output::nine_numbers;
use crate::packet::{Packet, Past, LONGEST_HISTORY, MOST_PACKETS};

/// "a state is 35 words of 64 bits, one for each row of the tables".
pub const STATE_WORDS: u64 = 35;

const RATE: u8 = 0;
const SCHEDULE: u8 = 1;
const CLASS: u8 = 2;
const HEIGHT: u8 = 3;
const N: u8 = 4;
const MAXUDP: u8 = 5;
const TRO: u8 = 6;
const EDITION: u8 = 7;
const PROFILE: u8 = 8;
pub const PACKETS: u8 = 9;
const FIRST: u8 = 10;
const LAST: u8 = 11;
const LEVEL: u8 = 12;
const START: u8 = 13;
const PEAK: u8 = 14;
const NETWORK: u8 = 15;
const RUN_FIRST: u8 = 16;
const RUN_LAST: u8 = 17;
const REST: u8 = 18;
const CLOSED: u8 = 19;
const BEGUN: u8 = 20;
const MARKED: u8 = 21;
const HELD: u8 = 22;
const OPEN_FIRST: u8 = 23;
const STAMP: u8 = 24;
const PHASE: u8 = 25;
const READS: u8 = 26;
const WAIT: u8 = 27;
const DIFFERS: u8 = 28;
const TOP: u8 = 29;
const LATE: u8 = 30;
const DEFICIT: u8 = 31;
const BUFFER: u8 = 32;
const BUFFER_FRAME: u8 = 33;
const BUFFER_PLACE: u8 = 34;

/// The words that the nine numbers of a state stand in, in their order.
const NINE: [u8; 9] = [
    PACKETS,
    CLOSED,
    PEAK,
    NETWORK,
    RUN_FIRST,
    RUN_LAST,
    BUFFER,
    BUFFER_FRAME,
    BUFFER_PLACE,
];

/// Words changed to other values, and whether what they hold then is a state
/// in range.
#[derive(Clone, Debug, PartialEq, Eq)]
pub struct Change {
    pub words: Vec<(u8, u64)>,
    pub in_range: bool,
}

/// The nine numbers of a state that was changed so.
pub fn changed_nine(so_far: &Measurement, change: &[(u8, u64)]) -> [i64; 9] {
    let mut nine = nine_numbers(so_far);
    for (number, word) in nine.iter_mut().zip(NINE) {
        if let Some((_, value)) = change.iter().find(|(changed, _)| *changed == word) {
            *number = *value as i64;
        }
    }
    nine
}

/// A stream that was set up: its numbers, and what came of them.
#[derive(Clone, Copy, Debug, PartialEq, Eq)]
pub struct Stream {
    pub numbers: Numbers,
    pub limits: Limits,
}

/// What the ranges of a state depend on.
struct Known {
    numbers: Numbers,
    edition: Edition,
    /// A compressed state keeps nothing of reads, and no buffer answer.
    profile: Profile,
    buffer: Buffer,
    /// F.
    frame: u64,
    /// The frame, or the field.
    period: Period,
    past: Past,
    /// The arrival of the last marker packet; none in the lead-in.
    marked: Option<u64>,
    /// The packets of the open frame.
    held: u64,
    open_first: u64,
}

impl Known {
    fn of(stream: &Stream, history: &[Packet], so_far: &Measurement) -> Known {
        let numbers = &stream.numbers;
        let marker = history.iter().rposition(|packet| packet.marker == 1);
        let open = marker.map_or(&history[..0], |place| &history[place + 1..]);
        Known {
            numbers: *numbers,
            edition: stream.limits.edition,
            profile: stream.limits.profile,
            buffer: so_far.buffer,
            frame: stream.limits.frame as u64,
            period: stream.limits.period,
            past: Past::of(history),
            marked: marker.map(|place| history[place].arrival),
            held: open.len() as u64,
            open_first: open.first().map_or(0, |packet| packet.arrival),
        }
    }

    /// The range of what is kept of reads: "at most" so much, or 0.
    fn of_reads(&self, most: u64) -> u64 {
        if self.judged() {
            most
        } else {
            0
        }
    }

    /// Whether there is a buffer to be judged.
    fn judged(&self) -> bool {
        self.profile != Profile::Compressed
    }

    /// Whether set-up accepts the numbers of this stream as another profile.
    fn accepted_as(&self, profile: u64) -> bool {
        set_up(EDITION_1, &self.numbers.of(profile)).is_ok()
    }

    /// "den is 25n for gapped, n for linear", also of fields: n is the frame's.
    fn read_den_of(&self, n: u64) -> u64 {
        if self.numbers.schedule == 0 {
            25 * n
        } else {
            n
        }
    }
}

/// Collects both sides of the ranges.
#[derive(Default)]
struct Sides(Vec<Change>);

impl Sides {
    fn push(&mut self, words: &[(u8, u64)], in_range: bool) {
        let words = words.to_vec();
        self.0.push(Change { words, in_range });
    }

    fn within(&mut self, words: &[(u8, u64)]) {
        self.push(words, true);
    }

    fn outside(&mut self, words: &[(u8, u64)]) {
        self.push(words, false);
    }

    /// "at most": the greatest value, one more, and the greatest of 64 bits.
    fn at_most(&mut self, word: u8, most: u64) {
        self.within(&[(word, most)]);
        self.outside(&[(word, most + 1)]);
        self.outside(&[(word, u64::MAX)]);
    }
}

/// Changes on both sides of every range of the state that a history has, of which
/// the measurement is given too.
pub fn changes(stream: &Stream, history: &[Packet], so_far: &Measurement) -> Vec<Change> {
    let known = Known::of(stream, history, so_far);
    let mut sides = Sides::default();
    stream_numbers(&known, &mut sides);
    edition(&known, &mut sides);
    profile(&known, &mut sides);
    compressed(&mut sides);
    interlaced(&known, &mut sides);
    past(&known, &mut sides);
    bucket(&known, &mut sides);
    counts(&known, &mut sides);
    open_frame(&known, &mut sides);
    kept(&known, &mut sides);
    sides.0
}

/// "They are in range exactly where set-up accepts them", and each fits its type.
fn stream_numbers(known: &Known, sides: &mut Sides) {
    let numbers = &known.numbers;
    for rate in [0, 9, 256 + numbers.rate, u64::MAX] {
        sides.outside(&[(RATE, rate)]);
    }
    for schedule in [2, 256 + numbers.schedule] {
        sides.outside(&[(SCHEDULE, schedule)]);
    }
    for class in [4, 256 + numbers.class] {
        sides.outside(&[(CLASS, class)]);
    }
    // "0 or 3; 1 with schedule 0; 2 with schedule 1".
    for class in 0..4 {
        for schedule in 0..2 {
            // The range of the wait depends on the schedule, and 0 is in each.
            let words = [(SCHEDULE, schedule), (CLASS, class), (WAIT, 0)];
            if class == 0 || class == 3 || class == schedule + 1 {
                sides.within(&words);
            } else {
                sides.outside(&words);
            }
        }
    }
    sides.within(&[(HEIGHT, 1)]);
    sides.within(&[(HEIGHT, 65_535)]);
    sides.outside(&[(HEIGHT, 0)]);
    sides.outside(&[(HEIGHT, 65_536)]);
    sides.within(&[(N, 20_000)]);
    sides.outside(&[(N, 0)]);
    sides.outside(&[(N, 20_001)]);
    sides.outside(&[(N, (1 << 32) + numbers.packets_per_frame)]);
    // Request (ix): "5 also for odd n here".
    let frames = known.profile != Profile::Interlaced;
    for (n, in_range) in [(1, frames), (2, true), (3, frames), (19_999, frames)] {
        sides.push(&[&[(N, n)][..], &NO_READS].concat(), in_range);
    }
    sides.within(&[(MAXUDP, 1460)]);
    sides.within(&[(MAXUDP, 8960)]);
    for maxudp in [0, 1459, 1461, 8961, 65_536 + 1460] {
        sides.outside(&[(MAXUDP, maxudp)]);
    }
    // "4,294,967,295, or 27000·tro < F"; request (ix): "7 also for a default TRO or
    // one of F/2 and above".
    let most = ((known.period.length - 1) / GRAINS_PER_MICROSECOND) as u64;
    sides.within(&[(TRO, most)]);
    sides.push(&[(TRO, 0xffff_ffff)], frames);
    sides.outside(&[(TRO, most + 1)]);
    sides.outside(&[(TRO, 0xffff_fffe)]);
    sides.outside(&[(TRO, 1 << 32)]);
}

/// "1 or 2", and a broken answer "only where the edition is 2". A word that is 1
/// or 2 in its low 32 bits alone is neither. Whoever changes the edition changes
/// how the next frames are judged, and here none follow.
fn edition(known: &Known, sides: &mut Sides) {
    for other in [
        0,
        3,
        255,
        0xffff_ffff,
        (1 << 32) + 1,
        (1 << 32) + 2,
        u64::MAX,
    ] {
        sides.outside(&[(EDITION, other)]);
    }
    sides.within(&[(EDITION, u64::from(EDITION_2))]);
    let broken = matches!(known.buffer, Buffer::Broken { .. });
    sides.push(&[(EDITION, u64::from(EDITION_1))], !broken);
}

/// The five words that a compressed state has as 0.
const OF_READS: [u8; 5] = [READS, WAIT, TOP, LATE, DEFICIT];

/// What a state of any n and of either period may have of reads: the range of each
/// hangs on n or on the frame length, and 0 is in all of them.
const NO_READS: [(u8, u64); 3] = [(READS, 0), (WAIT, 0), (DEFICIT, 0)];

/// "any of the three", and a word that is 1, 3 or 4 in its low bits alone is none of
/// them. As video every state is in range, since 0 and none are, and half a frame
/// and half its packets are within a frame. As compressed another is in range where
/// there is nothing that it would have to have lost: a first packet in its open frame
/// is in the buffer, or comes after a read.
fn profile(known: &Known, sides: &mut Sides) {
    for other in [0, 2, 5, 255, u64::MAX] {
        sides.outside(&[(PROFILE, other)]);
    }
    for lookalike in PROFILES.map(|profile| 256 + profile) {
        sides.outside(&[(PROFILE, lookalike)]);
    }
    sides.outside(&[(PROFILE, (1 << 32) + COMPRESSED)]);
    let nothing = known.held == 0 && known.buffer == Buffer::None;
    sides.within(&[(PROFILE, VIDEO)]);
    sides.push(&[(PROFILE, COMPRESSED)], nothing || !known.judged());
    // Where no frame is open, nothing is kept of one: set-up alone decides. Where one
    // is, its first packet may come later than a field's can.
    let fields = known.accepted_as(INTERLACED);
    if known.held == 0 || !fields || known.profile == Profile::Interlaced {
        sides.push(&[(PROFILE, INTERLACED)], fields);
    }
}

/// What makes a compressed state of any, and then one thing more than that.
fn compressed(sides: &mut Sides) {
    let mut none = vec![(PROFILE, COMPRESSED)];
    none.extend(OF_READS.map(|word| (word, 0)));
    none.extend(answer(0, 0, 0));
    sides.within(&none);
    for word in OF_READS {
        sides.outside(&with(&none, word, 1));
    }
    let front = none.len() - 3;
    for failed in [
        answer(1, 0, 0),
        answer(2, 0, 0),
        answer(3, 0, 0),
        answer(4, 0, 1),
    ] {
        for edition in [EDITION_1, EDITION_2] {
            let by = [(EDITION, u64::from(edition))];
            sides.outside(&[&none[..front], &failed, &by].concat());
        }
    }
}

/// What makes an interlaced state of any: an even n, a TRO below half a frame, and
/// nothing of an open frame that hangs on its length or its packets. Then both sides
/// of what hangs on them: half of what a frame has.
fn interlaced(known: &Known, sides: &mut Sides) {
    const PACKETS_OF_A_FIELD: u64 = 3;
    let even = 2 * PACKETS_OF_A_FIELD;
    let (den, half) = (known.read_den_of(even), known.frame / 2);
    let mut fields = vec![(PROFILE, INTERLACED), (N, even), (TRO, 700), (PHASE, 0)];
    fields.extend(NO_READS);
    sides.within(&fields);
    for (word, most) in [
        (N, 20_000),
        (TRO, (half - 1) / GRAINS_PER_MICROSECOND as u64),
        (PHASE, 2 * half),
        (READS, PACKETS_OF_A_FIELD),
        (WAIT, 2 * half * den),
        (DEFICIT, PACKETS_OF_A_FIELD),
    ] {
        sides.within(&with(&fields, word, most));
        sides.outside(&with(&fields, word, most + 1));
    }
    for (word, value) in [(N, 1), (N, 5), (N, 19_999), (TRO, 0xffff_ffff)] {
        sides.outside(&with(&fields, word, value));
    }
}

/// These words, with another value for one of them.
fn with(words: &[(u8, u64)], word: u8, value: u64) -> Vec<(u8, u64)> {
    assert!(words.iter().any(|(other, _)| *other == word));
    let changed = |(other, own): &(u8, u64)| (*other, if *other == word { value } else { *own });
    words.iter().map(changed).collect()
}

/// The three words of a buffer answer.
fn answer(number: u64, frame: u64, place: u64) -> [(u8, u64); 3] {
    [
        (BUFFER, number),
        (BUFFER_FRAME, frame),
        (BUFFER_PLACE, place),
    ]
}

/// "packets ≤ 1,000,000,000; packets = 0 implies first = 0; packets = 0 implies
/// last = 0; first ≤ last; last − first ≤ 600,000,000,000."
fn past(known: &Known, sides: &mut Sides) {
    let Past { count, first, last } = known.past;
    sides.at_most(PACKETS, MOST_PACKETS);
    if count == 0 {
        sides.outside(&[(FIRST, 1), (LAST, 1)]);
        sides.outside(&[(LAST, 1)]);
        return;
    }
    // The level of a history that has a packet is above 0.
    sides.outside(&[(PACKETS, 0)]);
    if let Some(after) = last.checked_add(1) {
        sides.outside(&[(FIRST, after)]);
    }
    if let Some(earliest) = last.checked_sub(LONGEST_HISTORY) {
        sides.within(&[(FIRST, earliest)]);
        if earliest > 0 {
            sides.outside(&[(FIRST, earliest - 1)]);
        }
    }
    if let Some(latest) = first.checked_add(LONGEST_HISTORY) {
        sides.within(&[(LAST, latest)]);
        if latest < u64::MAX {
            sides.outside(&[(LAST, latest + 1)]);
        }
    }
    if first > 0 {
        sides.outside(&[(LAST, first - 1)]);
    }
}

/// Each "at most `past.packets`"; an answer's other numbers are 0 for a pass.
fn bucket(known: &Known, sides: &mut Sides) {
    let packets = known.past.count;
    for word in [LEVEL, START, PEAK] {
        sides.at_most(word, packets);
    }
    let answer = |number, first, last| [(NETWORK, number), (RUN_FIRST, first), (RUN_LAST, last)];
    sides.within(&answer(0, 0, 0));
    sides.within(&answer(1, 0, 0));
    sides.within(&answer(1, packets, packets));
    sides.outside(&answer(1, packets + 1, packets));
    sides.outside(&answer(1, packets, packets + 1));
    sides.outside(&answer(0, 1, 0));
    sides.outside(&answer(0, 0, 1));
    sides.outside(&answer(2, 0, 0));
    sides.outside(&answer(u64::MAX, 0, 0));
}

/// "true only where `past.packets` is above 0"; "where `begun`: from
/// `past.first` to `past.last`; else any".
fn counts(known: &Known, sides: &mut Sides) {
    let Past { count, first, last } = known.past;
    // "below 10F".
    sides.at_most(REST, 10 * known.frame - 1);
    sides.at_most(CLOSED, count);
    sides.outside(&[(BEGUN, 2)]);
    sides.outside(&[(BEGUN, u64::MAX)]);
    match known.marked {
        None if count == 0 => {
            sides.outside(&[(BEGUN, 1)]);
            sides.within(&[(MARKED, u64::MAX)]);
        }
        None => {
            sides.within(&[(BEGUN, 1), (MARKED, first)]);
            sides.within(&[(BEGUN, 1), (MARKED, last)]);
            if first > 0 {
                sides.outside(&[(BEGUN, 1), (MARKED, first - 1)]);
            }
            sides.within(&[(MARKED, u64::MAX)]);
        }
        Some(marked) => {
            sides.within(&[(BEGUN, 0)]);
            sides.within(&[(MARKED, first)]);
            if first > 0 {
                sides.outside(&[(MARKED, first - 1)]);
            }
            // An open frame's first packet is not before the marker.
            let latest = if known.held > 0 {
                known.open_first
            } else {
                last
            };
            sides.within(&[(MARKED, latest)]);
            if latest < u64::MAX {
                sides.outside(&[(MARKED, latest + 1)]);
            }
            assert!(marked <= latest);
        }
    }
}

/// "where `held` is above 0: from `frames.marked` to `past.last`; else any".
fn open_frame(known: &Known, sides: &mut Sides) {
    let Past { count, last, .. } = known.past;
    sides.outside(&[(HELD, count + 1), (OPEN_FIRST, last)]);
    if count > 0 {
        sides.within(&[(HELD, count), (OPEN_FIRST, last)]);
    }
    if known.held > 0 {
        let marked = known.marked.expect("a frame is open after a marker");
        sides.within(&[(OPEN_FIRST, marked)]);
        sides.within(&[(OPEN_FIRST, last)]);
        if marked > 0 {
            sides.outside(&[(OPEN_FIRST, marked - 1)]);
        }
        if last < u64::MAX {
            sides.outside(&[(OPEN_FIRST, last + 1)]);
        }
    } else {
        sides.within(&[(OPEN_FIRST, u64::MAX)]);
    }
    sides.at_most(STAMP, 0xffff_ffff);
    // Twice the period, as many reads as it has packets.
    let Period { length, packets } = known.period;
    let twice = 2 * length as u64;
    sides.at_most(PHASE, twice);
    sides.at_most(READS, known.of_reads(packets as u64));
    let n = known.numbers.packets_per_frame;
    sides.at_most(WAIT, known.of_reads(twice * known.read_den_of(n)));
}

/// "at most `held`", "at most n"; of a compressed state the latter three are 0.
fn kept(known: &Known, sides: &mut Sides) {
    sides.at_most(DIFFERS, known.held);
    for word in [TOP, LATE] {
        sides.at_most(word, known.of_reads(known.held));
    }
    sides.at_most(DEFICIT, known.of_reads(known.period.packets as u64));
    buffer(known, sides);
    broken(known, sides);
}

/// The buffer answer's numbers "at most `past.packets`", and 0 for none and pass; a
/// compressed state has none alone, and as video it may have any.
fn buffer(known: &Known, sides: &mut Sides) {
    let packets = known.past.count;
    let judged = known.judged();
    for none in [0, 1] {
        sides.push(&answer(none, 0, 0), judged || none == 0);
        sides.outside(&answer(none, 1, 0));
        sides.outside(&answer(none, 0, 1));
    }
    for failed in [2, 3] {
        sides.push(&answer(failed, 0, 0), judged);
        sides.push(&answer(failed, packets, packets), judged);
        sides.outside(&answer(failed, packets + 1, packets));
        sides.outside(&answer(failed, packets, packets + 1));
    }
    // A failing answer that both editions have, by each.
    for edition in [EDITION_1, EDITION_2] {
        let under = [&answer(2, 0, 0)[..], &[(EDITION, u64::from(edition))]].concat();
        sides.push(&under, judged);
        sides.within(&[&under[..], &[(PROFILE, VIDEO)]].concat());
    }
    sides.outside(&answer(5, 0, 0));
    sides.outside(&answer(256 + 4, 0, 1));
    sides.outside(&answer(u64::MAX, 0, 0));
}

/// Of a broken frame its kind, 1 to 3, which hangs on no count of packets.
fn broken(known: &Known, sides: &mut Sides) {
    let packets = known.past.count;
    let judged = known.judged();
    for (frame, kind, in_range) in [
        (0, 1, true),
        (0, 3, true),
        (packets, 2, true),
        (packets, 3, true),
        (packets + 1, 1, false),
        (u64::MAX, 1, false),
        (0, 0, false),
        (0, 4, false),
        (packets, packets.max(4), false),
        (0, u64::MAX, false),
    ] {
        let broken = answer(4, frame, kind);
        let by = |edition| [&broken[..], &[(EDITION, u64::from(edition))]].concat();
        let two = known.edition == Edition::Two;
        sides.push(&broken, in_range && judged && two);
        // The same by the one edition and by the other; and by the other as video.
        sides.outside(&by(EDITION_1));
        sides.push(&by(EDITION_2), in_range && judged);
        let as_video = [&by(EDITION_2)[..], &[(PROFILE, VIDEO)]].concat();
        sides.push(&as_video, in_range);
    }
}
