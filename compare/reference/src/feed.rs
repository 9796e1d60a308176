//! Streams fed call after call: packets dealt out over calls, with calls
//! between them that are refused, and what each call must answer.
//!
//! The state is the library's own, and the host carries its words from call to
//! call. What must come of a call is worked out from the list of all packets
//! up to it; for refusal 9, words are changed as `ranges` says.

use std::collections::BTreeMap;

use crate::measure::{measure_accepted, Measurement, Row, ROW_NUMBERS};
use crate::numbers::{set_up, Numbers};
use crate::output::nine_numbers;
use crate::packet::{first_refused, zip, Packet, Past, LONGEST_HISTORY, MOST_PACKETS};
use crate::random::Random;
use crate::ranges::{changed_nine, changes, Change, Stream, PACKETS, STATE_WORDS};
use crate::stream::mended_numbers;
use crate::Refusal;

/// The numbers that sum up a state.
const SUMMARY: u64 = 9;
/// Row numbers lent where the room does not matter.
const PLENTY: u64 = 300;

#[derive(Clone, Debug, Default, PartialEq, Eq)]
pub struct Lists {
    pub arrivals: Vec<u64>,
    pub timestamps: Vec<u32>,
    pub markers: Vec<u8>,
}

impl Lists {
    pub fn of(packets: &[Packet]) -> Lists {
        Lists {
            arrivals: packets.iter().map(|packet| packet.arrival).collect(),
            timestamps: packets.iter().map(|packet| packet.timestamp).collect(),
            markers: packets.iter().map(|packet| packet.marker).collect(),
        }
    }

    /// As a call lends them.
    pub fn lent(&self) -> (&[u64], &[u32], &[u8]) {
        (&self.arrivals, &self.timestamps, &self.markers)
    }
}

/// What the writer refuses in a version that there is, where 50 bytes are lent, in the
/// order of its refusals: all seven numbers wrong, mended one after the other, then
/// lists that are wrong, and last good ones, which take 51 bytes.
pub fn refused_writes() -> Vec<(Refusal, Numbers, Lists)> {
    let lists = |arrivals: &[u64], timestamps: &[u32], markers: &[u8]| Lists {
        arrivals: arrivals.to_vec(),
        timestamps: timestamps.to_vec(),
        markers: markers.to_vec(),
    };
    let uneven = lists(&[5, 4], &[0], &[2, 2]);
    let mended = mended_numbers();
    let accepted = mended[7];
    let mut all: Vec<(Refusal, Numbers, Lists)> = (1..=7)
        .zip(mended)
        .map(|(number, numbers)| (Refusal::new(number, 0), numbers, uneven.clone()))
        .collect();
    for (number, place, lists) in [
        (10, 0, uneven),
        (11, 1, lists(&[5, 4], &[0, 0], &[0, 2])),
        (12, 1, lists(&[5, 4], &[0, 0], &[0, 1])),
        (13, 1, lists(&[5, LONGEST_HISTORY + 6], &[0, 0], &[0, 1])),
        (24, 0, lists(&[5, 6], &[0, 0], &[0, 1])),
    ] {
        all.push((Refusal::new(number, place), accepted, lists));
    }
    all
}

/// One call, on the words that the last accepted call left.
#[derive(Clone, Debug, PartialEq)]
pub struct Feed {
    /// The stream is set up before it, and nothing has been fed.
    pub anew: bool,
    /// How many words are lent: a state's, more, or too few.
    pub words: u64,
    /// Words changed before the call. After it the words are as they were.
    pub changes: Vec<(u8, u64)>,
    pub lists: Lists,
    /// Row numbers lent.
    pub rows: u64,
    /// Numbers lent for the summary.
    pub out: u64,
    pub number: u8,
    pub place: u64,
    /// Of an accepted call: the summary, and the rows that it writes.
    pub nine: [i64; 9],
    pub written: Vec<Row>,
}

/// A list of accepted packets as it is dealt out, and the calls made of it.
struct Feeder {
    stream: Stream,
    list: Vec<Packet>,
    /// How many packets of the list have been fed.
    fed: usize,
    /// The list's first packets, measured, by how many they are.
    measured: BTreeMap<usize, Measurement>,
    anew: bool,
    calls: Vec<Feed>,
}

impl Feeder {
    /// Set-up accepts the edition and the numbers.
    fn new(edition: u32, numbers: &Numbers, list: &[Packet]) -> Feeder {
        let limits = set_up(edition, numbers).expect("numbers of a stream that is fed");
        Feeder {
            stream: Stream {
                numbers: *numbers,
                limits,
            },
            list: list.to_vec(),
            fed: 0,
            measured: BTreeMap::new(),
            anew: true,
            calls: vec![],
        }
    }

    fn set_up_again(&mut self) {
        self.fed = 0;
        self.anew = true;
    }

    fn history(&self) -> &[Packet] {
        &self.list[..self.fed]
    }

    /// Both sides of every range of the state that has been reached.
    fn changes(&mut self) -> Vec<Change> {
        let so_far = self.up_to(self.fed);
        changes(&self.stream, self.history(), &so_far)
    }

    /// The whole list up to a place, measured as one.
    fn up_to(&mut self, end: usize) -> Measurement {
        let (limits, list) = (&self.stream.limits, &self.list);
        let measured = || measure_accepted(limits, &list[..end]);
        self.measured.entry(end).or_insert_with(measured).clone()
    }

    /// A call that is refused by 9 unless more is said of it.
    fn call(&mut self, lists: Lists, rows: u64, out: u64) -> &mut Feed {
        let anew = std::mem::replace(&mut self.anew, false);
        self.calls.push(Feed {
            anew,
            words: STATE_WORDS,
            changes: vec![],
            lists,
            rows,
            out,
            number: 9,
            place: 0,
            nine: [0; 9],
            written: vec![],
        });
        self.calls.last_mut().expect("just pushed")
    }

    /// The packets up to a place, which are accepted. It lends more words, row
    /// numbers and summary numbers than are needed, where that is said.
    fn accepted(&mut self, end: usize, [words, rows, out]: [u64; 3]) {
        let lists = Lists::of(&self.list[self.fed..end]);
        let written = self.up_to(self.fed).rows.len();
        let after = self.up_to(end);
        let closed = after.rows[written..].to_vec();
        let needed = (ROW_NUMBERS * closed.len()) as u64;
        let feed = self.call(lists, needed + rows, SUMMARY + out);
        feed.words += words;
        feed.number = 0;
        feed.nine = nine_numbers(&after);
        feed.written = closed;
        self.fed = end;
    }

    /// A call that is refused: by its lists, 10 to 13, or else for want of
    /// room, which is 15 with "the call's first packet's" place.
    fn refused(&mut self, lists: Lists, rows: u64, out: u64) {
        let packets = zip(&lists.arrivals, &lists.timestamps, &lists.markers);
        let refusal = match packets {
            Err(refusal) => refusal,
            Ok(packets) => first_refused(Past::of(self.history()), &packets)
                .unwrap_or_else(|| Refusal::new(15, self.fed as u64)),
        };
        let feed = self.call(lists, rows, out);
        feed.number = refusal.number;
        feed.place = refusal.place;
    }

    /// A call on changed words: 9, or accepted with no packets and nothing
    /// changed by it.
    fn changed(&mut self, change: &Change, lists: Lists) {
        let nine = changed_nine(&self.up_to(self.fed), &change.words);
        let lists = if change.in_range {
            Lists::default()
        } else {
            lists
        };
        let feed = self.call(lists, PLENTY, SUMMARY);
        feed.changes = change.words.clone();
        feed.number = if change.in_range { 0 } else { 9 };
        feed.nine = nine;
    }

    /// "14: more than 1,000,000,000 packets", of a state that has had that
    /// many, or some fewer. 11 comes before it.
    fn full(&mut self, fewer: u64, marker: u8) {
        let packet = Packet::new(Past::of(self.history()).last, 0, 0);
        let mut packets = vec![packet; fewer as usize + 1];
        packets[fewer as usize].marker = marker;
        let feed = self.call(Lists::of(&packets), PLENTY, SUMMARY);
        feed.changes = vec![(PACKETS, MOST_PACKETS - fewer)];
        feed.number = if marker > 1 { 11 } else { 14 };
        feed.place = MOST_PACKETS;
    }
}

/// The packets before the first that is refused, and those from it on.
fn split(packets: &[Packet]) -> (&[Packet], &[Packet]) {
    let refused = first_refused(Past::default(), packets);
    packets.split_at(refused.map_or(packets.len(), |refusal| refusal.place as usize))
}

// --- calls that are refused, of packets that are accepted up to `end` ---

/// Too little room: one row number too few or fewer, too few for the summary.
fn no_room(feeder: &mut Feeder, random: &mut Random, end: usize) {
    let written = feeder.up_to(feeder.fed).rows.len();
    let needed = (ROW_NUMBERS * (feeder.up_to(end).rows.len() - written)) as u64;
    let packets = feeder.list[feeder.fed..end].to_vec();
    if needed > 0 {
        let fewer = random.below(needed);
        feeder.refused(Lists::of(&packets), needed - 1, SUMMARY);
        feeder.refused(Lists::of(&packets), fewer, SUMMARY + 1);
    }
    let more = random.below(20);
    let short = random.pick(&[0, 1, SUMMARY - 1, SUMMARY - 1]);
    feeder.refused(Lists::of(&packets), needed + more, short);
}

/// Lists of unequal length, which may hold a wrong marker too: 10 comes first.
fn unequal(feeder: &mut Feeder, random: &mut Random, end: usize) {
    let mut lists = Lists::of(&feeder.list[feeder.fed..end]);
    let fewer = (end - feeder.fed).checked_sub(1);
    match (random.below(6), fewer) {
        (0, Some(fewer)) => lists.arrivals.truncate(fewer),
        (1, Some(_)) => lists.timestamps.clear(),
        (2, Some(fewer)) => lists.markers.truncate(fewer),
        (3, _) => lists.arrivals.push(random.bits()),
        (4, _) => lists.timestamps.push(0),
        _ => lists.markers.push(2),
    }
    let (rows, out) = random.pick(&[(PLENTY, SUMMARY), (0, SUMMARY), (PLENTY, 0), (0, 0)]);
    feeder.refused(lists, rows, out);
}

/// One packet of the call is wrong by 11, 12 or 13, and then there may be no
/// room either.
fn wrong_packet(feeder: &mut Feeder, random: &mut Random, end: usize) {
    if end == feeder.fed {
        return;
    }
    let place = feeder.fed + random.place(end - feeder.fed);
    let before = place.checked_sub(1).map(|place| feeder.list[place].arrival);
    let too_late = feeder.list[0].arrival.checked_add(LONGEST_HISTORY + 1);
    let mut packets = feeder.list[feeder.fed..end].to_vec();
    let packet = &mut packets[place - feeder.fed];
    match (random.below(3), before, too_late) {
        (1, Some(before), _) if before > 0 => packet.arrival = before - 1,
        (2, Some(_), Some(too_late)) => packet.arrival = too_late,
        _ => packet.marker = random.pick(&[2, 3, 255]),
    }
    let (rows, out) = random.pick(&[(PLENTY, SUMMARY), (0, SUMMARY), (PLENTY, 8), (0, 0)]);
    feeder.refused(Lists::of(&packets), rows, out);
}

/// Words that are no state in range, words that just are one, and a state that
/// has had all the packets there may be.
fn other_words(feeder: &mut Feeder, random: &mut Random, end: usize) {
    let all = feeder.changes();
    let packets = feeder.list[feeder.fed..end].to_vec();
    for _ in 0..6 {
        let mut lists = Lists::of(&packets);
        if random.chance(50) {
            // 9 comes before 10.
            lists.markers.push(2);
        }
        feeder.changed(&all[random.place(all.len())], lists);
    }
    let words = random.pick(&[0, 1, STATE_WORDS - 1, STATE_WORDS - 1]);
    feeder.call(Lists::of(&packets), PLENTY, SUMMARY).words = words;
    let (fewer, marker) = (random.below(3), random.pick(&[0, 1, 1, 2]));
    feeder.full(fewer, marker);
}

// --- whole cases ---

/// A stream dealt out: at once, and again over some calls, with calls that are
/// refused in between. A packet that is refused is tried last, by itself and
/// with half of those before it.
pub fn dealt(
    random: &mut Random,
    edition: u32,
    numbers: &Numbers,
    packets: &[Packet],
) -> Vec<Feed> {
    let (good, bad) = split(packets);
    let mut feeder = Feeder::new(edition, numbers, good);
    feeder.accepted(good.len(), [0, random.below(20), 0]);
    feeder.set_up_again();
    let mut ends: Vec<usize> = (0..random.below(5))
        .map(|_| random.place(good.len() + 1))
        .collect();
    ends.push(good.len());
    ends.sort_unstable();
    for end in ends {
        match random.below(8) {
            0 | 1 => no_room(&mut feeder, random, end),
            2 => unequal(&mut feeder, random, end),
            3 | 4 => wrong_packet(&mut feeder, random, end),
            5 => other_words(&mut feeder, random, end),
            _ => {}
        }
        let more = random.pick(&[0, 0, 1, 9, 200]);
        feeder.accepted(end, [random.below(3), more, random.below(3)]);
    }
    no_room(&mut feeder, random, good.len());
    if !bad.is_empty() {
        feeder.refused(Lists::of(bad), PLENTY, SUMMARY);
        let half = good.len() / 2;
        feeder.set_up_again();
        feeder.accepted(half, [0; 3]);
        feeder.refused(Lists::of(&packets[half..]), 0, 0);
    }
    feeder.calls
}

/// A short stream at once, then cut in two at each place, and in three at each
/// pair of places among the first so many; every call with just enough room.
pub fn cut_everywhere(
    edition: u32,
    numbers: &Numbers,
    packets: &[Packet],
    in_three: usize,
) -> Vec<Feed> {
    let (good, bad) = split(packets);
    let mut feeder = Feeder::new(edition, numbers, good);
    feeder.accepted(good.len(), [0; 3]);
    let last = good.len().min(in_three);
    let three = (0..=last).flat_map(|first| (first..=last).map(move |second| (first, second)));
    let two = (0..=good.len()).map(|place| (place, good.len()));
    for (first, second) in two.chain(three) {
        feeder.set_up_again();
        for end in [first, second, good.len()] {
            feeder.accepted(end, [0; 3]);
        }
    }
    if !bad.is_empty() {
        feeder.refused(Lists::of(bad), 0, 0);
    }
    feeder.calls
}

/// Both sides of every range, after each of some first packets of a stream,
/// and the other refusals there.
pub fn ranges_after(
    edition: u32,
    numbers: &Numbers,
    packets: &[Packet],
    ends: &[usize],
) -> Vec<Feed> {
    let mut random = Random::new(0, 9);
    let mut feeder = Feeder::new(edition, numbers, packets);
    for &end in ends {
        feeder.accepted(end, [0; 3]);
        for change in feeder.changes() {
            feeder.changed(&change, Lists::default());
        }
        for words in [0, 1, STATE_WORDS - 1] {
            feeder.call(Lists::default(), 0, SUMMARY).words = words;
        }
        for (fewer, marker) in [(0, 0), (0, 1), (0, 2), (1, 0), (2, 1)] {
            feeder.full(fewer, marker);
        }
        for _ in 0..6 {
            no_room(&mut feeder, &mut random, packets.len());
            unequal(&mut feeder, &mut random, packets.len());
            wrong_packet(&mut feeder, &mut random, packets.len());
        }
    }
    feeder.calls
}
