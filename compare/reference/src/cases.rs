//! Cases for the C host: a call, what it lends, and all that must come of it.
//!
//! First those of the fixed inputs, which are document 01's own and reach every
//! outcome; then those of as many generated inputs as are asked for. An input is
//! one case, or several. A file is measured as video in version 1 and in version 2,
//! in each by edition 1 and by edition 2, and as compressed and as interlaced in each
//! version; then in other versions and by other editions, which are refused. A file
//! that is of no version stays as it is, and so does the first record of one that is
//! no parameters. Lists are written as video in version 1 and in 2, and as compressed
//! and as interlaced; then in other versions and as other profiles. Captures are
//! measured, and stream numbers set up, as video by edition 1 and by 2, and as
//! compressed and as interlaced; then by other editions and as other profiles. Lists
//! are fed likewise, and set-up refuses their numbers by others, and as interlaced
//! where it refuses those alone. As compressed and as interlaced a fixed input comes
//! in each version and by each edition, a generated one in each version of a file by
//! one edition, and else once: which it is takes turns. Limits and next reads are
//! asked as each profile and as others. A case is handed over as bytes, big-endian
//! throughout:
//!
//!   size of what follows (4), index (8), call (1), the call's input, rooms
//!
//! with the index of its input, and the input by call
//!
//!   1 measure: edition (4), length (4), file
//!   2 write:   version (1), seven numbers (15), profile (1), three counts (4
//!              each), arrivals (8 each), timestamps (4 each), markers (1 each)
//!   3 limits:  seven numbers (15), profile (1)
//!   4 graph:   three figures (8 each)
//!   5 set-up:  seven numbers (15), profile (1), edition (4)
//!   7 capture: seven numbers (15), profile (1), edition (4), port (2), offset (4),
//!              length (4), capture, and which parts the frames have that it hands on (1):
//!              1 a tag, 2 options, 4 contributors, 8 an extension
//!   8 next read: seven numbers (15), profile (1), arrival of the frame's first
//!              packet (8), arrival of the packet that waits (8)
//!
//! and the rooms: count (1), for each elements lent (8), number (1) and place
//! (8); then length (4) and bytes of what an accepted call writes, and for
//! `write` length and bytes of what `measure` then makes of the file by edition 1.
//! What set-up writes is the library's own: the length is 0.
//!
//! A case of `feed` is a row of calls and has no rooms:
//!
//!   6 feed:    seven numbers (15), profile (1), edition (4), count (4), and for each
//!              call whether the stream is set up before it (1), words lent (1),
//!              words changed (1) with place (1) and value (8) of each, three
//!              counts (4 each), arrivals, timestamps and markers, row numbers
//!              lent (4), summary numbers lent (1), number (1), place (8); and
//!              where the number is 0, the summary (9 of 8) and the row numbers
//!              written, counted (4), 8 each

use crate::capture::{expected_capture_call, parts_seen, Asked};
use crate::feed::{cut_everywhere, dealt, ranges_after, Feed, Lists};
use crate::fixed_captures::fixed_captures;
use crate::generate::{as_profiles, damaged, file, front, random_bytes, under};
use crate::generate::{other_edition, other_profile, other_version};
use crate::generate::{
    LOOKALIKES, OTHER_EDITIONS, OTHER_PROFILES, OTHER_VERSIONS, PROFILE_LOOKALIKES,
};
use crate::graph::graph;
use crate::next_read::{next_read, three_numbers, Wait};
use crate::numbers::{set_up, Numbers, EDITIONS, EDITION_1};
use crate::numbers::{COMPRESSED, INTERLACED, PROFILES, VIDEO};
use crate::output::expected_c_call;
use crate::packet::{Packet, LONGEST_HISTORY};
use crate::random::Random;
use crate::ranges::STATE_WORDS;
use crate::record::{packet_body, parameters_body, record, write, writer, VERSIONS};
use crate::stream::{accepted_numbers, greatest_field_tro, limit_numbers};
use crate::stream::{mended_numbers, refused_numbers, stream};
use crate::traffic::capture;
use crate::waits::{fixed_waits, wait};
use crate::Refusal;

/// What is called, and with what.
#[derive(Clone, Debug, PartialEq)]
pub enum Call {
    Measure {
        file: Vec<u8>,
        edition: u32,
    },
    Write {
        version: u8,
        numbers: Numbers,
        lists: Lists,
    },
    Limits(Numbers),
    Graph {
        first_packet_time: i64,
        margin: i64,
        latency: i64,
    },
    SetUp {
        numbers: Numbers,
        edition: u32,
    },
    Feed {
        numbers: Numbers,
        edition: u32,
        calls: Vec<Feed>,
    },
    Capture {
        asked: Asked,
        bytes: Vec<u8>,
    },
    NextRead(Wait),
}

/// The answer where so many elements are lent: bytes for `measure`, `write` and
/// `capture`, numbers for `limits` and the next read, doubles for `graph`, words
/// for set-up.
#[derive(Clone, Copy, Debug, PartialEq, Eq)]
pub struct Room {
    pub lent: u64,
    pub number: u8,
    pub place: u64,
}

#[derive(Clone, Debug, PartialEq)]
pub struct Case {
    pub call: Call,
    pub rooms: Vec<Room>,
    /// What an accepted call writes, as big-endian elements.
    pub filled: Vec<u8>,
    /// What `measure` fills in for the file that `write` has written.
    pub measured: Vec<u8>,
}

/// In so many inputs in a row each kind of call has its share.
pub const ROUND: u64 = 31;

/// What an input is tried with beside versions 1 and 2, editions 1 and 2 and the
/// profiles: those that there are not. Which goes with which takes turns.
struct Others {
    versions: Vec<u8>,
    editions: Vec<u32>,
    profiles: Vec<u64>,
    turn: usize,
    /// Whether what is not video comes with all that there is, or with one by turns.
    with_all: bool,
}

/// An edition and a profile.
type By = (u32, u64);

/// As what an input comes that has come as video.
const BESIDE_VIDEO: [u64; 2] = [COMPRESSED, INTERLACED];

impl Others {
    /// All that are worth a look, for a fixed input; of the editions and profiles that
    /// look like good ones one each, by turns.
    fn fixed(turn: usize) -> Others {
        let lookalike = LOOKALIKES[turn % LOOKALIKES.len()];
        let profile = PROFILE_LOOKALIKES[turn % PROFILE_LOOKALIKES.len()];
        Others {
            versions: OTHER_VERSIONS.to_vec(),
            editions: [&OTHER_EDITIONS[..], &[lookalike]].concat(),
            profiles: [&OTHER_PROFILES[..], &[profile]].concat(),
            turn,
            with_all: true,
        }
    }

    /// For a fixed wait, of which there are many: every fourth is asked as one profile
    /// that there is not.
    fn of_waits(turn: usize) -> Others {
        let all = [&OTHER_PROFILES[..], &PROFILE_LOOKALIKES].concat();
        let one = all[turn / 4 % all.len()];
        Others {
            profiles: if turn % 4 == 0 { vec![one] } else { vec![] },
            ..Others::fixed(turn)
        }
    }

    /// One of each.
    fn any(random: &mut Random, turn: usize) -> Others {
        Others {
            versions: vec![other_version(random)],
            editions: vec![other_edition(random)],
            profiles: vec![other_profile(random)],
            turn,
            with_all: false,
        }
    }

    /// Each edition that there is, and each of the others.
    fn all_editions(&self) -> Vec<u32> {
        [&EDITIONS[..], &self.editions].concat()
    }

    fn all_profiles(&self) -> Vec<u64> {
        [&PROFILES[..], &self.profiles].concat()
    }

    /// These again and again, beginning with one or another.
    fn by_turns<'a, T>(&self, all: &'a [T]) -> impl Iterator<Item = &'a T> {
        all.iter().cycle().skip(self.turn % all.len())
    }

    /// What an input that is not video comes with: all of it in its order, or one of it
    /// for each place that there is.
    fn beside_video<'a, T>(&self, place: usize, all: &'a [T]) -> impl Iterator<Item = &'a T> {
        let (first, count) = if self.with_all {
            (0, all.len())
        } else {
            ((self.turn + place) % all.len(), 1)
        };
        all.iter().cycle().skip(first).take(count)
    }

    /// With which of these, editions or versions, and as which profile that there are
    /// an input is tried: as video with each.
    fn accepted<T: Copy>(&self, each: &[T]) -> Vec<(T, u64)> {
        let mut all: Vec<(T, u64)> = each.iter().map(|one| (*one, VIDEO)).collect();
        for (place, profile) in BESIDE_VIDEO.into_iter().enumerate() {
            let turns = self.beside_video(place, each);
            all.extend(turns.map(|one| (*one, profile)));
        }
        all
    }

    /// And by which that there are not: editions as any profile, which are refused
    /// by 8, and profiles by any edition, since 22 comes before 8.
    fn refused(&self) -> Vec<By> {
        let (editions, profiles) = (self.editions.iter(), self.profiles.iter());
        let all_editions = self.all_editions();
        let by_8 = editions.zip(self.by_turns(&PROFILES));
        let by_22 = self.by_turns(&all_editions).zip(profiles);
        by_8.chain(by_22)
            .map(|(edition, profile)| (*edition, *profile))
            .collect()
    }
}

/// The cases of generated input `index` of a seed.
pub fn cases(seed: u64, index: u64) -> Vec<Case> {
    // The files of `generate` depend on seed and number too; the other cases
    // must not repeat their choices.
    let mut random = Random::new(seed ^ 0x6361_7365, index);
    // Within one kind of call it goes on with every second round, as set-ups come in
    // every second one.
    let turn = (index / ROUND / 2 + index % ROUND) as usize;
    let others = Others::any(&mut Random::new(seed ^ 0x6f74_6865, index), turn);
    let calls = match index % ROUND {
        0..=11 => measured(&others, &file(seed, index)),
        12..=15 => written(&others, lists(&mut random)),
        16 if index / ROUND % 2 == 0 => limits_of(&others, &any_numbers(&mut random)),
        16 => set_ups(&others, any_numbers(&mut random)),
        17..=18 => fed(&mut random, &others),
        19 => vec![figures(&mut random)],
        20 => waited(&others, &wait(&mut random)),
        _ => captured(&others, capture(seed, index)),
    };
    answered_all(&mut random, calls)
}

fn answered_all(random: &mut Random, calls: Vec<Call>) -> Vec<Case> {
    let calls = calls.into_iter();
    calls.map(|call| answered(random, call)).collect()
}

fn measure_call(file: &[u8], edition: u32) -> Call {
    Call::Measure {
        file: file.to_vec(),
        edition,
    }
}

/// The same file as video in each version by each edition, as compressed and as
/// interlaced. Then in versions that there are not, by any edition and as any profile,
/// and by editions that there are not, in either version and as any profile.
fn measured(others: &Others, file: &[u8]) -> Vec<Call> {
    // One that is of no version has none to change, and is not looked at further.
    let known = under(&VERSIONS, file).len() > 1;
    let twins = if known {
        as_profiles(&PROFILES, file)
    } else {
        vec![file.to_vec()]
    };
    let in_versions: Vec<Vec<Vec<u8>>> = twins.iter().map(|twin| under(&VERSIONS, twin)).collect();
    let mut calls = vec![];
    for file in &in_versions[0] {
        calls.extend(EDITIONS.map(|edition| measure_call(file, edition)));
    }
    for (place, file) in in_versions[1..].iter().flatten().enumerate() {
        let editions = others.beside_video(place, &EDITIONS);
        calls.extend(editions.map(|edition| measure_call(file, *edition)));
    }
    if known {
        let editions = others.all_editions();
        let turns = others.by_turns(&editions).zip(others.by_turns(&twins));
        for (version, (edition, twin)) in others.versions.iter().zip(turns) {
            let file = [&[*version], &twin[1..]].concat();
            calls.push(measure_call(&file, *edition));
        }
    }
    let good = in_versions.concat();
    let turns = others.editions.iter().zip(others.by_turns(&good));
    calls.extend(turns.map(|(edition, file)| measure_call(file, *edition)));
    calls
}

/// The same lists, to be written as video in each version, as compressed and as
/// interlaced. Then in versions that there are not as any profile, since 20 comes
/// before 22, and as profiles that there are not.
fn written(others: &Others, (numbers, lists): (Numbers, Lists)) -> Vec<Call> {
    let mut asked: Vec<(u8, u64)> = others.accepted(&VERSIONS);
    let profiles = others.all_profiles();
    let by_20 = others.versions.iter().zip(others.by_turns(&profiles));
    let by_22 = others.by_turns(&VERSIONS).zip(&others.profiles);
    asked.extend(
        by_20
            .chain(by_22)
            .map(|(version, profile)| (*version, *profile)),
    );
    let call = |(version, profile): (u8, u64)| Call::Write {
        version,
        numbers: numbers.of(profile),
        lists: lists.clone(),
    };
    asked.into_iter().map(call).collect()
}

/// The same capture by each edition as each profile, and by others.
fn captured(others: &Others, (asked, bytes): (Asked, Vec<u8>)) -> Vec<Call> {
    let call = |(edition, profile): By| Call::Capture {
        asked: asked.by(edition).of(profile),
        bytes: bytes.clone(),
    };
    let all = [others.accepted(&EDITIONS), others.refused()].concat();
    all.into_iter().map(call).collect()
}

/// The same call as each profile, and as others.
fn as_each_profile(others: &Others, call: impl Fn(u64) -> Call) -> Vec<Call> {
    others.all_profiles().into_iter().map(call).collect()
}

fn limits_of(others: &Others, numbers: &Numbers) -> Vec<Call> {
    as_each_profile(others, |profile| Call::Limits(numbers.of(profile)))
}

fn waited(others: &Others, wait: &Wait) -> Vec<Call> {
    as_each_profile(others, |profile| Call::NextRead(wait.of(profile)))
}

fn set_up_call(numbers: &Numbers, (edition, profile): By) -> Call {
    Call::SetUp {
        numbers: numbers.of(profile),
        edition,
    }
}

/// The same numbers by each edition as each profile, and by others.
fn set_ups(others: &Others, numbers: Numbers) -> Vec<Call> {
    let all = [others.accepted(&EDITIONS), others.refused()].concat();
    all.into_iter()
        .map(|by| set_up_call(&numbers, by))
        .collect()
}

/// A list fed by each edition as each profile; and as no stream is set up by any
/// other, its numbers are set up by those alone, and so they are as interlaced where
/// that is refused.
fn fed_by_each(
    others: &Others,
    numbers: Numbers,
    mut calls: impl FnMut(u32, &Numbers) -> Vec<Feed>,
) -> Vec<Call> {
    let mut all = vec![];
    for (edition, profile) in others.accepted(&EDITIONS) {
        let as_profile = numbers.of(profile);
        all.push(match set_up(edition, &as_profile) {
            Err(_) => set_up_call(&numbers, (edition, profile)),
            Ok(_) => Call::Feed {
                numbers: as_profile,
                edition,
                calls: calls(edition, &as_profile),
            },
        });
    }
    let refused = others.refused().into_iter();
    all.extend(refused.map(|by| set_up_call(&numbers, by)));
    all
}

/// The call with each room that is worth lending, and the answers.
fn answered(random: &mut Random, call: Call) -> Case {
    let outcome = outcome(&call);
    let rooms = match call {
        Call::Feed { .. } => vec![],
        _ => rooms(
            random,
            outcome.as_ref().ok().map(|written| written.elements),
        ),
    };
    let rooms = rooms
        .into_iter()
        .map(|lent| room(&call, &outcome, lent))
        .collect();
    let written = outcome.unwrap_or_default();
    Case {
        call,
        rooms,
        filled: written.filled,
        measured: written.measured,
    }
}

/// How many elements an accepted call writes, what they are, and what `measure`
/// makes of them.
#[derive(Default)]
struct Written {
    elements: u64,
    filled: Vec<u8>,
    measured: Vec<u8>,
}

/// What comes of a call that is lent all that it needs. Each call of a row of
/// them has an answer of its own.
fn outcome(call: &Call) -> Result<Written, Refusal> {
    match call {
        Call::Measure { file, edition } => of_bytes(expected_c_call(*edition, file, usize::MAX)),
        Call::Capture { asked, bytes } => of_bytes(expected_capture_call(asked, bytes, usize::MAX)),
        Call::Write {
            version,
            numbers,
            lists,
        } => {
            let file = writer(*version, numbers, lists.lent(), usize::MAX)?;
            let measured = expected_c_call(EDITION_1, &file, usize::MAX).2;
            Ok(Written {
                elements: file.len() as u64,
                filled: file,
                measured: measured.expect("what is written is accepted"),
            })
        }
        // It "mean[s] edition 1", as all that takes none.
        Call::Limits(numbers) => of_eights(set_up(EDITION_1, numbers).map(|limits| {
            let four = [limits.frame, limits.tro, limits.c_max, limits.vrx_full];
            four.map(|number| number as u64)
        })),
        Call::Graph {
            first_packet_time,
            margin,
            latency,
        } => of_eights(graph(*first_packet_time, *margin, *latency).map(|graph| {
            let three = [graph.first_packet_time, graph.margin, graph.latency];
            three.map(f64::to_bits)
        })),
        Call::NextRead(wait) => of_eights(next_read(wait).map(three_numbers)),
        // What stands in the words is the library's own.
        Call::SetUp { numbers, edition } => {
            let nothing = of_eights(set_up(*edition, numbers).map(|_| []))?;
            Ok(Written {
                elements: STATE_WORDS,
                ..nothing
            })
        }
        Call::Feed { .. } => Ok(Written::default()),
    }
}

fn of_bytes((number, place, filled): (u8, u64, Option<Vec<u8>>)) -> Result<Written, Refusal> {
    let filled = filled.ok_or(Refusal::new(number, place))?;
    Ok(Written {
        elements: filled.len() as u64,
        filled,
        ..Written::default()
    })
}

/// Numbers of 8 bytes; the refusals of these calls name no place.
fn of_eights<const COUNT: usize>(answer: Result<[u64; COUNT], u8>) -> Result<Written, Refusal> {
    let numbers = answer.map_err(|number| Refusal::new(number, 0))?;
    let bytes = numbers.iter().flat_map(|number| number.to_be_bytes());
    Ok(Written {
        elements: COUNT as u64,
        filled: bytes.collect(),
        ..Written::default()
    })
}

/// Exactly enough, one too few, none, more than enough. Where the call is
/// refused whatever is lent: none, and plenty.
fn rooms(random: &mut Random, needed: Option<u64>) -> Vec<u64> {
    match needed {
        Some(needed) => {
            let fewer = random.below(needed);
            let more = needed + 1 + random.below(200);
            vec![needed, needed - 1, 0, more, fewer]
        }
        None => vec![0, 1000 + random.below(1000)],
    }
}

/// Too little room is refused after all else.
fn room(call: &Call, outcome: &Result<Written, Refusal>, lent: u64) -> Room {
    let (number, place) = match outcome {
        Err(refusal) => (refusal.number, refusal.place),
        Ok(written) if lent < written.elements => too_few(call),
        Ok(_) => (0, 0),
    };
    Room {
        lent,
        number,
        place,
    }
}

/// "Too few bytes is 15 at the file's length"; "24: the writer's lent bytes are
/// fewer than the file needs", and its place is 0 as that of every other 15 here.
fn too_few(call: &Call) -> (u8, u64) {
    match call {
        Call::Measure { file, .. } => (15, file.len() as u64),
        Call::Write { .. } => (24, 0),
        _ => (15, 0),
    }
}

// --- generated calls ---

/// A stream as three lists, now and then with refused numbers, or with lists
/// that differ in length by one or by all, where a list may be refused too.
fn lists(random: &mut Random) -> (Numbers, Lists) {
    let (mut numbers, mut packets) = stream(random);
    packets.truncate(random.pick(&[2, 20, 200, 200, 2000, 20_000]));
    if random.chance(5) {
        packets.clear();
    }
    if random.chance(10) {
        numbers = refused_numbers(random);
    }
    let mut lists = Lists::of(&packets);
    if random.chance(10) {
        let keep = random.pick(&[0, packets.len().saturating_sub(1)]);
        match random.below(6) {
            0 => lists.arrivals.truncate(keep),
            1 => lists.timestamps.truncate(keep),
            2 => lists.markers.truncate(keep),
            3 => lists.arrivals.push(random.bits()),
            4 => lists.timestamps.push(0),
            _ => lists.markers.push(random.pick(&[0, 1, 2])),
        }
    }
    (numbers, lists)
}

/// A stream dealt out over calls; a short one cut everywhere, now and then. By
/// each edition and as each profile it is dealt out anew, and a quarter are such as
/// the editions often answer differently.
fn fed(random: &mut Random, others: &Others) -> Vec<Call> {
    let (numbers, mut packets) = if random.chance(25) {
        any_sent(random)
    } else {
        stream(random)
    };
    packets.truncate(random.pick(&[2, 12, 12, 60, 60, 200, 200, 400, 2000]));
    let everywhere = packets.len() <= 12 && random.chance(30);
    fed_by_each(others, numbers, |edition, numbers| {
        if everywhere {
            cut_everywhere(edition, numbers, &packets, 4)
        } else {
            dealt(random, edition, numbers, &packets)
        }
    })
}

fn any_numbers(random: &mut Random) -> Numbers {
    match random.below(10) {
        0..=2 => accepted_numbers(random),
        3..=6 => limit_numbers(random),
        7..=8 => refused_numbers(random),
        _ => random_numbers(random),
    }
}

/// Each number any that crosses the border.
fn random_numbers(random: &mut Random) -> Numbers {
    let any = random.bits();
    let wide = (any >> 16) & 0xffff_ffff;
    let within = 1 + random.below(20_000);
    let tro = random.bits() >> random.pick(&[32, 44, 50]);
    Numbers {
        rate: random.below(10),
        schedule: random.below(3),
        class: random.below(5),
        height: random.pick(&[1080, any & 0xffff]),
        packets_per_frame: random.pick(&[within, wide]),
        maxudp: random.pick(&[1460, 8960, any >> 48]),
        tro: if tro == 0xffff_ffff { None } else { Some(tro) },
        profile: VIDEO,
    }
}

/// Figures of all sizes, and those on both sides of 2^53 and at the ends.
fn figures(random: &mut Random) -> Call {
    let mut one = || {
        let any = random.bits() as i64;
        let small = any >> random.pick(&[10, 11, 20, 33, 50]);
        let edge = (1_i64 << 53) + random.pick(&[-1, 0, 0, 0, 1, 2]);
        let signed_edge = random.pick(&[edge, -edge]);
        match random.below(12) {
            0..=5 => small,
            6..=7 => (small >> 16) * 27_000,
            8..=9 => signed_edge,
            10 => random.pick(&[0, 1, -1, i64::MAX, i64::MIN, i64::MIN + 1]),
            _ => random.pick(&[small, small, any]),
        }
    };
    Call::Graph {
        first_packet_time: one(),
        margin: one(),
        latency: one(),
    }
}

// --- fixed calls ---

const NARROW: Numbers = Numbers::narrow(4);

/// The same where every profile is accepted: a field has two packets, fields start
/// 10 ms apart, read 0 comes 700 µs after that, and read 1 4.8 ms later.
const OF_ANY: Numbers = Numbers {
    tro: Some(700),
    ..NARROW
};

fn packets(list: &[(u64, u32, u8)]) -> Vec<Packet> {
    list.iter()
        .map(|&(arrival, timestamp, marker)| Packet::new(arrival, timestamp, marker))
        .collect()
}

fn example() -> Vec<Packet> {
    packets(&[
        (19_000_000, 0, 1),
        (20_700_000, 1800, 0),
        (25_500_000, 1800, 0),
        (30_300_000, 1800, 0),
        (35_100_000, 1800, 1),
    ])
}

/// The cases of each fixed input: document 01's cases on both sides of each
/// limit, its example, and one of each outcome, so that none depends on the seed.
pub fn fixed() -> Vec<Vec<Case>> {
    let mut random = Random::new(0, 0);
    let alone = |call| vec![call];
    let numbers = fixed_numbers().into_iter().enumerate();
    let mut inputs: Vec<Vec<Call>> = numbers
        .map(|(turn, numbers)| limits_of(&Others::fixed(turn), &numbers))
        .collect();
    for (turn, lists) in fixed_lists().into_iter().enumerate() {
        inputs.push(written(&Others::fixed(turn), lists));
    }
    for (turn, file) in fixed_files(&mut random).iter().enumerate() {
        inputs.push(measured(&Others::fixed(turn), file));
    }
    inputs.extend(fixed_figures().into_iter().map(alone));
    inputs.extend(fixed_feeds());
    for (turn, capture) in captures().into_iter().enumerate() {
        inputs.push(captured(&Others::fixed(turn), capture));
    }
    for (turn, wait) in waits().iter().enumerate() {
        let mut calls = waited(&Others::of_waits(turn), wait);
        // As compressed it is answered as of video: where there are many reads, which
        // take long, that is asked of every fourth.
        if turn % 4 != 0 && wait.numbers.packets_per_frame > 8 {
            calls.retain(
                |call| !matches!(call, Call::NextRead(wait) if wait.numbers.profile == COMPRESSED),
            );
        }
        inputs.push(calls);
    }
    inputs
        .into_iter()
        .map(|calls| answered_all(&mut random, calls))
        .collect()
}

/// Both sides of each limit of set-up.
fn fixed_numbers() -> Vec<Numbers> {
    let with = |change: fn(&mut Numbers)| {
        let mut numbers = NARROW;
        change(&mut numbers);
        numbers
    };
    let mut all = vec![
        with(|_| {}),
        with(|n| n.schedule = 2),
        with(|n| n.schedule = 1),
        with(|n| n.class = 2),
        with(|n| n.class = 4),
        with(|n| n.class = 0),
        with(|n| n.height = 0),
        with(|n| n.height = 1079),
        with(|n| n.packets_per_frame = 0),
        with(|n| n.packets_per_frame = 20_000),
        with(|n| n.packets_per_frame = 20_001),
        with(|n| n.maxudp = 1500),
        with(|n| n.maxudp = 8960),
        with(|n| n.tro = Some(19_999)),
        with(|n| n.tro = Some(20_000)),
        with(|n| (n.rate, n.tro) = (7, Some(16_683))),
        with(|n| (n.rate, n.tro) = (7, Some(16_684))),
        with(|n| n.packets_per_frame = 4147),
        with(|n| n.packets_per_frame = 4148),
        with(|n| n.packets_per_frame = 4859),
        with(|n| n.packets_per_frame = 4860),
        with(|n| n.packets_per_frame = 4320),
    ];
    // Every frame length, and a code on either side of them.
    all.extend((0..=9).map(|rate| Numbers { rate, ..NARROW }));
    all.extend(numbers_by_class());
    all.extend(numbers_of_fields());
    all
}

/// Request (ix): both sides of half a frame as TRO, at every rate; and both ends of n,
/// even and odd, with a TRO that is given.
fn numbers_of_fields() -> Vec<Numbers> {
    let mut all = vec![];
    for rate in 1..=8 {
        let greatest = greatest_field_tro(rate);
        all.extend([greatest, greatest + 1].map(|tro| Numbers {
            rate,
            tro: Some(tro),
            ..NARROW
        }));
    }
    for n in [1, 2, 3, 5, 6, 19_999, 20_000, 20_001] {
        all.extend([0, 1].map(|schedule| Numbers {
            packets_per_frame: n,
            schedule,
            class: 0,
            ..OF_ANY
        }));
    }
    all.push(Numbers {
        tro: Some(0),
        height: 720,
        ..NARROW
    });
    all
}

/// On each schedule class 0, and those that it may be taken for.
const CLASSES: [(u64, u64); 6] = [(0, 0), (0, 1), (0, 3), (1, 0), (1, 2), (1, 3)];

/// Each class where C_MAX or VRX_FULL of one of them grows, and the even n before.
fn numbers_by_class() -> Vec<Numbers> {
    let steps = [
        4, 4146, 4147, 4148, 4318, 4319, 4320, 4438, 4439, 4440, 4858, 4859, 4860, 7342, 7343, 7344,
    ];
    let of = |(schedule, class)| {
        steps.map(|n| Numbers {
            schedule,
            class,
            packets_per_frame: n,
            ..OF_ANY
        })
    };
    CLASSES.iter().copied().flat_map(of).collect()
}

/// Frames of one packet with each timestamp at `t` and at the nanoseconds before
/// it and after it.
fn around(t: u64, timestamps: &[u32]) -> Vec<Packet> {
    let mut list = packets(&[(t - 1, 0, 1)]);
    for arrival in [t - 1, t, t + 1] {
        let at = |timestamp: &u32| Packet::new(arrival, *timestamp, 1);
        list.extend(timestamps.iter().map(at));
    }
    list
}

/// Request (v): both sides of a wrap and of a tie, from the epoch to the end of
/// 64 bits.
fn wraps_and_ties() -> Vec<(Numbers, Vec<Packet>)> {
    let one = Numbers {
        packets_per_frame: 1,
        ..NARROW
    };
    let half = 1 << 31;
    let end = u64::MAX;
    let lists = vec![
        // The first wrap, the first on a whole nanosecond, and the last.
        around(47_721_858_844_445, &[u32::MAX, 0]),
        around(429_496_729_600_000, &[u32::MAX, 0]),
        around(18_446_741_370_743_466_667, &[u32::MAX, 0]),
        packets(&[(0, 0, 1), (0, half, 1), (1, half, 1)]),
        around(100_000, &[half + 8, half + 9, half + 10]),
        // The later encoded time is after the next wrap.
        around(23_860_929_500_000, &[7]),
        around(1_760_000_000_000_000_000, &[3_753_607_168]),
        around(18_446_744_073_709_500_000, &[2_390_750_591]),
        packets(&[(end, 0, 1), (end, 2_390_750_595, 1)]),
        packets(&[(end, 0, 1), (end, 2_390_750_596, 1)]),
    ];
    lists.into_iter().map(|list| (one, list)).collect()
}

/// So many packets at one instant, after a lead-in, that are a frame or a field and
/// all come before its reads.
fn pile(n: u64) -> Vec<Packet> {
    let mut pile = vec![Packet::new(0, 0, 1)];
    pile.extend((1..=n).map(|count| Packet::new(19_990_000, 0, u8::from(count == n))));
    pile
}

/// Streams on both sides of the limits that a class has as wide, and of those
/// that it has as narrow or narrow linear.
fn at_the_limits((schedule, class): (u64, u64)) -> Vec<(Numbers, Vec<Packet>)> {
    let of = |n| Numbers {
        schedule,
        class,
        packets_per_frame: n,
        ..OF_ANY
    };
    // C_MAX is 16 or 4; from n 4148 on it is 5 for narrow, from 4320 on for
    // narrow linear.
    let mut at_once = vec![(4, 4), (4, 5), (4, 16), (4, 17)];
    at_once.extend([4147, 4148, 4319, 4320].map(|n| (n, 5)));
    at_once.extend([4148, 4320].map(|n| (n, 6)));
    let mut all = vec![];
    for (n, count) in at_once {
        all.push((of(n), vec![Packet::new(7, 0, 0); count]));
    }
    // VRX_FULL is 739 or 8, and where MAXUDP is 8960, 120 or 1. A pile is a frame, or
    // a field of a frame that has twice as many.
    for (count, maxudp) in [(8, 1460), (9, 1460), (1, 8960), (2, 8960)] {
        for n in [count, 2 * count] {
            all.push((Numbers { maxudp, ..of(n) }, pile(count)));
        }
    }
    all
}

/// Request (viii): those of class 0, on both schedules.
pub fn class_0_streams() -> Vec<(Numbers, Vec<Packet>)> {
    [at_the_limits((0, 0)), at_the_limits((1, 0))].concat()
}

/// Request (vi): a frame as it is sent, which passes, fails or is broken.
#[derive(Clone, Copy, Debug, PartialEq, Eq)]
enum Sent {
    Good,
    /// Its first packet comes after read 0.
    Late,
    /// All packets before read 0, of which the buffer holds one.
    Piled,
    Short,
    Long,
    Stamp,
    /// Without its marker: it is still open, or makes the next one long.
    Open,
}

const SENT: [Sent; 6] = [
    Sent::Good,
    Sent::Late,
    Sent::Piled,
    Sent::Short,
    Sent::Long,
    Sent::Stamp,
];

/// What is sent four packets at a time: frames of four packets, or fields of a frame
/// of eight. Read 0 is 764 µs and a little after T_CF, or as much exactly; the others
/// are `spacing` apart.
struct Sending {
    numbers: Numbers,
    apart: u64,
    spacing: u64,
}

/// Of each the buffer holds one packet.
const FRAMES: Sending = Sending {
    numbers: Numbers {
        maxudp: 8960,
        ..NARROW
    },
    apart: 20_000_000,
    spacing: 4_800_000,
};

const FIELDS: Sending = Sending {
    numbers: Numbers {
        maxudp: 8960,
        tro: Some(764),
        ..Numbers::narrow(8)
    },
    apart: 10_000_000,
    spacing: 2_400_000,
};

/// A lead-in, and frames or fields as they are named.
fn sent(sending: &Sending, frames: &[Sent]) -> (Numbers, Vec<Packet>) {
    let Sending {
        numbers,
        apart,
        spacing,
    } = *sending;
    let mut list = packets(&[(1_000_000, 0, 0), (1_000_000, 0, 1)]);
    for (frame, sent) in (1..).zip(frames) {
        let (first, step) = match sent {
            Sent::Late => (800_000, spacing - 100_000),
            Sent::Piled => (700_000, 0),
            _ => (700_000, spacing),
        };
        let count = match sent {
            Sent::Short => 3,
            Sent::Long => 5,
            _ => 4,
        };
        for j in 0..count {
            let arrival = frame * apart + first + j * step;
            let other = u32::from(*sent == Sent::Stamp && j == 2);
            let marker = u8::from(j + 1 == count && *sent != Sent::Open);
            list.push(Packet::new(arrival, 1800 * frame as u32 + other, marker));
        }
    }
    (numbers, list)
}

/// Some frames or fields in any order.
fn any_sent(random: &mut Random) -> (Numbers, Vec<Packet>) {
    let any = [&SENT[..], &[Sent::Good, Sent::Open]].concat();
    let count = 1 + random.below(6);
    let frames: Vec<Sent> = (0..count).map(|_| random.pick(&any)).collect();
    sent(random.pick(&[&FRAMES, &FIELDS]), &frames)
}

/// Request (vi): frames that pass, that fail and that are broken, and fields likewise.
pub fn edition_streams() -> Vec<(Numbers, Vec<Packet>)> {
    [edition_streams_of(&FRAMES), edition_streams_of(&FIELDS)].concat()
}

/// Alone, in each order of two, after one that passes, and before one that is still
/// open; and lists of which no frame closes.
fn edition_streams_of(sending: &Sending) -> Vec<(Numbers, Vec<Packet>)> {
    let sent = |frames: &[Sent]| sent(sending, frames);
    let mut lists = vec![vec![], vec![Sent::Open], vec![Sent::Open, Sent::Open]];
    lists.push(vec![Sent::Good; 3]);
    for first in SENT {
        lists.push(vec![first]);
        lists.push(vec![first, Sent::Open]);
        for second in SENT {
            lists.push(vec![first, second]);
            if first != Sent::Good {
                lists.push(vec![Sent::Good, first, second]);
            }
        }
    }
    let (numbers, lead_in) = sent(&[]);
    let mut all: Vec<(Numbers, Vec<Packet>)> = lists.iter().map(|list| sent(list)).collect();
    // A lead-in that goes on, and frames of one packet: none can be short.
    all.push((numbers, lead_in[..1].to_vec()));
    let one = Numbers {
        packets_per_frame: numbers.packets_per_frame / 4,
        ..numbers
    };
    all.extend([sent(&[Sent::Good]).1, sent(&[Sent::Open]).1].map(|list| (one, list)));
    all
}

/// Lists that document 01 speaks of, with the numbers they need, and those of
/// requests (v) and (viii).
fn streams() -> Vec<(Numbers, Vec<Packet>)> {
    let one = Numbers {
        packets_per_frame: 1,
        ..NARROW
    };
    let early = Numbers {
        tro: Some(700),
        ..NARROW
    };
    let first_at = |t: u64| {
        packets(&[
            (19_000_000, 0, 1),
            (t, 1800, 0),
            (20_900_000, 1800, 0),
            (21_000_000, 1800, 0),
            (21_100_000, 1800, 1),
        ])
    };
    let end = u64::MAX;
    let broken = packets(&[
        (0, 0, 1),
        (1, 0, 1),
        (2, 0, 0),
        (3, 0, 0),
        (4, 0, 0),
        (5, 0, 0),
        (6, 0, 1),
        (7, 0, 0),
        (8, 0, 0),
        (9, 1, 0),
        (10, 0, 1),
    ]);
    // A short frame, one whose first packet is late, six packets at one instant.
    let mixed = packets(&[
        (19_000_000, 0, 1),
        (40_700_000, 3600, 0),
        (45_000_000, 3600, 1),
        (60_800_000, 5400, 0),
        (65_000_000, 5400, 0),
        (70_000_000, 5400, 0),
        (74_000_000, 5400, 1),
        (80_700_000, 7200, 0),
        (80_700_000, 7200, 0),
        (80_700_000, 7200, 0),
        (80_700_000, 7200, 1),
        (80_700_000, 9000, 0),
        (80_700_000, 9000, 0),
    ]);
    let of_document_01 = vec![
        (NARROW, example()),
        (NARROW, mixed),
        (NARROW, vec![]),
        (NARROW, packets(&[(0, 0, 0)])),
        (one, packets(&[(0, 0, 1), (10_000_000, 0, 1)])),
        (one, packets(&[(0, 0, 1), (9_999_999, 0, 1)])),
        (early, first_at(20_700_000)),
        (early, first_at(20_700_001)),
        (NARROW, packets(&[(7, 0, 1); 5])),
        (NARROW, packets(&[(7, 0, 0); 5])),
        (
            one,
            packets(&[
                (47_721_858_000_000, 0, 1),
                (47_721_858_844_445, u32::MAX, 1),
            ]),
        ),
        (
            one,
            packets(&[(47_721_858_844_444, 0, 1), (47_721_858_844_445, 0, 1)]),
        ),
        (one, packets(&[(0, u32::MAX, 1), (0, u32::MAX, 1)])),
        (one, packets(&[(end - 1, u32::MAX, 1), (end, 0, 1)])),
        (one, packets(&[(end, 0, 1), (end, u32::MAX, 1)])),
        (NARROW, broken),
        (Numbers::narrow(20), pile(20)),
        (OF_ANY, packets(&[(0, 0, 1), (LONGEST_HISTORY, 0, 1)])),
        (OF_ANY, packets(&[(0, 0, 1), (LONGEST_HISTORY + 1, 0, 1)])),
        (
            OF_ANY,
            packets(&[(end - LONGEST_HISTORY - 1, 0, 1), (end, 0, 1)]),
        ),
        (OF_ANY, packets(&[(5, 0, 1), (4, 0, 1)])),
        (OF_ANY, packets(&[(5, 0, 1), (5, 0, 2)])),
        (OF_ANY, packets(&[(5, 0, 255)])),
    ];
    let by_class = CLASSES.iter().copied().flat_map(at_the_limits).collect();
    [of_document_01, wraps_and_ties(), by_class, field_streams()].concat()
}

/// Request (ix): first packets at both sides of F/4, which has both sides of half a
/// field; fields in time and late by a nanosecond; fields whose reads go on after the
/// next one has started; and the ends of 64 bits.
fn field_streams() -> Vec<(Numbers, Vec<Packet>)> {
    let mut all = vec![];
    for (rate, quarter) in (1..=8).zip(QUARTERS) {
        let two = Numbers {
            rate,
            packets_per_frame: 2,
            ..OF_ANY
        };
        // Of the first field, and of the one after next, whose quarter is the fifth.
        all.extend([1, 5].map(|turn| (two, around(turn * quarter / 27, &[0]))));
    }
    for schedule in [0, 1] {
        let usual = Numbers {
            schedule,
            class: 0,
            ..OF_ANY
        };
        let late = Numbers {
            tro: Some(9_999),
            ..usual
        };
        all.extend(fields_in_time(usual, 700_000));
        all.extend(fields_in_time(late, 9_999_000));
        let end = u64::MAX;
        all.push((usual, packets(&[(end - 1, 0, 1), (end, 7, 0), (end, 7, 1)])));
    }
    all
}

/// F/4 of each rate code in grains.
const QUARTERS: [u64; 8] = [
    281_531_250,
    281_250_000,
    270_000_000,
    225_225_000,
    225_000_000,
    135_000_000,
    112_612_500,
    112_500_000,
];

/// Three fields of two packets, 10 ms apart from 20 ms on, where read 0 is `tro`
/// nanoseconds after the field's start and read 1 4.8 or 5 ms later. The first packet
/// of each comes early; the second, in one list, at read 1 on a gapped schedule, and
/// in the others a nanosecond or a packet's spacing to a side of it.
fn fields_in_time(numbers: Numbers, tro: u64) -> Vec<(Numbers, Vec<Packet>)> {
    let spacing = if numbers.schedule == 0 {
        4_800_000
    } else {
        5_000_000
    };
    let list = |second: u64| {
        let mut list = packets(&[(19_000_000, 0, 1)]);
        for start in [20_000_000, 30_000_000, 40_000_000] {
            // A field that comes late makes the next one wait for it.
            let last = list[list.len() - 1].arrival;
            let first = last.max(start + 600_000);
            list.push(Packet::new(first, 1800, 0));
            list.push(Packet::new(first.max(start + second), 1800, 1));
        }
        list
    };
    let read = tro + spacing;
    [read - 1, read, read + 1, read - spacing, 600_000]
        .map(|second| (numbers, list(second)))
        .to_vec()
}

fn fixed_lists() -> Vec<(Numbers, Lists)> {
    let mut all = vec![];
    for (numbers, packets) in streams() {
        all.push((numbers, Lists::of(&packets)));
    }
    let so_many = |arrivals, timestamps, markers| Lists {
        arrivals: vec![1; arrivals],
        timestamps: vec![1; timestamps],
        // 10 comes before 11.
        markers: vec![2; markers],
    };
    for (arrivals, timestamps, markers) in [(1, 2, 2), (2, 1, 2), (2, 2, 1), (0, 0, 1), (1, 0, 0)] {
        all.push((OF_ANY, so_many(arrivals, timestamps, markers)));
    }
    for numbers in [fixed_numbers(), mended_numbers()].concat() {
        // 1 to 7 come before 10, which comes before 11.
        all.push((numbers, so_many(1, 0, 0)));
        all.push((numbers, so_many(0, 1, 2)));
    }
    all
}

fn fixed_files(random: &mut Random) -> Vec<Vec<u8>> {
    let [version, _] = VERSIONS;
    let written = |numbers: &Numbers, packets: &[Packet]| write(version, numbers, packets);
    let lists = [streams(), edition_streams()].concat();
    let mut files: Vec<Vec<u8>> = lists.iter().map(|(n, p)| written(n, p)).collect();
    for numbers in [fixed_numbers(), mended_numbers()].concat() {
        files.push(written(&numbers, &[]));
    }
    // The example cut at every place and with every byte changed; its TRO is given, so
    // that it is accepted of any profile.
    let whole = written(&OF_ANY, &example());
    for place in 0..whole.len() {
        files.push(whole[..place].to_vec());
        let mut changed = whole.clone();
        changed[place] = changed[place].wrapping_add(1);
        files.push(changed);
        let mut emptied = whole.clone();
        emptied[place] = 0;
        files.push(emptied);
    }
    files.extend(wrong_records(version));
    for _ in 0..20 {
        files.push(front(random));
        files.push(damaged(random));
        files.push(random_bytes(random));
    }
    files
}

/// Records that are cut, of an unknown kind, of a wrong length, out of their
/// order or refused: first of all, after parameters, and after a packet too. The
/// first record of each file is tried as each kind of parameters, and so are those
/// that come again, behind a packet first of all too.
fn wrong_records(version: u8) -> Vec<Vec<u8>> {
    let parameters = record(&parameters_body(&OF_ANY));
    let packet = record(&packet_body(&Packet::new(5, 0, 1)));
    let mut records = vec![vec![0], vec![0, 0], vec![0, 2, 1]];
    for (kind, length) in [(0, 1), (2, 1), (5, 1), (255, 14), (5, 14), (2, 15)] {
        records.push(record(&vec![kind; length]));
    }
    let refused = Numbers { rate: 0, ..OF_ANY };
    for kind in PROFILES {
        for length in [1, 14, 15, 17] {
            records.push(record(&vec![kind as u8; length]));
        }
        records.push(record(&parameters_body(&refused.of(kind))));
        let good = record(&parameters_body(&OF_ANY.of(kind)));
        records.extend([[&packet[..], &good].concat(), good]);
    }
    // Good but for their kind, which is no parameters'.
    for kind in OTHER_PROFILES {
        records.push(record(&parameters_body(&OF_ANY.of(kind))));
    }
    for (arrival, marker) in [(5, 1), (4, 1), (5, 2)] {
        let packet = Packet::new(arrival, 0, marker);
        records.push(record(&packet_body(&packet)));
    }
    let fronts = [vec![], parameters.clone(), [parameters, packet].concat()];
    let all = fronts.iter().flat_map(|front| {
        records
            .iter()
            .map(move |wrong| [&front[..], wrong].concat())
    });
    all.map(|records| [vec![version], records].concat())
        .collect()
}

/// The ends of VL among them, which are accepted; 16 is for figures from
/// elsewhere.
fn fixed_figures() -> Vec<Call> {
    let edge = 1_i64 << 53;
    let mut calls = vec![];
    for figure in [
        0,
        27_000,
        -27_000,
        -644_245_094_400_000,
        644_245_094_399_999,
        edge,
        -edge,
        edge + 1,
        -edge - 1,
        i64::MIN,
    ] {
        for place in 0..3 {
            let at = |here| if place == here { figure } else { 1 };
            calls.push(Call::Graph {
                first_packet_time: at(0),
                margin: at(1),
                latency: at(2),
            });
        }
    }
    calls
}

/// Every list of document 01 cut everywhere, those of request (vi) in two, and both
/// sides of every range of a state, in the lead-in, at a frame's end and within a
/// frame; all by each edition and as each profile.
fn fixed_feeds() -> Vec<Vec<Call>> {
    let numbers = [fixed_numbers(), mended_numbers()].concat();
    let set_up = |(turn, numbers)| set_ups(&Others::fixed(turn), numbers);
    let mut inputs: Vec<Vec<Call>> = numbers.into_iter().enumerate().map(set_up).collect();
    let everywhere = streams().into_iter().map(|stream| (stream, usize::MAX));
    let in_two = edition_streams().into_iter().map(|stream| (stream, 0));
    for ((numbers, packets), in_three) in everywhere.chain(in_two) {
        inputs.push(fed_by_each(
            &Others::fixed(0),
            numbers,
            |edition, numbers| cut_everywhere(edition, numbers, &packets, in_three),
        ));
    }
    let late = packets(&[
        (700_000_000_000, 0, 0),
        (700_000_000_000, 0, 0),
        (700_000_000_001, 0, 1),
        (700_019_000_000, 7, 0),
        (700_019_000_003, 7, 0),
        (700_019_000_003, 8, 0),
        (700_019_000_004, 7, 1),
        (700_038_000_000, 9, 0),
    ]);
    // By edition 2 the answer is broken after seven packets of the one, and after
    // five of the other, where it becomes under by edition 1 after nine.
    let (numbers, broken) = sent(&FRAMES, &[Sent::Short, Sent::Late]);
    let (of_fields, fields) = sent(&FIELDS, &[Sent::Short, Sent::Late]);
    for (numbers, packets, ends) in [
        (NARROW, example(), vec![0, 1, 2, 5]),
        (NARROW, late, vec![0, 1, 3, 5, 7, 8]),
        (numbers, broken, vec![5, 7, 9]),
        (OF_ANY, example(), vec![0, 1, 2, 3, 5]),
        (of_fields, fields, vec![5, 7, 9]),
    ] {
        inputs.push(fed_by_each(
            &Others::fixed(0),
            numbers,
            |edition, numbers| ranges_after(edition, numbers, &packets, &ends),
        ));
    }
    inputs
}

/// The fixed waits for the next read.
pub fn waits() -> Vec<Wait> {
    fixed_waits(&fixed_numbers())
}

/// The fixed captures, with what is asked of each, as video by edition 1.
pub fn captures() -> Vec<(Asked, Vec<u8>)> {
    let streams = [streams(), edition_streams()].concat();
    fixed_captures(&streams, &fixed_numbers())
}

// --- as bytes ---

impl Case {
    /// The case as it is handed to the host.
    pub fn bytes(&self, index: u64) -> Vec<u8> {
        let mut body = index.to_be_bytes().to_vec();
        push_call(&mut body, &self.call);
        if let Call::Feed { .. } = self.call {
            return with_size(body);
        }
        body.push(self.rooms.len() as u8);
        for room in &self.rooms {
            body.extend(room.lent.to_be_bytes());
            body.push(room.number);
            body.extend(room.place.to_be_bytes());
        }
        push_counted(&mut body, &self.filled);
        if let Call::Write { .. } = self.call {
            push_counted(&mut body, &self.measured);
        }
        with_size(body)
    }
}

fn push_call(body: &mut Vec<u8>, call: &Call) {
    match call {
        Call::Measure { file, edition } => {
            body.push(1);
            body.extend(edition.to_be_bytes());
            push_counted(body, file);
        }
        Call::Write {
            version,
            numbers,
            lists,
        } => {
            body.extend([2, *version]);
            body.extend(seven(numbers));
            body.push(numbers.profile as u8);
            push_lists(body, lists.lent());
        }
        Call::Limits(numbers) => {
            push_seven(body, 3, numbers);
            body.push(numbers.profile as u8);
        }
        Call::Graph {
            first_packet_time,
            margin,
            latency,
        } => {
            let figures = [first_packet_time, margin, latency];
            body.push(4);
            body.extend(figures.iter().flat_map(|figure| figure.to_be_bytes()));
        }
        Call::SetUp { numbers, edition } => {
            push_seven(body, 5, numbers);
            push_by(body, numbers, *edition);
        }
        Call::Feed {
            numbers,
            edition,
            calls,
        } => {
            push_seven(body, 6, numbers);
            push_by(body, numbers, *edition);
            body.extend((calls.len() as u32).to_be_bytes());
            calls.iter().for_each(|feed| push_feed(body, feed));
        }
        Call::Capture { asked, bytes } => push_capture(body, asked, bytes),
        Call::NextRead(wait) => {
            push_seven(body, 8, &wait.numbers);
            body.push(wait.numbers.profile as u8);
            body.extend(wait.first.to_be_bytes());
            body.extend(wait.arrival.to_be_bytes());
        }
    }
}

fn push_seven(body: &mut Vec<u8>, call: u8, numbers: &Numbers) {
    body.push(call);
    body.extend(seven(numbers));
}

fn push_by(body: &mut Vec<u8>, numbers: &Numbers, edition: u32) {
    body.push(numbers.profile as u8);
    body.extend(edition.to_be_bytes());
}

fn push_capture(body: &mut Vec<u8>, asked: &Asked, bytes: &[u8]) {
    push_seven(body, 7, &asked.numbers);
    push_by(body, &asked.numbers, asked.edition);
    body.extend(asked.port.to_be_bytes());
    body.extend(asked.offset.to_be_bytes());
    push_counted(body, bytes);
    body.push(parts_seen(asked, bytes));
}

fn with_size(body: Vec<u8>) -> Vec<u8> {
    [(body.len() as u32).to_be_bytes().to_vec(), body].concat()
}

fn push_lists(body: &mut Vec<u8>, (arrivals, timestamps, markers): (&[u64], &[u32], &[u8])) {
    for count in [arrivals.len(), timestamps.len(), markers.len()] {
        body.extend((count as u32).to_be_bytes());
    }
    body.extend(arrivals.iter().flat_map(|number| number.to_be_bytes()));
    body.extend(timestamps.iter().flat_map(|number| number.to_be_bytes()));
    body.extend(markers);
}

fn push_feed(body: &mut Vec<u8>, feed: &Feed) {
    body.extend([
        u8::from(feed.anew),
        feed.words as u8,
        feed.changes.len() as u8,
    ]);
    for (word, value) in &feed.changes {
        body.push(*word);
        body.extend(value.to_be_bytes());
    }
    push_lists(body, feed.lists.lent());
    body.extend((feed.rows as u32).to_be_bytes());
    body.extend([feed.out as u8, feed.number]);
    body.extend(feed.place.to_be_bytes());
    if feed.number == 0 {
        let numbers: Vec<i64> = feed.written.iter().flatten().copied().collect();
        body.extend(feed.nine.iter().flat_map(|number| number.to_be_bytes()));
        body.extend((numbers.len() as u32).to_be_bytes());
        body.extend(numbers.iter().flat_map(|number| number.to_be_bytes()));
    }
}

fn push_counted(body: &mut Vec<u8>, bytes: &[u8]) {
    body.extend((bytes.len() as u32).to_be_bytes());
    body.extend(bytes);
}

/// The seven numbers as in a parameter record, where they have the widths that
/// they have at the border; its kind, which is the profile, is left out.
fn seven(numbers: &Numbers) -> Vec<u8> {
    parameters_body(numbers)[1..].to_vec()
}
