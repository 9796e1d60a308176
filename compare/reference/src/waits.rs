//! What is asked for the next read: fixed waits, which reach every outcome, and
//! generated ones. They lie on reads and in the nanoseconds beside them, before
//! the first read and after the last, and at both ends of 64 bits.

use crate::fraction::Fraction;
use crate::frame::t_cf;
use crate::next_read::Wait;
use crate::numbers::{set_up, Limits, Numbers, EDITION_1, GRAINS_PER_NANOSECOND};
use crate::numbers::{INTERLACED, VIDEO};
use crate::packet::{Packet, LONGEST_HISTORY};
use crate::random::Random;
use crate::reads::read_instant;
use crate::stream::{accepted_numbers, first_frame, refused_numbers};
use crate::stream::{greatest_field_tro, greatest_tro, mended_numbers};
use crate::stream::{nanosecond, END_OF_TIME, MODERN};

/// Both ends of n, small ones, and that of document 01's 1080p50.
const PACKETS_PER_FRAME: [u64; 6] = [1, 2, 3, 8, 4320, 20_000];
/// The same of frames of two fields.
const PACKETS_OF_TWO_FIELDS: [u64; 5] = [2, 4, 6, 4320, 20_000];
/// Generated waits are put exactly on a read up to so many packets per frame, as
/// all reads are looked through for one that is on a nanosecond.
const SOUGHT_UP_TO: i128 = 512;

/// All fixed ones; some with the given numbers, of which set-up refuses some. Each
/// lies by the reads of the frames or of the fields as which it is given here; as
/// which others it is asked, `cases` says.
pub fn fixed_waits(numbers: &[Numbers]) -> Vec<Wait> {
    [around_reads(), longest(), ends_of_time(), refused(numbers)].concat()
}

// --- a frame and its reads ---

/// "N = round(27t/F), halves up", or of fields 27t/(F/2): the first nanosecond that
/// has this N.
fn earliest(limits: &Limits, number: i128) -> i128 {
    let half_before = Fraction::new((2 * number - 1) * limits.period.length, 2);
    nanosecond(half_before, true)
}

/// The earliest and the latest arrival that the first packet of a frame with this
/// N may have.
fn firsts(limits: &Limits, number: i128) -> (i128, i128) {
    (earliest(limits, number), earliest(limits, number + 1) - 1)
}

fn on_a_nanosecond(instant: Fraction) -> bool {
    instant
        .divided_by(Fraction::whole(GRAINS_PER_NANOSECOND))
        .is_whole()
}

/// The reads of a frame that an arrival can be exactly on.
fn exact_reads(limits: &Limits, t_cf: i128) -> Vec<i128> {
    (0..limits.period.packets)
        .filter(|&j| on_a_nanosecond(read_instant(limits, t_cf, j)))
        .collect()
}

/// An arrival has 64 bits.
fn clamped(arrival: i128) -> u64 {
    arrival.clamp(0, i128::from(u64::MAX)) as u64
}

// --- fixed waits ---

fn stream(rate: u64, schedule: u64, n: u64) -> Numbers {
    Numbers {
        rate,
        schedule,
        class: 0,
        ..Numbers::narrow(n)
    }
}

/// The same stream with each of these as TRO.
fn given(usual: Numbers, greatest: u64) -> [Numbers; 3] {
    [0, 700, greatest].map(|tro| Numbers {
        tro: Some(tro),
        ..usual
    })
}

/// Every rate with both schedules, each n, and each way to come to a TRO, of frames
/// and of fields.
fn streams() -> Vec<Numbers> {
    let mut all = vec![];
    for rate in 1..=8 {
        for schedule in 0..=1 {
            for n in PACKETS_PER_FRAME {
                let usual = stream(rate, schedule, n);
                let low = Numbers {
                    height: 720,
                    ..usual
                };
                all.extend([usual, low]);
                all.extend(given(usual, greatest_tro(rate)));
            }
            for n in PACKETS_OF_TWO_FIELDS {
                let fields = stream(rate, schedule, n).of(INTERLACED);
                // Many reads take long, and one TRO is enough there.
                let least = if n > 8 { 2 } else { 0 };
                all.extend(&given(fields, greatest_field_tro(rate))[least..]);
            }
        }
    }
    all
}

/// Near the epoch, now, and near the end of 64 bits. At a multiple of 27 T_CF is
/// on a whole nanosecond, at every rate, and of fields too.
fn period_number(numbers: &Numbers, period: i128) -> i128 {
    let number = match (numbers.rate + numbers.schedule) % 3 {
        0 => 27,
        1 => MODERN * GRAINS_PER_NANOSECOND / period,
        _ => END_OF_TIME / period - 10,
    };
    number - number % 27
}

/// Of each stream the nanoseconds around the first read and the last, around one
/// in the middle, and around some that an arrival can be on.
fn around_reads() -> Vec<Wait> {
    streams().iter().flat_map(around_reads_of).collect()
}

fn around_reads_of(numbers: &Numbers) -> Vec<Wait> {
    let limits = set_up(EDITION_1, numbers).expect("set-up accepts these streams");
    let number = period_number(numbers, limits.period.length);
    let t_cf = number * limits.period.length;
    let (earliest, latest) = firsts(&limits, number);
    let mut arrivals = vec![earliest];
    for j in worth_a_look(&limits, t_cf) {
        let read = read_instant(&limits, t_cf, j);
        arrivals.extend(nanosecond(read, false) - 1..=nanosecond(read, true) + 1);
    }
    let last = *arrivals.last().expect("every frame has a read");
    arrivals.push(last + limits.frame / GRAINS_PER_NANOSECOND);
    // By turns the first packet is at either end of what gives this T_CF; where
    // that is later than the arrival, it is itself the packet that waits.
    let firsts = [earliest, latest];
    arrivals
        .iter()
        .zip(firsts.iter().cycle())
        .map(|(&arrival, &first)| Wait {
            numbers: *numbers,
            first: clamped(first.min(arrival)),
            arrival: clamped(arrival),
        })
        .collect()
}

/// In order, and each once.
fn worth_a_look(limits: &Limits, t_cf: i128) -> Vec<i128> {
    let exact = exact_reads(limits, t_cf);
    let count = limits.period.packets;
    let mut reads = vec![0, count / 2, count - 1];
    reads.extend(exact.last());
    reads.extend(exact.get(exact.len() / 2));
    reads.sort_unstable();
    reads.dedup();
    reads
}

/// From half a frame before T_CF until the latest read 0, over the greatest
/// denominator; and the nanosecond before, which has the T_CF before.
fn longest() -> Vec<Wait> {
    let mut waits = vec![];
    for rate in 1..=8 {
        for schedule in 0..=1 {
            for (profile, greatest) in [
                (VIDEO, greatest_tro(rate)),
                (INTERLACED, greatest_field_tro(rate)),
            ] {
                let numbers = Numbers {
                    tro: Some(greatest),
                    profile,
                    ..stream(rate, schedule, 20_000)
                };
                waits.extend(longest_of(&numbers));
            }
        }
    }
    waits
}

fn longest_of(numbers: &Numbers) -> Vec<Wait> {
    let limits = set_up(EDITION_1, numbers).expect("set-up accepts the greatest TRO");
    let at = |arrival| Wait {
        numbers: *numbers,
        first: clamped(arrival),
        arrival: clamped(arrival),
    };
    let turns = [1, 2].map(|number| earliest(&limits, number));
    let both_sides = turns.iter().flat_map(|turn| [turn - 1, *turn]);
    both_sides.map(at).collect()
}

/// Both sides of 12 and of 13, from the epoch to the last nanosecond, where a
/// sum of 64 bits would come out small.
fn ends_of_time() -> Vec<Wait> {
    let end = u64::MAX;
    let now = MODERN as u64;
    let pairs = [
        (0, 0),
        (0, 1),
        (1, 1),
        (1, 0),
        (0, LONGEST_HISTORY),
        (0, LONGEST_HISTORY + 1),
        (0, end),
        (now, now),
        (now, now - 1),
        (now, now + LONGEST_HISTORY),
        (now, now + LONGEST_HISTORY + 1),
        (end, end),
        (end - 1, end),
        (end, end - 1),
        (end, 0),
        (end - 5_000_000, end),
        (end - 40_000_000, end),
        (end - 40_000_000, 10_000_000),
        (end - LONGEST_HISTORY + 1, end),
        (end - LONGEST_HISTORY, end),
        (end - LONGEST_HISTORY - 1, end),
        (end - LONGEST_HISTORY + 1, 0),
    ];
    let mut waits = vec![];
    for rate in 1..=8 {
        for (schedule, n, tro) in [
            (0, 1, None),
            (0, 4, Some(700)),
            (1, 4, None),
            (1, 320, Some(700)),
        ] {
            let numbers = Numbers {
                tro,
                ..stream(rate, schedule, n)
            };
            waits.extend(pairs.map(|(first, arrival)| Wait {
                numbers,
                first,
                arrival,
            }));
        }
    }
    waits
}

/// The given numbers and those that are wrong in several ways, with arrivals in
/// order, too early and too late: 1 to 7 come before 12 and 13.
fn refused(numbers: &[Numbers]) -> Vec<Wait> {
    let mut waits = vec![];
    for numbers in [numbers, &mended_numbers()].concat() {
        for (first, arrival) in [
            (20_700_000, 25_500_000),
            (20_700_000, 20_699_999),
            (20_700_000, 20_700_001 + LONGEST_HISTORY),
        ] {
            waits.push(Wait {
                numbers,
                first,
                arrival,
            });
        }
    }
    waits
}

// --- generated waits ---

pub fn wait(random: &mut Random) -> Wait {
    if random.chance(20) {
        return refused_wait(random);
    }
    let numbers = accepted_numbers(random);
    // By the reads of fields, where it can be, and by those of frames.
    let fields = set_up(EDITION_1, &numbers.of(INTERLACED)).ok();
    let limits = match fields.filter(|_| random.chance(60)) {
        Some(fields) => fields,
        None => set_up(EDITION_1, &numbers).expect("the numbers are chosen to be accepted"),
    };
    let first = first_arrival(random, &limits);
    let arrival = arrival_after(random, &limits, first);
    Wait {
        numbers,
        first,
        arrival,
    }
}

/// The arrivals may be refused as well.
fn refused_wait(random: &mut Random) -> Wait {
    let any = random.bits();
    let mut one = || random.pick(&[0, 5, any, MODERN as u64, u64::MAX]);
    let (first, arrival) = (one(), one());
    Wait {
        numbers: refused_numbers(random),
        first,
        arrival,
    }
}

/// At either end of those that have one T_CF, on T_CF, by read 0, or between.
fn first_arrival(random: &mut Random, limits: &Limits) -> u64 {
    let period = limits.period.length;
    let number = first_frame(random, period);
    let t_cf = number * period;
    let (earliest, latest) = firsts(limits, number);
    let any = random.between(earliest, latest);
    let start = beside(random, Fraction::whole(t_cf));
    let read_0 = beside(random, read_instant(limits, t_cf, 0));
    clamped(random.pick(&[earliest, latest, start, read_0, any, any]))
}

fn arrival_after(random: &mut Random, limits: &Limits, first: u64) -> u64 {
    let frame = limits.period.length / GRAINS_PER_NANOSECOND;
    let start = i128::from(first);
    let limit = start + i128::from(LONGEST_HISTORY);
    let later = start + random.between(0, 2 * frame);
    match random.below(100) {
        // Sent in order: not before the first packet.
        0..=64 => clamped(near_a_read(random, limits, first).max(start)),
        65..=69 => first,
        70..=79 => clamped(later),
        80..=86 => clamped(limit + random.pick(&[-1, 0, 0, 1, 1, frame])),
        87..=93 => clamped(start - random.pick(&[1, 1, frame, start])),
        _ => random.bits(),
    }
}

/// In the nanoseconds around a read, and on it where that can be.
fn near_a_read(random: &mut Random, limits: &Limits, first: u64) -> i128 {
    let t_cf = t_cf(&Packet::new(first, 0, 0), limits.period);
    let last = limits.period.packets - 1;
    let any = random.between(0, last);
    let mut j = random.pick(&[0, any, any, any, last]);
    if last < SOUGHT_UP_TO && random.chance(50) {
        let exact = exact_reads(limits, t_cf);
        if !exact.is_empty() {
            j = random.pick(&exact);
        }
    }
    beside(random, read_instant(limits, t_cf, j))
}

/// Down or up to a nanosecond, or one further off.
fn beside(random: &mut Random, instant: Fraction) -> i128 {
    let up = random.chance(50);
    nanosecond(instant, up) + random.pick(&[-1, 0, 0, 0, 1])
}
