//! Request (xiii): how long it is from a packet's arrival until the next read
//! of its frame, or of its field.

use crate::fraction::Fraction;
use crate::frame::t_cf;
use crate::numbers::{set_up, Limits, Numbers, EDITION_1};
use crate::packet::{Packet, Past};
use crate::reads::{read_instants, strictly_before};

/// How many numbers the C call fills.
pub const NEXT_READ_NUMBERS: u64 = 3;

/// The longest wait is at rate 1, from half a frame before T_CF until a read 0
/// that is 41,708 µs after it; and the greatest denominator is 25·20,000. Of fields
/// both are half of that.
const GREATEST_NUMERATOR: i128 = 844_589_250_000_000;

/// What is asked: a stream, the arrival of the first packet of a frame, and that
/// of a packet of the frame, which may be the first one itself. Both are in
/// nanoseconds. The frame may be broken: its reads depend on nothing else. A
/// compressed stream has no reads; it is answered as of video.
#[derive(Clone, Copy, Debug, PartialEq, Eq)]
pub struct Wait {
    pub numbers: Numbers,
    pub first: u64,
    pub arrival: u64,
}

impl Wait {
    /// The same as another profile.
    pub fn of(&self, profile: u64) -> Wait {
        let numbers = self.numbers.of(profile);
        Wait { numbers, ..*self }
    }
}

/// The read that comes next, and the grains until then: "a numerator over 25·n
/// grains for gapped and over n for linear". It is not reduced.
#[derive(Clone, Copy, Debug, PartialEq, Eq)]
pub struct NextRead {
    /// Its j. As many of the frame's reads are over.
    pub read: i128,
    pub numerator: i128,
    pub denominator: i128,
}

/// Refusals 22 of a profile that there is not and 1 to 7 (there is no edition, and so
/// no 8), then 12 and 13, which a packet meets after a history of the frame's first
/// packet alone; 15 is for the room, and comes after them.
fn accepted(wait: &Wait) -> Result<Limits, u8> {
    let limits = set_up(EDITION_1, &wait.numbers)?;
    match Past::of(&[first_packet(wait)]).refuses(&packet(wait)) {
        Some(number) => Err(number),
        None => Ok(limits),
    }
}

/// Timestamp and marker do not matter here.
fn first_packet(wait: &Wait) -> Packet {
    Packet::new(wait.first, 0, 0)
}

fn packet(wait: &Wait) -> Packet {
    Packet::new(wait.arrival, 0, 0)
}

/// "the time to the next read [...], or say that no read is left." After the
/// last read of its frame a packet has none: the next frame's are not meant.
pub fn next_read(wait: &Wait) -> Result<Option<NextRead>, u8> {
    let limits = accepted(wait)?;
    let start = t_cf(&first_packet(wait), limits.period);
    let reads = read_instants(&limits, start);
    let arrival = packet(wait).grains();
    let next = first_left(&reads, Fraction::whole(arrival));
    Ok(next.map(|j| {
        let (denominator, spacing) = over(wait.numbers.schedule, &limits);
        let numerator = numerator(reads[j], arrival, denominator);
        let read = j as i128;
        // The same in whole numbers: on to read 0, and from there read by read.
        let to_read_0 = start + limits.tro - arrival;
        assert_eq!(numerator, to_read_0 * denominator + read * spacing);
        assert!(numerator <= GREATEST_NUMERATOR);
        // Once read 0 is over, the wait is shorter than from one read to the next.
        assert!(read == 0 || numerator < spacing);
        NextRead {
            read,
            numerator,
            denominator,
        }
    }))
}

/// Each read is tried in turn. "A read at the arrival's own instant is the next
/// read": it is the first that is not strictly before.
fn first_left(reads: &[Fraction], arrival: Fraction) -> Option<usize> {
    let next = reads.iter().position(|read| *read >= arrival);
    // "The rule that counts reads strictly before an arrival shall also answer".
    let before = strictly_before(reads, arrival);
    assert_eq!(before, next.unwrap_or(reads.len()) as i128);
    next
}

/// From the arrival until the read, as so many of the denominator's parts.
fn numerator(read: Fraction, arrival: i128, denominator: i128) -> i128 {
    let grains = read.plus(Fraction::whole(-arrival));
    let parts = grains.times(Fraction::whole(denominator));
    assert!(parts.is_whole() && parts >= Fraction::whole(0));
    parts.floor()
}

/// "over 25·n grains for gapped and over n for linear": that denominator, and
/// R·F/n over it. Of fields too n and F are the whole frame's.
fn over(schedule: u64, limits: &Limits) -> (i128, i128) {
    match schedule {
        0 => (25 * limits.n, 24 * limits.frame),
        1 => (limits.n, limits.frame),
        _ => unreachable!("set-up refuses it"),
    }
}

/// The numbers that the C call fills: 1, numerator and denominator; or 0 three
/// times, where no read is left.
pub fn three_numbers(next: Option<NextRead>) -> [u64; NEXT_READ_NUMBERS as usize] {
    match next {
        Some(next) => [1, next.numerator as u64, next.denominator as u64],
        None => [0; 3],
    }
}
