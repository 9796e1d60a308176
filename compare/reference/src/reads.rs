//! The reads of a whole frame, or of a whole field, and the receiver buffer they
//! empty.

use crate::fraction::Fraction;
use crate::numbers::Limits;
use crate::packet::Packet;

/// Up to so many packets per frame each count is also made one packet or read
/// at a time, which takes n² steps.
const COUNTED_UP_TO: usize = 512;

/// What the reads say of a whole frame.
#[derive(Clone, Debug, PartialEq, Eq)]
pub struct Reading {
    /// Level just after each packet.
    pub levels: Vec<i128>,
    pub peak: i128,
    pub least: i128,
    /// "the lowest j whose packet arrives after read j".
    pub first_late: Option<u64>,
}

/// "Read j (0 to n−1) is at T_CF + TRO + j·R·F/n, kept as a fraction." Request (ix):
/// "reads are spaced R·F/n apart from the field's own first read": the whole frame's
/// F and n.
pub fn read_instant(limits: &Limits, t_cf: i128, j: i128) -> Fraction {
    let after = Fraction::whole(j * limits.frame)
        .times(limits.r)
        .divided_by(Fraction::whole(limits.n));
    Fraction::whole(t_cf + limits.tro).plus(after)
}

/// All of them: n of a frame, n/2 of a field. Those of a field may go on after the
/// next one has started; "the field's own" alone are counted.
pub(crate) fn read_instants(limits: &Limits, t_cf: i128) -> Vec<Fraction> {
    (0..limits.period.packets)
        .map(|j| read_instant(limits, t_cf, j))
        .collect()
}

/// `packets` are those of a whole frame or field.
pub fn reading(limits: &Limits, t_cf: i128, packets: &[Packet]) -> Reading {
    let reads = read_instants(limits, t_cf);
    let arrivals: Vec<Fraction> = packets
        .iter()
        .map(|packet| Fraction::whole(packet.grains()))
        .collect();
    assert_eq!(reads.len(), arrivals.len());
    let levels = levels(&reads, &arrivals);
    let answer = Reading {
        peak: *levels.iter().max().expect("n is at least 1"),
        levels,
        least: least(&reads, &arrivals),
        first_late: first_late(&reads, &arrivals),
    };
    // "The buffer runs dry where least is below 0."
    assert_eq!(answer.least < 0, answer.first_late.is_some());
    answer
}

/// "Level just after packet j: j + 1 less the frame's reads strictly before
/// its arrival."
fn levels(reads: &[Fraction], arrivals: &[Fraction]) -> Vec<i128> {
    arrivals
        .iter()
        .enumerate()
        .map(|(j, arrival)| j as i128 + 1 - strictly_before(reads, *arrival))
        .collect()
}

/// "Least is the smallest, over all n reads, of the frame's packets arrived by
/// that read less reads done, that one included."
fn least(reads: &[Fraction], arrivals: &[Fraction]) -> i128 {
    reads
        .iter()
        .enumerate()
        .map(|(j, read)| arrived_by(arrivals, *read) - (j as i128 + 1))
        .min()
        .expect("n is at least 1")
}

fn first_late(reads: &[Fraction], arrivals: &[Fraction]) -> Option<u64> {
    (0..reads.len())
        .find(|&j| arrivals[j] > reads[j])
        .map(|j| j as u64)
}

pub(crate) fn strictly_before(reads: &[Fraction], arrival: Fraction) -> i128 {
    count(reads, |read| *read < arrival)
}

/// "At one instant arrivals come before reads": by the read means at it too.
fn arrived_by(arrivals: &[Fraction], read: Fraction) -> i128 {
    count(arrivals, |arrival| *arrival <= read)
}

/// Counts one by one; in a long list, which is in order, by halving.
fn count<P: Fn(&Fraction) -> bool>(instants: &[Fraction], holds: P) -> i128 {
    let by_halving = instants.partition_point(|instant| holds(instant));
    if instants.len() <= COUNTED_UP_TO {
        let one_by_one = instants.iter().filter(|instant| holds(instant)).count();
        assert_eq!(one_by_one, by_halving);
    }
    by_halving as i128
}
