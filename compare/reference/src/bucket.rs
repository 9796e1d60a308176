//! The bucket, worked out three ways that are asserted to agree.

use crate::fraction::Fraction;
use crate::numbers::Limits;
use crate::packet::Packet;

/// Up to so many packets the runs are all compared, which takes m² steps.
const RUNS_UP_TO: usize = 400;
/// Up to so many drain instants every one is stepped, those that find nothing
/// too.
const STEPS_UP_TO: i128 = 200_000;

/// A failing run: "first and last packet of the failing run (numbers from 0)".
#[derive(Clone, Copy, Debug, PartialEq, Eq)]
pub struct Run {
    pub first: u64,
    pub last: u64,
}

#[derive(Clone, Copy, Debug, PartialEq, Eq)]
pub struct Bucket {
    pub peak: i128,
    pub burst: Option<Run>,
}

/// "A fresh state has peak 0."
const FRESH: Bucket = Bucket {
    peak: 0,
    burst: None,
};

/// "Drain instants lie k·10F/(11n) grains after the first packet of the
/// history, k = 1, 2, and so on (β = 1.10)."
pub fn drain_instant(limits: &Limits, k: i128) -> Fraction {
    Fraction::new(k * 10 * limits.frame, 11 * limits.n)
}

/// How many drain instants lie at or before `after` grains.
pub fn drains_by(limits: &Limits, after: i128) -> i128 {
    Fraction::whole(after)
        .divided_by(drain_instant(limits, 1))
        .floor()
}

/// The grains from the first packet of the history to each arrival.
fn arrivals_after_first(packets: &[Packet]) -> Vec<i128> {
    packets
        .iter()
        .map(|packet| packet.grains() - packets[0].grains())
        .collect()
}

pub fn bucket(limits: &Limits, packets: &[Packet]) -> Bucket {
    let arrivals = arrivals_after_first(packets);
    let answer = by_events(limits, &arrivals, true);
    let drains = arrivals.last().map_or(0, |last| drains_by(limits, *last));
    if drains <= STEPS_UP_TO {
        assert_eq!(answer, by_events(limits, &arrivals, false));
    }
    if arrivals.len() <= RUNS_UP_TO {
        assert_eq!(answer, by_runs(limits, &arrivals));
    }
    answer
}

/// The bucket as it stands between two events.
struct Walk {
    level: i128,
    /// Drain instants so far.
    k: i128,
    /// "drains that found a packet".
    found: i128,
}

impl Walk {
    /// "A drain takes one packet if one is there; at one instant the drain
    /// comes before arrivals", so a drain at the arrival's instant is done.
    /// Letting "unused drain instants be saved up" is an error: a drain that
    /// finds nothing changes nothing, and such drains may be passed over.
    fn drain_until(&mut self, limits: &Limits, arrival: i128, pass_over: bool) {
        while drain_instant(limits, self.k + 1) <= Fraction::whole(arrival) {
            if self.level == 0 && pass_over {
                self.k = drains_by(limits, arrival);
                return;
            }
            self.k += 1;
            if self.level > 0 {
                self.level -= 1;
                self.found += 1;
            }
        }
    }
}

/// Instant by instant. "Level is counted just after an arrival, that packet
/// included." A run that fails starts where the bucket was last found empty.
fn by_events(limits: &Limits, arrivals: &[i128], pass_over: bool) -> Bucket {
    let mut answer = FRESH;
    let mut start = 0;
    let mut walk = Walk {
        level: 0,
        k: 0,
        found: 0,
    };
    for (b, &arrival) in arrivals.iter().enumerate() {
        walk.drain_until(limits, arrival, pass_over);
        if walk.level == 0 {
            start = b;
        }
        walk.level += 1;
        answer.peak = answer.peak.max(walk.level);
        if walk.level > limits.c_max && answer.burst.is_none() {
            answer.burst = Some(run(start, b));
        }
    }
    // "Packets accepted equal drains that found a packet, counted instant by
    // instant up to the last arrival, plus the level then."
    assert_eq!(arrivals.len() as i128, walk.found + walk.level);
    answer
}

/// Over all runs a..b: packets in the run less the drain instants after
/// arrival a up to arrival b. The peak is the greatest; the failing run is the
/// one that ends first and of those the one that starts last.
fn by_runs(limits: &Limits, arrivals: &[i128]) -> Bucket {
    let mut answer = FRESH;
    let drains: Vec<i128> = arrivals.iter().map(|&at| drains_by(limits, at)).collect();
    for b in 0..arrivals.len() {
        for a in (0..=b).rev() {
            let excess = (b - a + 1) as i128 - (drains[b] - drains[a]);
            answer.peak = answer.peak.max(excess);
            if excess > limits.c_max && answer.burst.is_none() {
                answer.burst = Some(run(a, b));
            }
        }
    }
    answer
}

fn run(first: usize, last: usize) -> Run {
    Run {
        first: first as u64,
        last: last as u64,
    }
}
