//! Frames: where they begin and end, their kinds and their times. Request (ix): "each
//! marker closes a field"; of an interlaced stream a field is a frame in all of this.

use std::cmp::Reverse;

use crate::fraction::Fraction;
use crate::numbers::{Limits, Period, GRAINS_PER_TICK, WRAP};
use crate::packet::Packet;

/// A closed frame.
#[derive(Clone, Copy, Debug)]
pub struct Frame<'a> {
    pub packets: &'a [Packet],
    /// "the marker packet before it".
    pub marker_before: &'a Packet,
    /// Request (ii): "the place in the history of the frame's first packet".
    pub place: usize,
}

/// Kind and detail of a frame.
#[derive(Clone, Copy, Debug, PartialEq, Eq)]
pub enum Kind {
    Whole,
    Short { count: usize },
    Long { count: usize },
    Stamp { place: usize },
}

/// "Packets up to and including the first marker are the lead-in: in the
/// bucket, in no frame. After that each marker closes a frame."
pub fn closed_frames(packets: &[Packet]) -> Vec<Frame<'_>> {
    let markers: Vec<usize> = (0..packets.len())
        .filter(|&i| packets[i].marker == 1)
        .collect();
    let frames: Vec<Frame> = markers
        .windows(2)
        .map(|pair| Frame {
            packets: &packets[pair[0] + 1..=pair[1]],
            marker_before: &packets[pair[0]],
            place: pair[0] + 1,
        })
        .collect();
    let places: Vec<usize> = frames.iter().map(|frame| frame.place).collect();
    assert_eq!(places, packets_before(packets)[..places.len()]);
    frames
}

/// How many packets came before each frame, the open one too: those of the
/// lead-in and of every frame before it. As places are counted from 0, that is
/// the place of its first packet.
fn packets_before(packets: &[Packet]) -> Vec<usize> {
    let mut so_far = 0;
    let mut before = vec![];
    for piece in packets.split_inclusive(|packet| packet.marker == 1) {
        before.push(so_far);
        so_far += piece.len();
    }
    // The first piece is the lead-in.
    before.into_iter().skip(1).collect()
}

impl Frame<'_> {
    pub fn first(&self) -> &Packet {
        &self.packets[0]
    }

    /// "Kinds, tried in this order: 1 short (fewer than n), 2 long (more than
    /// n), 3 stamp (some timestamp differs from the first packet's), 0 whole." Of
    /// fields, "the field has n/2 packets".
    pub fn kind(&self, period: Period) -> Kind {
        let count = self.packets.len();
        if (count as i128) < period.packets {
            return Kind::Short { count };
        }
        if (count as i128) > period.packets {
            return Kind::Long { count };
        }
        match self.first_differing_timestamp() {
            Some(place) => Kind::Stamp { place },
            None => Kind::Whole,
        }
    }

    /// "place in the frame, from 0, of the first differing timestamp".
    fn first_differing_timestamp(&self) -> Option<usize> {
        self.packets
            .iter()
            .position(|packet| packet.timestamp != self.first().timestamp)
    }
}

impl Kind {
    /// "detail (count for 1 and 2, place in the frame, from 0, of the first
    /// differing timestamp for 3, else 0)".
    pub fn numbers(&self) -> (i64, i64) {
        match *self {
            Kind::Whole => (0, 0),
            Kind::Short { count } => (1, count as i64),
            Kind::Long { count } => (2, count as i64),
            Kind::Stamp { place } => (3, place as i64),
        }
    }
}

/// The times of a frame, all in grains.
#[derive(Clone, Copy, Debug, PartialEq, Eq)]
pub struct Times {
    pub t_cf: i128,
    pub first_packet_time: i128,
    pub rtp_offset: i128,
    pub latency: i128,
    pub margin: i128,
    pub gap: i128,
}

/// "N = round(27t/F), halves up; T_CF = N·F." Of fields F/2 stands for F: "field
/// periods start at multiples of F/2".
pub fn t_cf(first: &Packet, period: Period) -> i128 {
    let half = Fraction::new(1, 2);
    let periods = Fraction::new(first.grains(), period.length);
    periods.plus(half).floor() * period.length
}

/// Request (v): "the encoded time shall instead be the one nearest to the
/// arrival, so that VL is at least minus P/2 and below plus P/2." By formulas
/// (1) and (2) a timestamp has one for each wrap count, and before the epoch wrap
/// counts are below 0; those around the arrival's own are tried. Of two equally
/// near it is the later that has VL minus P/2.
pub fn encoded_time(first: &Packet) -> i128 {
    let own = Fraction::new(first.grains(), WRAP).floor();
    (own - 2..=own + 2)
        .map(|wrap_count| wrap_count * WRAP + GRAINS_PER_TICK * i128::from(first.timestamp))
        .min_by_key(|&encoded| ((first.grains() - encoded).abs(), Reverse(encoded)))
        .expect("five wrap counts are tried")
}

/// "Latency VL = 27t − encoded."
fn latency(first: &Packet, encoded: i128) -> i128 {
    let latency = first.grains() - encoded;
    // "VL is at least minus P/2 and below plus P/2."
    assert!(-WRAP <= 2 * latency && 2 * latency < WRAP);
    assert_eq!(latency, latency_by_the_clock(first));
    latency
}

/// VL as a receiver's 90 kHz clock of 32 bits tells it: how far it is past the
/// timestamp, as a signed number, where an exact half is negative; and what has
/// gone by since the clock's last tick.
fn latency_by_the_clock(first: &Packet) -> i128 {
    let since_epoch = first.grains() / GRAINS_PER_TICK;
    // The clock shows the low 32 bits of all ticks since the epoch.
    let clock = since_epoch as u32;
    let ticks = clock.wrapping_sub(first.timestamp) as i32;
    let since_tick = first.grains() - since_epoch * GRAINS_PER_TICK;
    i128::from(ticks) * GRAINS_PER_TICK + since_tick
}

/// "FPT = 27t − T_CF", "RTP_OFFSET = encoded − T_CF. Latency VL = 27t −
/// encoded. Margin = TRO − FPT. GAP = first arrival of this frame less arrival
/// of the marker packet before it".
pub fn times(limits: &Limits, frame: &Frame) -> Times {
    let first = frame.first();
    let t_cf = t_cf(first, limits.period);
    let first_packet_time = first.grains() - t_cf;
    // "FPT is at least minus half a frame and below plus half." Request (ix): "FPT is
    // at least −F/4 and below F/4".
    let half = Fraction::new(limits.period.length, 2);
    let first_at = Fraction::whole(first_packet_time);
    assert!(first_at.plus(half) >= Fraction::whole(0) && first_at < half);
    let encoded = encoded_time(first);
    let latency = latency(first, encoded);
    let rtp_offset = encoded - t_cf;
    // Request (v): "RTP_OFFSET follows as FPT less VL."
    assert_eq!(rtp_offset, first_packet_time - latency);
    Times {
        t_cf,
        first_packet_time,
        rtp_offset,
        latency,
        margin: limits.tro - first_packet_time,
        gap: first.grains() - frame.marker_before.grains(),
    }
}
