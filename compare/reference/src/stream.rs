//! Streams for the test files: numbers, arrivals, markers and timestamps that
//! come near every limit of document 01, on both sides and exactly on it.

use crate::bucket::{drain_instant, drains_by};
use crate::fraction::Fraction;
use crate::numbers::{frame_length, set_up, Limits, Numbers, EDITION_1};
use crate::numbers::{COMPRESSED, INTERLACED, VIDEO};
use crate::numbers::{GRAINS_PER_MICROSECOND, GRAINS_PER_NANOSECOND, GRAINS_PER_TICK, WRAP};
use crate::packet::{Packet, LONGEST_HISTORY};
use crate::random::Random;
use crate::reads::read_instant;
use crate::record::{meant, set_up_in, VERSIONS};

/// No file grows much beyond this.
const MOST_IN_A_FILE: usize = 20_100;
/// 27·2^64: the first instant that no arrival can name.
pub(crate) const END_OF_TIME: i128 = GRAINS_PER_NANOSECOND << 64;
/// The last time that timestamps wrap within 64 bits.
const LAST_WRAP: i128 = END_OF_TIME / WRAP;
/// Nine ticks are this many whole nanoseconds, and fewer are none: only at
/// multiples of it is an arrival on a tick, and can it be exactly half of P from
/// an encoded time.
const NINE_TICKS: i128 = 9 * GRAINS_PER_TICK / GRAINS_PER_NANOSECOND;
/// About now, in nanoseconds.
pub(crate) const MODERN: i128 = 1_760_000_000_000_000_000;

/// How the packets of one frame arrive.
#[derive(Clone, Copy)]
enum Pattern {
    PacedGapped,
    PacedLinear,
    OnReads,
    OnDrains,
    OneInstant,
    Groups,
    Jitter,
    LateFirst,
    LateOne,
    BufferEdge,
    Pile,
    HalfFrame,
    Scattered,
}

const PATTERNS: [Pattern; 13] = [
    Pattern::PacedGapped,
    Pattern::PacedLinear,
    Pattern::OnReads,
    Pattern::OnDrains,
    Pattern::OneInstant,
    Pattern::Groups,
    Pattern::Jitter,
    Pattern::LateFirst,
    Pattern::LateOne,
    Pattern::BufferEdge,
    Pattern::Pile,
    Pattern::HalfFrame,
    Pattern::Scattered,
];

/// What a stream is made to come near.
#[derive(Clone, Copy)]
enum Aim {
    Frames,
    BucketLimit,
    BufferLimit,
}

const AIMS: [Aim; 12] = [
    Aim::Frames,
    Aim::Frames,
    Aim::Frames,
    Aim::Frames,
    Aim::Frames,
    Aim::Frames,
    Aim::Frames,
    Aim::Frames,
    Aim::BucketLimit,
    Aim::BucketLimit,
    Aim::BucketLimit,
    Aim::BufferLimit,
];

/// How the frames of a stream are stamped.
#[derive(Clone, Copy)]
enum Stamps {
    Ideal,
    Shifted(i128),
    /// A tick a frame, from so many ticks before a wrap.
    AroundWrap(i128),
    /// Half of P from the arrival, where two encoded times are equally near.
    HalfWrap,
    Random,
    Constant,
}

/// What it sends is a frame or, of an interlaced stream, a field.
struct Sender<'a> {
    random: &'a mut Random,
    limits: Limits,
    /// N of the first frame sent.
    first_frame: i128,
    stamps: Stamps,
    packets: Vec<Packet>,
}

/// Numbers that set-up accepts, as video, and a stream sent by them, in frames or in
/// fields. If in fields, it accepts them as interlaced too.
pub fn stream(random: &mut Random) -> (Numbers, Vec<Packet>) {
    let mut numbers = accepted_numbers(random);
    let aim = random.pick(&AIMS);
    // A stream of class 0 comes near the limits of what it means in one version
    // of a file or in the other.
    let version = random.pick(&VERSIONS);
    aim_numbers(random, aim, version, &mut numbers);
    // Of three profiles two are sent in frames.
    let sent_as = random.pick(&[VIDEO, COMPRESSED, INTERLACED]);
    if sent_as == INTERLACED {
        numbers = for_fields(random, &numbers);
    }
    let limits = set_up_in(EDITION_1, version, &numbers.of(sent_as))
        .expect("the numbers are chosen to be accepted");
    let first_frame = first_frame(random, limits.period.length);
    let stamps = stamps(random);
    let mut sender = Sender {
        random,
        limits,
        first_frame,
        stamps,
        packets: Vec::new(),
    };
    match aim {
        Aim::Frames => sender.send_frames(),
        Aim::BucketLimit => sender.send_at_the_bucket_limit(),
        Aim::BufferLimit => sender.send_at_the_buffer_limit(),
    }
    let mut packets = sender.packets;
    spoil_list(random, &mut packets);
    (numbers, packets)
}

/// C_MAX and VRX_FULL have steps where n is great; streams that aim at a limit
/// have an n on one side or the other of a step, often or always. At the
/// bucket's limit a stream need not fill a frame, at the buffer's it must.
fn aim_numbers(random: &mut Random, aim: Aim, version: u8, numbers: &mut Numbers) {
    match aim {
        Aim::Frames => {}
        Aim::BucketLimit => {
            if random.chance(50) {
                let any = 2000 + random.below(18_001);
                let stream = meant(version, numbers);
                numbers.packets_per_frame = near_step(random, &stream, any, |l| l.c_max);
            }
        }
        Aim::BufferLimit => {
            numbers.maxudp = random.pick(&[8960, 8960, 8960, 1460]);
            let any = 500 + random.below(5000);
            let stream = meant(version, numbers);
            numbers.packets_per_frame = near_step(random, &stream, any, |l| l.vrx_full);
        }
    }
}

/// The first n above `any` where the limit grows, or the one before it.
fn near_step<L: Fn(&Limits) -> i128>(
    random: &mut Random,
    numbers: &Numbers,
    any: u64,
    limit: L,
) -> u64 {
    let at = |n| {
        let numbers = Numbers {
            packets_per_frame: n,
            ..*numbers
        };
        set_up(EDITION_1, &numbers).map_or(0, |limits| limit(&limits))
    };
    let step = (any..=20_000).find(|&n| at(n) > at(n - 1));
    match step {
        Some(n) => random.pick(&[any, n, n, n - 1, n - 1]),
        None => any,
    }
}

/// Numbers on one side or the other of a step of C_MAX or VRX_FULL; before the
/// first n there is none, and set-up refuses.
pub(crate) fn limit_numbers(random: &mut Random) -> Numbers {
    let mut numbers = accepted_numbers(random);
    let any = random.pick(&[1, 4000, 10_000]) + random.below(10_000);
    numbers.packets_per_frame = if random.chance(50) {
        near_step(random, &numbers, any, |l| l.c_max)
    } else {
        near_step(random, &numbers, any, |l| l.vrx_full)
    };
    numbers
}

/// Numbers that set-up accepts as video; a third of them, and more by chance, as
/// interlaced too.
pub(crate) fn accepted_numbers(random: &mut Random) -> Numbers {
    let numbers = video_numbers(random);
    if random.chance(33) {
        for_fields(random, &numbers)
    } else {
        numbers
    }
}

/// Rates 3 and 6 have whole nanoseconds in a frame, so that with small n and a
/// given TRO reads and drains fall on arrivals exactly; they come more often.
fn video_numbers(random: &mut Random) -> Numbers {
    let rate = random.pick(&[1, 2, 3, 3, 4, 5, 6, 6, 6, 7, 8]);
    let schedule = random.below(2);
    let class = if schedule == 0 {
        random.pick(&[0, 1, 1, 3])
    } else {
        random.pick(&[0, 2, 2, 3])
    };
    Numbers {
        rate,
        schedule,
        class,
        height: height(random),
        packets_per_frame: packets_per_frame(random),
        maxudp: random.pick(&[1460, 8960]),
        tro: tro(random, rate),
        profile: VIDEO,
    }
}

/// The same numbers where set-up accepts them as interlaced: an n beside the own one
/// that is even, and a TRO that is given and below half a frame.
fn for_fields(random: &mut Random, numbers: &Numbers) -> Numbers {
    let n = numbers.packets_per_frame;
    let even = if n % 2 == 0 {
        n
    } else {
        random.pick(&[n + 1, n + 1, n.max(3) - 1])
    };
    let greatest = greatest_field_tro(numbers.rate);
    let near = random.pick(&[greatest, greatest - 1, greatest / 2]);
    let any = random.below(greatest + 1);
    let tro = match numbers.tro {
        Some(given) if given <= greatest => given,
        _ => random.pick(&[700, 0, near, near, any]),
    };
    Numbers {
        packets_per_frame: even,
        tro: Some(tro),
        ..*numbers
    }
}

fn height(random: &mut Random) -> u64 {
    let any = 1 + random.below(65_535);
    random.pick(&[1, 480, 720, 1079, 1080, 1081, 2160, 65_535, any])
}

fn packets_per_frame(random: &mut Random) -> u64 {
    match random.below(100) {
        0..=29 => 1 + random.below(8),
        30..=49 => random.pick(&[1, 2, 4, 5, 8, 10, 16, 20, 25, 32, 40, 50]),
        50..=79 => 1 + random.below(64),
        80..=91 => 65 + random.below(900),
        92..=97 => random.pick(&[1000, 4147, 4148, 4320, 4859, 4860, 2000]),
        _ => random.pick(&[20_000, 19_999, 12_345, 8000, 16_000]),
    }
}

/// The default, given ones at both ends of what is accepted, and others.
fn tro(random: &mut Random, rate: u64) -> Option<u64> {
    let greatest = greatest_tro(rate);
    let any = random.below(greatest + 1);
    let small = random.below(2000);
    match random.below(100) {
        0..=39 => None,
        40..=89 => Some(random.pick(&[700, 0, 1, 1000, small, small])),
        _ => Some(random.pick(&[greatest, greatest - 1, greatest / 2, greatest / 2 + 1, any])),
    }
}

/// The greatest whole number of microseconds below one frame.
pub(crate) fn greatest_tro(rate: u64) -> u64 {
    let frame = frame_length(rate).expect("a known rate");
    ((frame - 1) / GRAINS_PER_MICROSECOND) as u64
}

/// The greatest below half a frame, in two of which there is one frame exactly.
pub(crate) fn greatest_field_tro(rate: u64) -> u64 {
    let frame = frame_length(rate).expect("a known rate");
    ((frame - 1) / (2 * GRAINS_PER_MICROSECOND)) as u64
}

/// All seven numbers wrong, and then mended one after the other: refused by 1 to
/// 7 in turn, and at last accepted.
pub fn mended_numbers() -> Vec<Numbers> {
    let mut numbers = Numbers {
        rate: 9,
        schedule: 2,
        class: 4,
        height: 0,
        packets_per_frame: 20_001,
        maxudp: 1500,
        tro: Some(50_000),
        profile: VIDEO,
    };
    let steps: [fn(&mut Numbers); 7] = [
        |n| n.rate = 6,
        |n| n.schedule = 1,
        |n| n.class = 2,
        |n| n.height = 1,
        |n| n.packets_per_frame = 20_000,
        |n| n.maxudp = 8960,
        |n| n.tro = Some(0),
    ];
    let mut all = vec![numbers];
    for step in steps {
        step(&mut numbers);
        all.push(numbers);
    }
    all
}

/// Where in time the stream lies: at the epoch, now, where timestamps wrap, at
/// the end of 64 bits, anywhere. Every ninth wrap is on a whole nanosecond.
/// Multiples of 27 put T_CF on whole nanoseconds at every rate.
pub(crate) fn first_frame(random: &mut Random, frame: i128) -> i128 {
    let wraps = random.pick(&[1, 2, 9, 1000, 36_880, LAST_WRAP, LAST_WRAP]);
    let near_wrap = wraps * WRAP / frame - random.pick(&[0, 1, 1, 2, 4]);
    let now = MODERN * GRAINS_PER_NANOSECOND / frame + random.between(0, 100_000);
    let last = END_OF_TIME / frame - random.between(0, 60);
    let any = i128::from(random.bits()) * GRAINS_PER_NANOSECOND / frame;
    let chosen = random.pick(&[
        0, 1, 2, now, now, near_wrap, near_wrap, near_wrap, last, any, any,
    ]);
    if random.chance(40) {
        chosen - chosen % 27
    } else {
        chosen
    }
}

fn stamps(random: &mut Random) -> Stamps {
    let shift = random.between(-2000, 2000);
    let before = random.between(0, 4);
    random.pick(&[
        Stamps::Ideal,
        Stamps::Ideal,
        Stamps::Shifted(shift),
        Stamps::Shifted(shift),
        Stamps::AroundWrap(before),
        Stamps::AroundWrap(before),
        Stamps::HalfWrap,
        Stamps::Random,
        Stamps::Constant,
    ])
}

/// The first nanosecond of the wrap count that begins nearest to an arrival,
/// before it or after it.
fn nearest_wrap(arrival: i128) -> i128 {
    let half = Fraction::new(1, 2);
    let wraps = Fraction::new(arrival * GRAINS_PER_NANOSECOND, WRAP);
    let begins = wraps.plus(half).floor() * WRAP;
    nanosecond(Fraction::whole(begins), true)
}

/// The tick nearest to an arrival, counted from the epoch.
fn nearest_tick(arrival: i128) -> i128 {
    let half = Fraction::new(1, 2);
    let ticks = Fraction::new(arrival * GRAINS_PER_NANOSECOND, GRAINS_PER_TICK);
    ticks.plus(half).floor()
}

/// Down to a whole nanosecond, or up.
pub(crate) fn nanosecond(instant: Fraction, up: bool) -> i128 {
    let nanoseconds = instant.divided_by(Fraction::whole(GRAINS_PER_NANOSECOND));
    if up {
        nanoseconds.ceiling()
    } else {
        nanoseconds.floor()
    }
}

impl Sender<'_> {
    fn last_arrival(&self) -> i128 {
        self.packets.last().map_or(0, |p| i128::from(p.arrival))
    }

    /// Sent in order: an arrival before the last one is moved to it.
    fn in_order(&self, arrival: i128) -> i128 {
        arrival.max(self.last_arrival()).min(i128::from(u64::MAX))
    }

    fn send(&mut self, arrival: i128, timestamp: u32, marker: u8) {
        let arrival = self.in_order(arrival);
        self.packets
            .push(Packet::new(arrival as u64, timestamp, marker));
    }

    /// The paper's instants rarely fall on a nanosecond: take one of those
    /// beside, and now and then one further off.
    fn near(&mut self, instant: Fraction) -> i128 {
        let up = self.random.chance(50);
        nanosecond(instant, up) + self.nudge()
    }

    fn nudge(&mut self) -> i128 {
        self.random.pick(&[0, 0, 0, 0, 0, 0, 0, 0, -1, 1])
    }

    /// Of a frame whose first packet comes at `arrival`.
    fn timestamp(&mut self, frame: i128, arrival: i128) -> u32 {
        let ideal = self.t_cf(frame) / GRAINS_PER_TICK;
        let ticks = match self.stamps {
            Stamps::Ideal => ideal,
            Stamps::Shifted(shift) => ideal + shift,
            Stamps::AroundWrap(before) => frame - before,
            Stamps::HalfWrap => nearest_tick(arrival) + (1 << 31),
            Stamps::Random => i128::from(self.random.bits()),
            Stamps::Constant => 0,
        };
        ticks.rem_euclid(1 << 32) as u32
    }

    // --- frame by frame ---

    fn send_frames(&mut self) {
        let frames = self.how_many_frames();
        let usual = self.random.pick(&PATTERNS);
        let mixed = self.random.chance(35);
        let faulty = self.random.chance(40);
        self.send_lead_in();
        for frame in 1..=frames {
            let pattern = if mixed {
                self.random.pick(&PATTERNS)
            } else {
                usual
            };
            self.send_frame(frame, pattern, faulty);
        }
    }

    fn how_many_frames(&mut self) -> i128 {
        let n = self.limits.period.packets;
        let packets = match self.random.below(100) {
            0..=59 => self.random.between(1, 60),
            60..=84 => self.random.between(1, 400),
            85..=96 => self.random.between(1, 3000),
            _ => self.random.between(10_000, 20_000),
        };
        (packets / n).max(1) + self.random.between(0, 1) * i128::from(n < 2000)
    }

    /// Before the first marker: one packet, a few, or nearly a frame. Some
    /// captures have no marker there, so their first frame is lead-in too.
    fn send_lead_in(&mut self) {
        let most = self.limits.period.packets.min(50);
        let count = self.random.pick(&[1, 1, 1, 2, most]);
        let start = self.t_cf(0) + self.limits.tro;
        let timestamp = self.timestamp(0, nanosecond(Fraction::whole(start), false));
        for left in (0..count).rev() {
            let at = Fraction::whole(start + (count - left) * self.limits.frame / 64);
            let arrival = nanosecond(at, false);
            let marker = u8::from(left == 0 && self.random.chance(95));
            self.send(arrival, timestamp, marker);
        }
    }

    fn t_cf(&self, frame: i128) -> i128 {
        (self.first_frame + frame) * self.limits.period.length
    }

    /// A frame, perhaps broken: short or long by one or by many, without its
    /// marker, or stamped otherwise at some place.
    fn send_frame(&mut self, frame: i128, pattern: Pattern, faulty: bool) {
        let fault = if faulty { self.random.below(14) } else { 99 };
        let n = self.limits.period.packets;
        let count = match fault {
            0 => (n - 1).max(1),
            1 => n + 1,
            2 => self.random.between(1, n),
            3 => n + self.random.between(1, 9),
            _ => n,
        };
        let arrivals = self.arrivals(frame, pattern, count);
        let arrivals = self.moved(arrivals);
        let stamps = self.frame_stamps(frame, &arrivals, fault);
        let unmarked = fault == 4;
        for (j, arrival) in arrivals.iter().enumerate() {
            let marker = u8::from(j + 1 == arrivals.len() && !unmarked);
            if self.packets.len() < MOST_IN_A_FILE {
                self.send(*arrival, stamps[j], marker);
            }
        }
    }

    /// At a wrap the arrival's own wrap count turns over, and half of P from an
    /// encoded time the next one becomes the nearest. A stream stamped for the
    /// one or the other has its frames moved, so that the first packet comes
    /// there or a nanosecond to a side; to a wrap, if it is less than a frame off.
    fn moved(&mut self, arrivals: Vec<i128>) -> Vec<i128> {
        let first = self.in_order(arrivals[0]);
        let wrap = nearest_wrap(first);
        let near = (wrap - first).abs() * GRAINS_PER_NANOSECOND < self.limits.period.length;
        let edge = match self.stamps {
            Stamps::AroundWrap(_) if near && self.random.chance(75) => wrap,
            Stamps::HalfWrap => first + (-first).rem_euclid(NINE_TICKS),
            _ => return arrivals,
        };
        let by = edge + self.random.pick(&[0, 0, -1, 1]) - arrivals[0];
        arrivals.iter().map(|arrival| arrival + by).collect()
    }

    /// Faults 2, 5, 6 and 7 stamp one place, or all from it on, otherwise.
    fn frame_stamps(&mut self, frame: i128, arrivals: &[i128], fault: u64) -> Vec<u32> {
        let count = arrivals.len();
        let timestamp = self.timestamp(frame, self.in_order(arrivals[0]));
        let other = timestamp.wrapping_add(self.random.pick(&[1, 1800, 1 << 31, u32::MAX]));
        let mut stamps = vec![timestamp; count];
        let anywhere = self.random.place(count);
        let place = self
            .random
            .pick(&[0, 1.min(count - 1), count - 1, anywhere]);
        match fault {
            2 | 5 | 6 => stamps[place] = other,
            7 => stamps[place..].iter_mut().for_each(|s| *s = other),
            _ => {}
        }
        stamps
    }

    fn arrivals(&mut self, frame: i128, pattern: Pattern, count: i128) -> Vec<i128> {
        let t_cf = self.t_cf(frame);
        match pattern {
            Pattern::PacedGapped => self.paced(t_cf, count, Fraction::new(24, 25)),
            Pattern::PacedLinear => self.paced(t_cf, count, Fraction::whole(1)),
            Pattern::OnReads => self.on_reads(t_cf, count),
            Pattern::OnDrains => self.on_drains(t_cf, count),
            Pattern::OneInstant => self.one_instant(t_cf, count),
            Pattern::Groups => self.groups(t_cf, count),
            Pattern::Jitter => self.jitter(t_cf, count),
            Pattern::LateFirst => self.late(t_cf, count, 0),
            Pattern::LateOne => {
                let late = self.random.between(0, count - 1);
                self.late(t_cf, count, late)
            }
            Pattern::BufferEdge => self.buffer_edge(t_cf, count),
            Pattern::Pile => vec![self.last_arrival(); count as usize],
            Pattern::HalfFrame => self.half_frame(t_cf, count),
            Pattern::Scattered => self.scattered(t_cf, count),
        }
    }

    /// A perfect sender, from TRO on or a little before or after it.
    fn paced(&mut self, t_cf: i128, count: i128, r: Fraction) -> Vec<i128> {
        let quarter = self.limits.period.length / 4;
        let any = self.random.between(-quarter, quarter);
        let offset = self.random.pick(&[0, 0, -27, -1000 * 27, any]);
        let up = self.random.chance(30);
        (0..count)
            .map(|j| {
                let after = Fraction::whole(j * self.limits.frame)
                    .times(r)
                    .divided_by(Fraction::whole(self.limits.n));
                let start = Fraction::whole(t_cf + self.limits.tro + offset);
                nanosecond(start.plus(after), up)
            })
            .collect()
    }

    fn read(&self, t_cf: i128, j: i128) -> Fraction {
        read_instant(&self.limits, t_cf, j)
    }

    /// A first packet so late that it belongs to the next T_CF would spoil a
    /// pattern built on this frame's reads: with a great TRO it comes early.
    fn first_in_its_frame(&mut self, t_cf: i128) -> i128 {
        let period = self.limits.period.length;
        if 2 * self.limits.tro < period {
            let read = self.read(t_cf, 0);
            self.near(read)
        } else {
            nanosecond(Fraction::whole(t_cf + period / 4), false)
        }
    }

    fn on_reads(&mut self, t_cf: i128, count: i128) -> Vec<i128> {
        let ahead = self.random.pick(&[0, 0, 0, 1, 2]);
        let mut arrivals = vec![self.first_in_its_frame(t_cf)];
        for j in 1..count {
            let read = self.read(t_cf, (j - ahead).max(0));
            arrivals.push(self.near(read));
        }
        arrivals
    }

    /// Paced, each packet moved to the nearest drain instant.
    fn on_drains(&mut self, t_cf: i128, count: i128) -> Vec<i128> {
        let first = self.packets[0].grains();
        (0..count)
            .map(|j| {
                let paced = self.read(t_cf, j).floor();
                let k = drains_by(&self.limits, paced - first).max(1);
                let drain = drain_instant(&self.limits, k).plus(Fraction::whole(first));
                self.near(drain)
            })
            .collect()
    }

    fn one_instant(&mut self, t_cf: i128, count: i128) -> Vec<i128> {
        let arrival = self.first_in_its_frame(t_cf);
        vec![arrival; count as usize]
    }

    fn groups(&mut self, t_cf: i128, count: i128) -> Vec<i128> {
        let edge = self.limits.c_max;
        let size = self.random.pick(&[2, 3, edge, edge + 1, edge - 1]);
        (0..count)
            .map(|j| nanosecond(self.read(t_cf, j - j % size), false))
            .collect()
    }

    fn jitter(&mut self, t_cf: i128, count: i128) -> Vec<i128> {
        let spacing = self.limits.frame / self.limits.n / GRAINS_PER_NANOSECOND;
        let reach = self
            .random
            .pick(&[2, spacing / 4, spacing, 3 * spacing])
            .max(1);
        let early = self.random.pick(&[0, reach, 2 * reach]);
        let mut arrivals: Vec<i128> = (0..count)
            .map(|j| {
                let moved = self.random.between(-reach, reach) - early;
                nanosecond(self.read(t_cf, j), false) + moved
            })
            .collect();
        arrivals.sort_unstable();
        arrivals
    }

    /// One packet late by nothing, a nanosecond or a microsecond, all others
    /// in time.
    fn late(&mut self, t_cf: i128, count: i128, late: i128) -> Vec<i128> {
        let by = self.random.pick(&[0, 1, 1, 1000]);
        let first = self.first_in_its_frame(t_cf);
        (0..count)
            .map(|j| match j {
                _ if j == late => nanosecond(self.read(t_cf, j), by == 0) + by,
                0 => first,
                _ => nanosecond(self.read(t_cf, j - 1), true),
            })
            .collect()
    }

    /// As many packets as the buffer holds, one more or one fewer, before read
    /// 0; then each at a read's instant, where the read comes after it, or a
    /// nanosecond later, where the read comes before it.
    fn buffer_edge(&mut self, t_cf: i128, count: i128) -> Vec<i128> {
        let full = self.limits.vrx_full + self.random.pick(&[-1, 0, 0, 1]);
        let later = self.random.pick(&[0, 1, 1, 1]);
        let start = nanosecond(self.read(t_cf, 0), false) - 1;
        (0..count)
            .map(|j| {
                if j < full {
                    start
                } else {
                    let up = later == 0 && self.random.chance(50);
                    nanosecond(self.read(t_cf, j - full), up) + later
                }
            })
            .collect()
    }

    /// The first packet half a frame from two frame times, where N turns over, of
    /// fields a quarter of a frame; the others in steps after it.
    fn half_frame(&mut self, t_cf: i128, count: i128) -> Vec<i128> {
        let half = Fraction::new(2 * t_cf - self.limits.period.length, 2);
        let first = self.near(half);
        let step = self.limits.frame / self.limits.n / GRAINS_PER_NANOSECOND;
        let step = self.random.pick(&[0, 1, step / 2, step]);
        (0..count).map(|j| first + j * step).collect()
    }

    fn scattered(&mut self, t_cf: i128, count: i128) -> Vec<i128> {
        let start = nanosecond(Fraction::whole(t_cf), false);
        let width = self.limits.period.length / GRAINS_PER_NANOSECOND;
        let mut arrivals: Vec<i128> = (0..count)
            .map(|_| start + self.random.between(-width / 2, width))
            .collect();
        arrivals.sort_unstable();
        arrivals
    }

    // --- the buffer's limit ---

    fn send_at_the_buffer_limit(&mut self) {
        self.send_lead_in();
        for frame in 1..=self.random.between(1, 2) {
            self.send_frame(frame, Pattern::BufferEdge, false);
        }
    }

    // --- the bucket's limit ---

    /// First perhaps one packet and a pause up to some drain instant; then as
    /// many packets at one instant as the bucket holds, or one more or fewer;
    /// then one packet a drain. Markers come where a frame has all its packets.
    fn send_at_the_bucket_limit(&mut self) {
        let first = self.first_arrival();
        let pause = self.random.chance(60);
        let mut arrivals = vec![];
        let mut start = first;
        if pause {
            arrivals.push(first);
            start = self.after_pause(first);
        }
        let pile = self.limits.c_max + self.random.pick(&[-1, 0, 0, 0, 0, 1]);
        arrivals.extend(vec![start; pile.min(5000) as usize]);
        self.extend_by_drains(&mut arrivals, first, start);
        self.send_marked(&arrivals);
    }

    fn first_arrival(&mut self) -> i128 {
        let start = Fraction::whole(self.t_cf(0));
        let moved = self.random.pick(&[0, 1, 26, 999]);
        nanosecond(start, true) + moved
    }

    /// At multiples of 11 a drain instant can be a whole nanosecond.
    fn after_pause(&mut self, first: i128) -> i128 {
        let k = self.random.between(1, 40) * self.random.pick(&[1, 11]);
        let drain = self.drain_after(first, k);
        self.near(drain)
    }

    /// Drain instant k, counted from the epoch; `first` is in nanoseconds.
    fn drain_after(&self, first: i128, k: i128) -> Fraction {
        let first = Fraction::whole(first * GRAINS_PER_NANOSECOND);
        drain_instant(&self.limits, k).plus(first)
    }

    fn extend_by_drains(&mut self, arrivals: &mut Vec<i128>, first: i128, start: i128) {
        let gone = drains_by(&self.limits, (start - first) * GRAINS_PER_NANOSECOND);
        let more = self.random.between(0, 120);
        let reckless = self.random.chance(40);
        for k in gone + 1..=gone + more {
            let exact = nanosecond(self.drain_after(first, k), true);
            let early = i128::from(reckless && self.random.chance(8));
            arrivals.push(exact - early);
        }
    }

    fn send_marked(&mut self, arrivals: &[i128]) {
        let n = self.limits.period.packets as usize;
        let phase = self.random.place(n);
        for (i, arrival) in arrivals.iter().enumerate() {
            let frame = (i + phase) / n;
            let first = arrivals[(frame * n).saturating_sub(phase)];
            let timestamp = self.timestamp(frame as i128, first);
            let marker = u8::from((i + phase) % n == n - 1);
            self.send(*arrival, timestamp, marker);
        }
    }
}

// --- what can be wrong with a list ---

pub(crate) fn spoil_list(random: &mut Random, packets: &mut Vec<Packet>) {
    if packets.is_empty() {
        return;
    }
    match random.below(100) {
        0..=7 => high_marker(random, packets),
        8..=15 => backwards(random, packets),
        16..=23 => long_gap(random, packets),
        24..=33 => ten_minutes(random, packets),
        34..=41 => cut(random, packets),
        42..=45 => drop_some(random, packets),
        46..=47 => random_markers(random, packets),
        _ => {}
    }
}

/// 11, now and then where 12 would be given as well.
fn high_marker(random: &mut Random, packets: &mut [Packet]) {
    let place = random.place(packets.len());
    packets[place].marker = random.pick(&[2, 3, 128, 255]);
    if random.chance(30) {
        let arrival = packets[place].arrival;
        packets[place].arrival = arrival.saturating_sub(1_000_000_000_000);
    }
}

/// 12, by one nanosecond or by more.
fn backwards(random: &mut Random, packets: &mut [Packet]) {
    let place = random.place(packets.len());
    let before = packets[place.saturating_sub(1)].arrival;
    let by = random.pick(&[1, 1, 1000, u64::MAX]);
    packets[place].arrival = before.saturating_sub(by);
}

/// All packets from some place on come later.
fn long_gap(random: &mut Random, packets: &mut [Packet]) {
    let place = random.place(packets.len());
    let by = 1_000_000 * (1 + random.below(2_000_000));
    for packet in &mut packets[place..] {
        packet.arrival = packet.arrival.saturating_add(by);
    }
}

/// The last packets exactly at the limit, or one nanosecond beyond: 13.
fn ten_minutes(random: &mut Random, packets: &mut Vec<Packet>) {
    let limit = packets[0].arrival.saturating_add(LONGEST_HISTORY);
    let last = packets[packets.len() - 1];
    for _ in 0..=random.below(3) {
        let over = random.pick(&[0, 0, 1]);
        let arrival = limit.saturating_add(over).max(last.arrival);
        let marker = random.pick(&[0, 0, 0, 1, 1, 1, 2]);
        packets.push(Packet::new(arrival, last.timestamp, marker));
    }
}

fn cut(random: &mut Random, packets: &mut Vec<Packet>) {
    let place = random.place(packets.len() + 1);
    packets.truncate(place);
}

/// Packets lost on the way, markers among them.
fn drop_some(random: &mut Random, packets: &mut Vec<Packet>) {
    packets.retain(|_| !random.chance(5));
}

fn random_markers(random: &mut Random, packets: &mut [Packet]) {
    for packet in packets {
        packet.marker = u8::from(random.chance(30));
    }
}

/// Numbers of which one or two are at or beyond the limit of 1 to 7.
pub fn refused_numbers(random: &mut Random) -> Numbers {
    let mut numbers = accepted_numbers(random);
    for _ in 0..=random.below(2) {
        spoil_number(random, &mut numbers);
    }
    numbers
}

fn spoil_number(random: &mut Random, numbers: &mut Numbers) {
    match random.below(10) {
        1 => numbers.rate = random.pick(&[0, 9, 255]),
        2 => numbers.schedule = random.pick(&[2, 3, 255]),
        0 | 3 => numbers.class = random.pick(&[against(numbers.schedule), 4]),
        4 => numbers.height = 0,
        5 => numbers.packets_per_frame = random.pick(&[0, 20_001, 0xffff_ffff]),
        6 => numbers.maxudp = random.pick(&[0, 1459, 1461, 8959, 8961, 65_535]),
        7 => numbers.tro = Some(refused_tro(random, numbers.rate)),
        _ => whole_frame_tro(random, numbers),
    }
}

/// The class that the other schedule only may have.
fn against(schedule: u64) -> u64 {
    if schedule == 0 {
        2
    } else {
        1
    }
}

fn refused_tro(random: &mut Random, rate: u64) -> u64 {
    let known = rate.clamp(1, 8);
    let first_refused = greatest_tro(known) + 1;
    random.pick(&[first_refused, first_refused + 1, 0xffff_fffe, 1_000_000])
}

/// At these rates a frame is a whole number of microseconds: TRO is exactly
/// one frame.
fn whole_frame_tro(random: &mut Random, numbers: &mut Numbers) {
    let (rate, tro) = random.pick(&[(3, 40_000), (6, 20_000)]);
    numbers.rate = rate;
    numbers.tro = Some(tro);
}
