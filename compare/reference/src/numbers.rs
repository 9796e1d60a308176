//! The grain, the seven stream numbers, the profile and the test plan's edition,
//! and what set-up derives from them.

use crate::fraction::Fraction;

/// "27 grains are one nanosecond."
pub const GRAINS_PER_NANOSECOND: i128 = 27;
/// "An RTP tick at 90 kHz is 300,000 grains."
pub const GRAINS_PER_TICK: i128 = 300_000;
pub const GRAINS_PER_MICROSECOND: i128 = 1_000 * GRAINS_PER_NANOSECOND;
pub const GRAINS_PER_SECOND: i128 = 1_000_000_000 * GRAINS_PER_NANOSECOND;
/// "P = 1,288,490,188,800,000 grains (2^32 ticks)."
pub const WRAP: i128 = 1_288_490_188_800_000;

/// The seven numbers and the profile as the caller gives them. `tro` is in whole
/// microseconds; `None` is the default. "Records keep class 0 and a default TRO as
/// written", so nothing is worked out here; what class 0 means in a file is
/// `record`'s.
#[derive(Clone, Copy, Debug, PartialEq, Eq)]
pub struct Numbers {
    pub rate: u64,
    pub schedule: u64,
    pub class: u64,
    pub height: u64,
    pub packets_per_frame: u64,
    pub maxudp: u64,
    pub tro: Option<u64>,
    /// As the kind of the parameter record that chooses it.
    pub profile: u64,
}

impl Numbers {
    /// 1080 lines at 50 frames a second, gapped, narrow, with so many packets a
    /// frame, as video: what most tests begin with.
    pub const fn narrow(packets_per_frame: u64) -> Numbers {
        Numbers {
            rate: 6,
            schedule: 0,
            class: 1,
            height: 1080,
            packets_per_frame,
            maxudp: 1460,
            tro: None,
            profile: VIDEO,
        }
    }

    /// The same numbers as those of another profile.
    pub fn of(&self, profile: u64) -> Numbers {
        Numbers { profile, ..*self }
    }
}

/// Request (vii): "Add a profile". It has no number but its record's: "a parameter
/// record of kind 3, laid out as kind 1, chooses it"; and request (ix): "a parameter
/// record of kind 4, laid out as kind 1, chooses it".
pub const VIDEO: u64 = 1;
pub const COMPRESSED: u64 = 3;
pub const INTERLACED: u64 = 4;
pub const PROFILES: [u64; 3] = [VIDEO, COMPRESSED, INTERLACED];

/// What is measured of a stream.
#[derive(Clone, Copy, Debug, PartialEq, Eq)]
pub enum Profile {
    Video,
    /// "ST 2110-22 senders, to which the receiver buffer model does not apply".
    Compressed,
    /// "On old studio cameras each marker closes a field."
    Interlaced,
}

/// Any other is an "unknown kind".
pub(crate) fn profile_of(number: u64) -> Option<Profile> {
    match number {
        VIDEO => Some(Profile::Video),
        COMPRESSED => Some(Profile::Compressed),
        INTERLACED => Some(Profile::Interlaced),
        _ => None,
    }
}

/// What a marker closes: a frame, or a field.
#[derive(Clone, Copy, Debug, PartialEq, Eq)]
pub struct Period {
    /// In grains. Periods start at its multiples.
    pub length: i128,
    /// Its packets, and its reads.
    pub packets: i128,
}

/// A frame has F and n. "field periods start at multiples of F/2, the field has n/2
/// packets": none where n is odd.
fn period_of(profile: Profile, frame: i128, n: i128) -> Option<Period> {
    let in_a_frame = match profile {
        Profile::Video | Profile::Compressed => 1,
        Profile::Interlaced => 2,
    };
    // Every frame length is even.
    assert_eq!(frame % in_a_frame, 0);
    (n % in_a_frame == 0).then_some(Period {
        length: frame / in_a_frame,
        packets: n / in_a_frame,
    })
}

/// Request (vi): "the edition is chosen at set-up". What carries none means
/// edition 1: `vtiming`, the writer, the limits, the next read.
pub const EDITION_1: u32 = 1;
pub const EDITION_2: u32 = 2;
pub const EDITIONS: [u32; 2] = [EDITION_1, EDITION_2];

/// The editions of the test plan.
#[derive(Clone, Copy, Debug, PartialEq, Eq)]
pub enum Edition {
    One,
    Two,
}

/// "an edition other than 1 or 2" is none.
fn edition_of(number: u32) -> Option<Edition> {
    match number {
        EDITION_1 => Some(Edition::One),
        EDITION_2 => Some(Edition::Two),
        _ => None,
    }
}

/// What set-up derives.
#[derive(Clone, Copy, Debug, PartialEq, Eq)]
pub struct Limits {
    /// The test plan by which the buffer is judged. No limit depends on it.
    pub edition: Edition,
    /// Whether there is a buffer to be judged. "The limits C_MAX and VRX_FULL use n
    /// and the whole frame" whatever it is.
    pub profile: Profile,
    /// F, in grains: the whole frame's.
    pub frame: i128,
    /// R of the schedule.
    pub r: Fraction,
    /// n: the whole frame's.
    pub n: i128,
    /// The frame, or the field.
    pub period: Period,
    /// TRO, in grains.
    pub tro: i128,
    pub c_max: i128,
    pub vrx_full: i128,
}

/// The three classes; 0 is none of its own.
#[derive(Clone, Copy, Debug, PartialEq, Eq)]
pub enum Class {
    Narrow,
    NarrowLinear,
    Wide,
}

/// "The frame length in grains for each rate code, 1 to 8."
pub fn frame_length(rate: u64) -> Option<i128> {
    match rate {
        1 => Some(1_126_125_000),
        2 => Some(1_125_000_000),
        3 => Some(1_080_000_000),
        4 => Some(900_900_000),
        5 => Some(900_000_000),
        6 => Some(540_000_000),
        7 => Some(450_450_000),
        8 => Some(450_000_000),
        _ => None,
    }
}

/// "Schedule: 0 gapped (R = 24/25, from 1080/1125), 1 linear (R = 1)."
pub fn schedule_ratio(schedule: u64) -> Option<Fraction> {
    match schedule {
        0 => Some(Fraction::new(24, 25)),
        1 => Some(Fraction::whole(1)),
        _ => None,
    }
}

/// "Class: 1 narrow (gapped only), 2 narrow linear (linear only), 3 wide
/// (either)." Request (viii): "From now on 0 means narrow on a gapped schedule
/// and narrow linear on a linear one. [...] Set-up without a file takes the new
/// meaning."
pub fn class_of(class: u64, schedule: u64) -> Option<Class> {
    match (class, schedule) {
        (0, 0) | (1, 0) => Some(Class::Narrow),
        (0, 1) | (2, 1) => Some(Class::NarrowLinear),
        (3, _) => Some(Class::Wide),
        _ => None,
    }
}

/// "TRO: given in whole microseconds, below one frame, or default: 43F/1125
/// for height 1080 and up, else 28F/750." Request (ix): "TRO must be given", and "7
/// also for a default TRO or one of F/2 and above".
fn tro_grains(profile: Profile, numbers: &Numbers, frame: i128, period: Period) -> Option<i128> {
    match (numbers.tro, profile) {
        (Some(microseconds), _) => given_tro(microseconds, period),
        (None, Profile::Interlaced) => None,
        (None, _) => Some(default_tro(numbers.height, frame)),
    }
}

fn given_tro(microseconds: u64, period: Period) -> Option<i128> {
    let grains = i128::from(microseconds) * GRAINS_PER_MICROSECOND;
    (grains < period.length).then_some(grains)
}

fn default_tro(height: u64, frame: i128) -> i128 {
    let tro = if height >= 1080 {
        Fraction::new(43 * frame, 1125)
    } else {
        Fraction::new(28 * frame, 750)
    };
    // "Both are whole grains at all eight rates."
    assert!(tro.is_whole());
    tro.floor()
}

/// INT(n/(divisor·T)), with T the frame in seconds; `divisor` carries R where
/// the paper has it.
fn int_n_over(n: i128, divisor: Fraction, frame: i128) -> i128 {
    let t = Fraction::new(frame, GRAINS_PER_SECOND);
    Fraction::whole(n).divided_by(divisor.times(t)).floor()
}

/// "C_MAX: narrow MAX(4, INT(n/(43200·R·T))); narrow linear
/// MAX(4, INT(n/(43200·T))); wide MAX(16, INT(n/(21600·T)))."
fn c_max(class: Class, n: i128, r: Fraction, frame: i128) -> i128 {
    let divisor = |whole| Fraction::whole(whole);
    match class {
        Class::Narrow => 4_i128.max(int_n_over(n, divisor(43_200).times(r), frame)),
        Class::NarrowLinear => 4_i128.max(int_n_over(n, divisor(43_200), frame)),
        Class::Wide => 16_i128.max(int_n_over(n, divisor(21_600), frame)),
    }
}

/// "VRX_FULL: narrow and narrow linear MAX(INT(12000/MAXUDP),
/// INT(n/(27000·T))); wide MAX(INT(1080000/MAXUDP), INT(n/(300·T)))."
fn vrx_full(class: Class, n: i128, maxudp: i128, frame: i128) -> i128 {
    let (bytes, divisor) = match class {
        Class::Narrow | Class::NarrowLinear => (12_000, 27_000),
        Class::Wide => (1_080_000, 300),
    };
    let by_size = Fraction::new(bytes, maxudp).floor();
    by_size.max(int_n_over(n, Fraction::whole(divisor), frame))
}

/// Set-up. "1..7: set-up, in this order: rate, schedule, class (unknown or
/// against the schedule), height, n, MAXUDP, TRO." Request (vi): "8 for an
/// edition other than 1 or 2, after 7." Request (vii) has no number of its own: a
/// profile that there is not is an "unknown kind", 22, which in a file comes before
/// set-up and so comes before 1 without one. Request (ix): "5 also for odd n here, 7
/// also for a default TRO or one of F/2 and above."
pub fn set_up(edition: u32, numbers: &Numbers) -> Result<Limits, u8> {
    let profile = profile_of(numbers.profile).ok_or(22)?;
    let frame = frame_length(numbers.rate).ok_or(1)?;
    let r = schedule_ratio(numbers.schedule).ok_or(2)?;
    let class = class_of(numbers.class, numbers.schedule).ok_or(3)?;
    check((1..=65_535).contains(&numbers.height), 4)?;
    check((1..=20_000).contains(&numbers.packets_per_frame), 5)?;
    let n = i128::from(numbers.packets_per_frame);
    let period = period_of(profile, frame, n).ok_or(5)?;
    check([1460, 8960].contains(&numbers.maxudp), 6)?;
    let tro = tro_grains(profile, numbers, frame, period).ok_or(7)?;
    let edition = edition_of(edition).ok_or(8)?;
    Ok(Limits {
        edition,
        profile,
        frame,
        r,
        n,
        period,
        tro,
        c_max: c_max(class, n, r, frame),
        vrx_full: vrx_full(class, n, i128::from(numbers.maxudp), frame),
    })
}

fn check(holds: bool, number: u8) -> Result<(), u8> {
    if holds {
        Ok(())
    } else {
        Err(number)
    }
}

#[cfg(test)]
mod tests {
    use super::*;

    /// On a linear schedule R is 1: no answer says which of the two class 0 is
    /// there.
    #[test]
    fn on_a_linear_schedule_narrow_and_narrow_linear_have_the_same_limits() {
        let linear = schedule_ratio(1).unwrap();
        for frame in (1..=8).map(|rate| frame_length(rate).unwrap()) {
            for n in (1..=20_000).step_by(7) {
                let most = |class| c_max(class, n, linear, frame);
                assert_eq!(most(Class::Narrow), most(Class::NarrowLinear));
                for maxudp in [1460, 8960] {
                    let full = |class| vrx_full(class, n, maxudp, frame);
                    assert_eq!(full(Class::Narrow), full(Class::NarrowLinear));
                }
            }
        }
        // On a gapped schedule it would matter.
        let (gapped, frame) = (schedule_ratio(0).unwrap(), frame_length(6).unwrap());
        assert_eq!(c_max(Class::Narrow, 4148, gapped, frame), 5);
        assert_eq!(c_max(Class::NarrowLinear, 4148, gapped, frame), 4);
    }
}
