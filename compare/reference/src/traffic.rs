//! Captures for the comparison: streams as frames that carry them, other traffic
//! between them, and all that can be wrong with a frame, a record, a header or
//! with what is asked.

use std::io;
use std::path::Path;

use crate::capture::{Asked, MICROSECONDS, NANOSECONDS};
use crate::generate::{flip, other_edition, other_profile, random_bytes, WIDE_PROFILES};
use crate::numbers::{set_up, Numbers, EDITIONS, EDITION_1, PROFILES};
use crate::packet::Packet;
use crate::pcap::{Capture, Frame, IPV4, TAG};
use crate::random::Random;
use crate::stream::{accepted_numbers, refused_numbers, spoil_list, stream, MODERN};

const SECOND: u64 = 1_000_000_000;
/// The first second that a capture cannot name.
const END_OF_SECONDS: u64 = 1 << 32;

/// Capture `index` of a seed, and what is asked of it.
pub fn capture(seed: u64, index: u64) -> (Asked, Vec<u8>) {
    // The files of `generate` depend on seed and number too, and so do the
    // cases; captures must not repeat their choices.
    let (asked, bytes) = any_capture(&mut Random::new(seed ^ 0x7063_6170, index));
    let edition = any_edition(&mut Random::new(seed ^ 0x6564_6974, index));
    let profile = any_profile(&mut Random::new(seed ^ 0x7072_6f66, index));
    (asked.by(edition).of(profile), bytes)
}

/// Now and then one that there is not.
fn any_edition(random: &mut Random) -> u32 {
    if random.chance(8) {
        other_edition(random)
    } else {
        random.pick(&EDITIONS)
    }
}

/// Now and then one that there is not, or that no profile has room for.
fn any_profile(random: &mut Random) -> u64 {
    match random.below(100) {
        0..=4 => other_profile(random),
        5..=6 => random.pick(&WIDE_PROFILES),
        _ => random.pick(&PROFILES),
    }
}

fn any_capture(random: &mut Random) -> (Asked, Vec<u8>) {
    match random.below(100) {
        0..=1 => front(random),
        2..=3 => any_bytes(random),
        4..=7 => no_packets(random),
        8..=13 => refused_words(random),
        14..=36 => damaged(random),
        _ => {
            let (asked, capture) = sent(random);
            (asked, capture.bytes())
        }
    }
}

/// Writes `count` captures `NNNNNN.pcap`, and the eleven words asked of each as
/// `NNNNNN.words`.
pub fn generate(seed: u64, count: u64, directory: &Path) -> io::Result<()> {
    std::fs::create_dir_all(directory)?;
    for index in 0..count {
        let (asked, bytes) = capture(seed, index);
        let file = directory.join(format!("{:06}.pcap", index));
        std::fs::write(file.with_extension("words"), asked.words().join(" ") + "\n")?;
        std::fs::write(file, bytes)?;
    }
    Ok(())
}

/// A header alone, or less.
fn front(random: &mut Random) -> (Asked, Vec<u8>) {
    let (asked, capture) = sent(random);
    let mut bytes = capture.bytes();
    let any = random.place(25);
    bytes.truncate(random.pick(&[0, 4, 20, 23, 24, 24, any]));
    (asked, bytes)
}

/// Half of them behind a good header.
fn any_bytes(random: &mut Random) -> (Asked, Vec<u8>) {
    let numbers = accepted_numbers(random);
    let asked = asked_for(random, numbers);
    let mut bytes = vec![];
    if random.chance(50) {
        bytes = empty(random).bytes();
    }
    bytes.extend(random_bytes(random));
    (asked, bytes)
}

/// Other traffic alone.
fn no_packets(random: &mut Random) -> (Asked, Vec<u8>) {
    let numbers = accepted_numbers(random);
    let asked = asked_for(random, numbers);
    let mut capture = empty(random);
    for _ in 0..random.below(6) {
        let time = random_time(random);
        push_other(random, &mut capture, asked.port, time);
    }
    (asked, capture.bytes())
}

/// A good capture of which something is asked that is refused, or both.
fn refused_words(random: &mut Random) -> (Asked, Vec<u8>) {
    let (mut asked, capture) = sent(random);
    let what = random.below(3);
    if what > 0 {
        asked.numbers = refused_numbers(random);
    }
    if what < 2 {
        let any = 100 + random.below(u64::from(u32::MAX) - 99) as u32;
        asked.offset = random.pick(&[100, 100, 128, 256, 256 + 37, 65_536, 1 << 31, u32::MAX, any]);
    }
    let mut bytes = capture.bytes();
    if random.chance(30) {
        bytes.truncate(random.place(40));
    }
    (asked, bytes)
}

fn damaged(random: &mut Random) -> (Asked, Vec<u8>) {
    let (asked, mut capture) = sent(random);
    match random.below(8) {
        0 => capture.magic = wrong_magic(random),
        1 => capture.link = wrong_link(random),
        2..=3 => wrong_fraction(random, &mut capture),
        4..=5 => wrong_length(random, &mut capture),
        _ => return (asked, damaged_bytes(random, capture.bytes())),
    }
    if random.chance(15) {
        return (asked, damaged_bytes(random, capture.bytes()));
    }
    (asked, capture.bytes())
}

// --- a capture of a stream ---

fn any_port(random: &mut Random) -> u16 {
    let any = random.bits() as u16;
    random.pick(&[20_000, 20_000, 5004, 0, 65_535, 0x0800, 0x0101, any])
}

fn asked_for(random: &mut Random, numbers: Numbers) -> Asked {
    Asked {
        port: any_port(random),
        offset: random.pick(&[0, 0, 1, 36, 37, 37, 37, 98, 99, 99]),
        numbers,
        edition: EDITION_1,
    }
}

fn empty(random: &mut Random) -> Capture {
    let magic = random.pick(&[MICROSECONDS, NANOSECONDS]);
    let mut capture = Capture::new(magic, random.chance(50));
    capture.noise = random.bits();
    capture
}

/// A stream in a capture, with other traffic between its packets or without.
fn sent(random: &mut Random) -> (Asked, Capture) {
    let (numbers, packets) = short_stream(random);
    let mut asked = asked_for(random, numbers);
    // Nothing is captured before the capture's own epoch.
    let least = packets.iter().map(|packet| packet.arrival).min();
    let seconds = least.unwrap_or(0) / SECOND;
    asked.offset = asked.offset.min(u32::try_from(seconds).unwrap_or(u32::MAX));
    let ahead = u64::from(asked.offset) * SECOND;
    let mut capture = empty(random);
    let mixed = random.pick(&[0, 0, 5, 20, 50]);
    let plain = random.chance(30);
    for packet in &packets {
        let time = packet.arrival - ahead;
        if random.chance(mixed) {
            push_other(random, &mut capture, asked.port, time);
        }
        let frame = if plain {
            Frame::of(asked.port, packet)
        } else {
            carrier(random, asked.port, packet)
        };
        capture.push(time, frame.bytes());
    }
    (asked, capture)
}

/// Tens of packets of a stream, mostly with so few in a frame that frames close.
fn short_stream(random: &mut Random) -> (Numbers, Vec<Packet>) {
    let (mut numbers, mut packets) = stream(random);
    for _ in 0..2 {
        if numbers.packets_per_frame > 30 {
            (numbers, packets) = stream(random);
        }
    }
    packets.truncate(random.pick(&[1, 3, 8, 20, 20, 40, 60, 100]));
    if random.chance(15) {
        spoil_list(random, &mut packets);
    }
    for packet in &mut packets {
        packet.marker = packet.marker.min(1);
    }
    within_seconds(random, &numbers, &mut packets);
    (numbers, packets)
}

/// A stream after the last second of a capture is sent earlier. The move is so
/// many whole frames that first packets stay where they were to their frames:
/// 27 frames are F nanoseconds.
fn within_seconds(random: &mut Random, numbers: &Numbers, packets: &mut [Packet]) {
    let latest = packets.iter().map(|packet| packet.arrival).max();
    if latest.unwrap_or(0) / SECOND < END_OF_SECONDS {
        return;
    }
    let limits = set_up(EDITION_1, numbers).expect("the numbers of a stream are accepted");
    let step = limits.frame as u64;
    let near_the_end = (END_OF_SECONDS - random.pick(&[1, 2, 700])) * SECOND;
    let target = random.pick(&[SECOND, MODERN as u64, MODERN as u64, near_the_end]);
    let first = packets[0].arrival;
    let moved = first.saturating_sub(target) / step * step;
    for packet in packets {
        packet.arrival = packet.arrival.saturating_sub(moved);
    }
}

fn random_time(random: &mut Random) -> u64 {
    random.below(END_OF_SECONDS) * SECOND + random.below(SECOND)
}

/// A frame that hands the packet on, with any of the parts that it may have; the
/// last of its headers may be the frame's end.
fn carrier(random: &mut Random, port: u16, packet: &Packet) -> Frame {
    let mut frame = Frame {
        noise: random.bits(),
        payload: random.pick(&[0, 0, 0, 1, 6, 30]),
        ..Frame::of(port, packet)
    };
    if random.chance(30) {
        frame.tags.push(TAG);
    }
    if random.chance(25) {
        let words = random.pick(&[1, 1, 2, 9, 10]);
        frame.ip_words = 5 + words;
        frame.options = 4 * usize::from(words);
    }
    if random.chance(25) {
        // Don't fragment, and the reserved bit.
        frame.fragment = random.pick(&[0x4000, 0x4000, 0x8000, 0xc000]);
    }
    if random.chance(25) {
        let any = random.below(16) as u8;
        frame.contributors = random.pick(&[0, 1, 2, 14, 15, any]);
        frame.contributor_bytes = 4 * usize::from(frame.contributors);
    }
    if random.chance(25) {
        let words = random.pick(&[0, 0, 1, 1, 2, 5, 64]);
        frame.extension = Some((words, 4 * usize::from(words)));
    }
    if random.below(8000) == 0 {
        frame.extension = Some((65_535, 262_140));
    }
    frame
}

// --- other traffic ---

/// At the time of the next packet, or at any other: the times of what is skipped
/// do not matter.
fn push_other(random: &mut Random, capture: &mut Capture, port: u16, time: u64) {
    let any = random_time(random);
    let time = random.pick(&[time, time, time, any]);
    let packet = Packet::new(0, random.bits() as u32, random.below(2) as u8);
    let frame = other(random, port, &packet);
    capture.push(time, frame);
}

/// A frame that would be handed on but for one thing. (Where that thing is no
/// fault, as a port that is the same turned round, it is handed on.)
fn other(random: &mut Random, port: u16, packet: &Packet) -> Vec<u8> {
    let mut frame = carrier(random, port, packet);
    match random.below(16) {
        0 => frame.ether_type = random.pick(&OTHER_TYPES),
        1..=2 => frame.tags = random.pick(&OTHER_TAGS).to_vec(),
        3 => frame.ip_version = random.pick(&[0, 1, 3, 5, 6, 12, 15]),
        4 => few_words(random, &mut frame),
        5 => frame.protocol = random.pick(&[0, 1, 2, 6, 6, 16, 18, 136, 255]),
        6 => frame.fragment = random.pick(&FRAGMENTS),
        7 => frame.port = other_port(random, port),
        8 => frame.rtp_version = random.pick(&[0, 1, 3]),
        9..=10 => false_extension(random, &mut frame),
        11 => frame.contributor_bytes = frame.contributor_bytes.saturating_sub(1),
        12 => return strange(random),
        _ => return snapped(random, &frame),
    }
    frame.bytes()
}

/// ARP, IPv6, LLDP, a length in place of a type, and neighbours of 0800.
const OTHER_TYPES: [u16; 9] = [
    0x86dd, 0x86dd, 0x0806, 0x88cc, 46, 0x0600, 0x0801, 0x0008, 0x0900,
];

/// Tags that are not one of type 8100.
pub const OTHER_TAGS: [&[u16]; 7] = [
    &[0x88a8],
    &[0x9100],
    &[TAG, TAG],
    &[0x88a8, TAG],
    &[TAG, 0x88a8],
    &[TAG, IPV4],
    &[0x8101],
];

/// More fragments, an offset, or both, with and without the two bits that are
/// not looked at.
const FRAGMENTS: [u16; 10] = [
    0x2000, 0x2000, 0x0001, 0x0100, 0x1000, 0x1fff, 0x2001, 0x6000, 0xe000, 0xffff,
];

fn few_words(random: &mut Random, frame: &mut Frame) {
    frame.ip_words = random.below(5) as u8;
    frame.options = 0;
}

fn other_port(random: &mut Random, port: u16) -> u16 {
    let others = [
        port.wrapping_add(1),
        port.wrapping_sub(1),
        port.swap_bytes(),
        port ^ 0x0100,
        port ^ 0x8000,
        !port,
    ];
    random.pick(&others)
}

/// Words that are not there, all or the last one's last byte; as many as make
/// nothing in 16 bits among them.
fn false_extension(random: &mut Random, frame: &mut Frame) {
    let few = random.below(40) as usize;
    frame.payload = 0;
    frame.extension = Some(random.pick(&[
        (1, 3),
        (1, 0),
        (2, 7),
        (10, 39),
        (64, 255),
        (16_384, 0),
        (16_384, few),
        (16_385, 4),
        (32_768, 0),
        (65_535, few),
        (65_535, 65_532),
    ]));
    if random.below(1000) == 0 {
        frame.extension = Some((65_535, 262_139));
    }
}

/// A frame of nothing, of little, or of anything.
fn strange(random: &mut Random) -> Vec<u8> {
    let any = random.place(200);
    let length = random.pick(&[0, 0, 1, 13, any]);
    (0..length).map(|_| random.bits() as u8).collect()
}

/// Captured up to the end of a header, or to one byte less, or anywhere.
fn snapped(random: &mut Random, frame: &Frame) -> Vec<u8> {
    let end = random.pick(&frame.ends());
    let any = random.place(end + 1);
    let keep = random.pick(&[end, end - 1, end - 1, any]);
    let mut bytes = frame.bytes();
    bytes.truncate(keep);
    bytes
}

// --- what can be wrong with a capture ---

/// pcapng, the modified magics (of which the first is Kuznetzov's), gzip, and
/// magics a bit or a byte off.
fn wrong_magic(random: &mut Random) -> u32 {
    random.pick(&WRONG_MAGICS)
}

pub const WRONG_MAGICS: [u32; 14] = [
    0x0a0d_0d0a,
    0xa1b2_cd34,
    0xa1e2_cb12,
    0xa12b_3c4d,
    0xa1b2_3cd4,
    0xa1b2_c34d,
    0x1f8b_0800,
    0x1c00_01ac,
    0x0000_0000,
    0xffff_ffff,
    0xa1b2_c3d5,
    0xa1b2_3c4c,
    0x21b2_c3d4,
    0xb2a1_d4c3,
];

fn wrong_link(random: &mut Random) -> u32 {
    random.pick(&WRONG_LINKS)
}

/// Others, 1 in the wrong byte order, and 1 with other bits set.
pub const WRONG_LINKS: [u32; 10] = [
    0,
    2,
    101,
    113,
    276,
    257,
    0x0100_0000,
    0x0001_0001,
    0xf000_0001,
    0x8000_0001,
];

/// On both sides of a second, in both units, on any record.
fn wrong_fraction(random: &mut Random, capture: &mut Capture) {
    if capture.records.is_empty() {
        return;
    }
    let limit = capture.fractions();
    let place = random.place(capture.records.len());
    let any = limit + random.below(u64::from(u32::MAX - limit)) as u32;
    let fractions = [limit, limit, limit - 1, u32::MAX, 1 << 31, 1_000_000, any];
    capture.records[place].fraction = random.pick(&fractions);
}

/// A captured length that is not the frame's: what follows is read out of step,
/// or the file ends too soon. Sums with the greatest come out small in 32 bits.
fn wrong_length(random: &mut Random, capture: &mut Capture) {
    if capture.records.is_empty() {
        return;
    }
    let last = capture.records.len() - 1;
    let any = random.place(last + 1);
    let place = random.pick(&[last, any]);
    let behind = &capture.records[place..];
    let rest: usize = behind.iter().map(|record| 16 + record.frame.len()).sum();
    let rest = rest as u32 - 16;
    let captured = capture.records[place].captured;
    capture.records[place].captured = random.pick(&[
        0,
        captured.saturating_sub(1),
        captured + 1,
        captured + 16,
        rest,
        rest + 1,
        captured.swap_bytes(),
        1 << 31,
        u32::MAX - 39,
        u32::MAX - 15,
        u32::MAX,
    ]);
}

fn damaged_bytes(random: &mut Random, mut bytes: Vec<u8>) -> Vec<u8> {
    match random.below(8) {
        0..=2 => bytes.truncate(random.place(bytes.len())),
        3 => bytes.truncate(random.place(bytes.len().min(120))),
        4..=6 => flip(random, &mut bytes),
        _ => bytes.extend(vec![random.pick(&[0, 1, 255]); 1 + random.place(17)]),
    }
    bytes
}
